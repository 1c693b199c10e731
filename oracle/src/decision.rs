//! Decisions: whether a test has a witness above a list of events, and the least one. They are told
//! from the list of all witnesses.

use crate::generate::orders::bytes;
use crate::layout::MOST_EVENTS;
use crate::rules::is_witness;
use crate::search::{Answer, Engine, Prefixes, MAX_ALLOWANCE};
use crate::table::{read, refuse_if, Line, Refusal, Table};
use std::cell::RefCell;

/// An order as the bytes that are written.
pub type Order = Vec<u8>;

#[derive(Clone, PartialEq, Eq, Debug)]
pub enum Decision {
    Found(Order),
    NoneLeft,
}

/// All witnesses of a table with a short list of clean prefixes, ascending: every whole one of these
/// is asked.
pub fn witnesses(table: &Table) -> Vec<Order> {
    let found = RefCell::new(Vec::new());
    let take_note = |order: &[usize]| {
        if is_witness(table, order) {
            found.borrow_mut().push(bytes(order));
        }
        false
    };
    let prefixes = Prefixes::of(table, Engine::First);
    let answer = prefixes.search(&take_note, &[], &mut [0; MOST_EVENTS], MAX_ALLOWANCE);
    assert!(matches!(answer, Ok(Answer::NoneLeft { .. })), "the list is short");
    found.into_inner()
}

/// "the least witness greater than the start, or none left"; lists compare as prefixes do.
pub fn next_witness(witnesses: &[Order], start: &[u8]) -> Decision {
    let next = witnesses.iter().find(|order| order[..] > *start);
    next.map_or(Decision::NoneLeft, |order| Decision::Found(order.clone()))
}

/// The decisions of one call after the other: the witnesses of a test are kept for the next call, if
/// that is of the same test.
#[derive(Default)]
pub struct Decider {
    last: Option<(Vec<u8>, Vec<Order>)>,
}

impl Decider {
    /// Refusals 1 to 11 and 21 of the test, then 16 for a buffer shorter than the memory events. The
    /// start may be any list. Found writes the order, and bytes past it stay; none left writes nothing.
    pub fn decide(
        &mut self,
        test: &[u8],
        start: &[u8],
        buffer: &mut [u8],
    ) -> Result<Decision, Refusal> {
        let table = read(test)?;
        refuse_if(buffer.len() < table.memory_events().len(), Line::Buffer)?;
        let decision = next_witness(self.witnesses(test, &table), start);
        if let Decision::Found(order) = &decision {
            buffer[..order.len()].copy_from_slice(order);
        }
        Ok(decision)
    }

    fn witnesses(&mut self, test: &[u8], table: &Table) -> &[Order] {
        if self.last.as_ref().is_none_or(|(last, _)| last != test) {
            self.last = Some((test.to_vec(), witnesses(table)));
        }
        self.last.as_ref().map_or(&[], |(_, witnesses)| witnesses)
    }
}

#[cfg(test)]
mod tests {
    use super::*;
    use crate::encode::encode;
    use crate::generate::calls::small_table_in;
    use crate::generate::orders::permutations;
    use crate::generate::prng::Prng;
    use crate::litmus::*;
    use crate::table::Model;

    const TABLES: usize = 300;
    /// Every order of so many memory events is tried.
    const MOST_ORDERED: usize = 6;

    fn decide(test: &Table, start: &[u8]) -> Decision {
        Decider::default().decide(&encode(test), start, &mut [0; MOST_EVENTS]).expect("no refusal")
    }

    fn found(order: &[u8]) -> Decision {
        Decision::Found(order.to_vec())
    }

    #[test]
    fn the_witnesses_are_those_among_all_orders() {
        let mut prng = Prng::new(1);
        let mut tables = 0;
        while tables < TABLES {
            let table = small_table_in(*prng.pick(&Model::ALL), &mut prng);
            if table.memory_events().len() <= MOST_ORDERED {
                let orders = permutations(&table.memory_events());
                let stated = orders.iter().filter(|order| is_witness(&table, order));
                let stated: Vec<Order> = stated.map(|order| bytes(order)).collect();
                assert_eq!(witnesses(&table), stated);
                tables += 1;
            }
        }
    }

    /// Its witnesses are 1230, 1302, 1320, 3012, 3102 and 3120.
    #[test]
    fn any_list_is_a_start() {
        for (start, order) in [
            (&[][..], &[1, 2, 3, 0][..]),
            (&[0, 0, 0, 0, 0], &[1, 2, 3, 0]),
            (&[1, 2, 3, 0], &[1, 3, 0, 2]),
            (&[1, 2, 3, 0, 0], &[1, 3, 0, 2]),
            (&[1, 3], &[1, 3, 0, 2]),
            (&[1, 3, 1], &[1, 3, 2, 0]),
            (&[1, 4], &[3, 0, 1, 2]),
            (&[1, 255], &[3, 0, 1, 2]),
            (&[2, 2], &[3, 0, 1, 2]),
            (&[3, 1, 1], &[3, 1, 2, 0]),
        ] {
            assert_eq!(decide(&c1(), start), found(order), "{start:?}");
        }
        for start in [&[3, 1, 2, 0][..], &[3, 1, 3], &[3, 2], &[4], &[255; 255]] {
            assert_eq!(decide(&c1(), start), Decision::NoneLeft, "{start:?}");
        }
        assert_eq!(decide(&c2(), &[]), Decision::NoneLeft);
    }

    #[test]
    fn a_short_buffer_is_refused_behind_the_test_and_left_alone() {
        let call = |test: &[u8], start: &[u8], length: usize| {
            let mut buffer = vec![7; length];
            let decision = Decider::default().decide(test, start, &mut buffer);
            (decision.map_err(|refusal| refusal.line), buffer)
        };
        let block = encode(&c1());
        assert_eq!(call(&block, &[255], 3), (Err(Line::Buffer), vec![7; 3]));
        assert_eq!(call(&block[1..], &[], 0), (Err(Line::Length), vec![]));
        assert_eq!(call(&block, &[], 5), (Ok(found(&[1, 2, 3, 0])), vec![1, 2, 3, 0, 7]));
        assert_eq!(call(&block, &[4], 4), (Ok(Decision::NoneLeft), vec![7; 4]));
    }
}
