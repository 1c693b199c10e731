//! Texts that ask for values which follow from the order.

use super::orders::permutations;
use super::texts::{all_of, text_of, text_with};
use crate::condition::Condition;
use crate::following::{value_at_end, value_returned};
use crate::litmus::*;
use crate::operation::Operation::{self, Add, And, Larger, Or, Smaller, Xor};
use crate::rules::is_lawful;
use crate::table::{Event, Table};
use crate::text::Document;

/// Each kind of reader at two locations, and a location that nothing writes.
fn readers() -> Table {
    let mut test = table(vec![
        store(0, X, 1),
        load(1, X, 0),
        lr(1, Y, 0),
        sc(1, Y, 3),
        amo(0, Y, 0, 5),
        amo(2, X, 0, 0).operation(Add, 2),
        load(2, Z, 0),
    ]);
    test.initial = [4, 0, 9, 0, 0, 0, 0, 0];
    test
}

/// What is asked of them: of loads, LRs and AMOs, of locations written and not written.
const ASKED: [&str; 24] = [
    "r1=1",
    "r1=4",
    "r1=3",
    "r1=6",
    "r1=2",
    "r2=0",
    "r2=5",
    "not r2=0",
    "r4=3",
    "not r4=3",
    "r5=1",
    "r5=0",
    "r6=9",
    "r6=0",
    "x2=9",
    "not x2=9",
    "x2=0",
    "x1=5",
    "x1=3",
    "( x0=1 and r5=4 )",
    "( x0=3 and ( r1=1 or x2=0 ) )",
    "not ( r2=0 or not r4=3 )",
    "( ( r1=4 and r2=5 ) and ( x1=3 and x2=9 ) )",
    "( not ( x0=1 or x0=3 ) or r6=1 )",
];

pub fn asked_texts() -> Vec<String> {
    let test = readers();
    ASKED.iter().map(|condition| text_with(&test, condition)).collect()
}

fn apply(hart: usize, operation: Operation, operand: u8) -> Event {
    amo(hart, X, 0, 0).operation(operation, operand)
}

/// AMOs with operations whose values depend on their order, each with the initial value of x.
fn chains() -> Vec<(u16, Vec<Event>)> {
    vec![
        (2, vec![apply(0, Add, 3), apply(1, Larger, 4), apply(2, Xor, 1)]),
        (65_535, vec![apply(0, Add, 1), apply(1, Smaller, 5), apply(2, Xor, 255)]),
        (0x1234, vec![apply(0, And, 15), apply(1, Or, 64), load(2, X, 0)]),
        (7, vec![apply(0, Add, 1), apply(0, Add, 1), store(1, X, 40)]),
        (7, vec![apply(0, Add, 1), apply(1, Add, 1), apply(2, Add, 1), apply(3, Add, 1)]),
        (1, vec![lr(0, X, 0), sc(0, X, 8), apply(1, Add, 2), apply(1, And, 7)]),
        (3, vec![apply(0, Xor, 255), amo(1, X, 0, 60), apply(2, Smaller, 50)]),
        (9, vec![store(0, X, 20), apply(0, Larger, 30), load(1, X, 0), apply(1, Add, 5)]),
    ]
}

/// For each of these, texts that ask for the outcome of each lawful order, and one that asks for one
/// that no order has.
pub fn amo_texts() -> Vec<String> {
    chains().into_iter().flat_map(|(initial, events)| outcome_texts(initial, events)).collect()
}

fn outcome_texts(initial: u16, events: Vec<Event>) -> Vec<String> {
    let mut test = table(events);
    test.initial[X] = initial;
    let orders = permutations(&test.memory_events());
    let lawful = orders.iter().filter(|order| is_lawful(&test, order));
    let mut outcomes: Vec<Condition> = lawful.map(|order| outcome(&test, order)).collect();
    outcomes.sort_by_key(Condition::to_string);
    outcomes.dedup();
    outcomes.push(Condition::Ends { location: X as u8, value: 12_345 });
    let text = |condition| Document { condition, ..text_of(&test) }.to_string();
    outcomes.into_iter().map(text).collect()
}

/// The values that an order gives to each reader and leaves at x.
fn outcome(test: &Table, order: &[usize]) -> Condition {
    let readers = (0..test.events.len()).filter(|&event| test.events[event].reads());
    let returned = readers.map(|reader| Condition::Returns {
        event: reader as u8,
        value: value_returned(test, order, reader),
    });
    let end = Condition::Ends { location: X as u8, value: value_at_end(test, order, X) };
    all_of(&returned.chain([end]).collect::<Vec<_>>())
}

#[cfg(test)]
mod tests {
    use super::*;
    use crate::layout::MOST_EVENTS;
    use crate::search::{Answer, MAX_ALLOWANCE};
    use crate::text_test::search_text;

    fn is_found(text: &str) -> bool {
        let answer = search_text(text.as_bytes(), &[], &mut [0; MOST_EVENTS], MAX_ALLOWANCE);
        matches!(answer.expect("no line refuses"), Answer::Found { .. })
    }

    #[test]
    fn every_chain_has_several_outcomes_and_only_the_last_text_asks_for_none_of_them() {
        for (initial, events) in chains() {
            let texts = outcome_texts(initial, events);
            let (last, others) = texts.split_last().expect("there is an outcome");
            assert!(others.len() >= 2 && others.iter().all(|text| is_found(text)));
            assert!(!is_found(last));
        }
    }

    #[test]
    fn some_of_what_is_asked_is_found_and_some_is_not() {
        let found = asked_texts().iter().filter(|text| is_found(text)).count();
        assert!(found >= 8 && found <= ASKED.len() - 6, "{found}");
    }
}
