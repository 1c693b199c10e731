//! The next outcomes of a test in plain Rust, by the same algorithm as the proved ones: one walk through all clean prefixes,
//! in which each whole order that is lawful gives an outcome, and the least of those above the previous one are kept in order.

use crate::facts::{highest, Facts};
use crate::plain::each_order;
use crate::reading::{applied, read, Refusal};
use crate::table::{Table, EVENTS, LOCATIONS};

/// No call lists more outcomes.
pub const OUTCOMES: usize = 64;

/// An outcome of a block has no more values.
pub const VALUES: usize = EVENTS + LOCATIONS;

#[derive(Clone, Copy, Debug, PartialEq)]
pub enum Listing {
    Listed { outcomes: usize, values: usize },
    NoneLeft,
    Spent,
}

/// For each reader its place in an outcome. Those of the locations follow.
struct Places {
    of_reader: [usize; EVENTS],
    readers: usize,
    values: usize,
}

impl Places {
    fn of(t: &Table) -> Places {
        let mut places = Places { of_reader: [0; EVENTS], readers: 0, values: 0 };
        for e in (0..t.count).filter(|&e| t.events[e].reads()) {
            places.of_reader[e] = places.readers;
            places.readers += 1;
        }
        places.values = places.readers + t.locations;
        places
    }
}

/// The outcome of a clean order of all memory events; none if it isn't lawful. The places of the locations hold what their last
/// writers so far have left.
fn outcome(t: &Table, facts: &Facts, places: &Places, order: &[u8]) -> Option<[u16; VALUES]> {
    let mut row = [0; VALUES];
    row[places.readers..places.values].copy_from_slice(&t.initial[..t.locations]);
    let mut placed = 0;
    for &e in order {
        let e = usize::from(e);
        if !facts.may_place(e, placed) {
            return None;
        }
        let event = &t.events[e];
        let here = places.readers + usize::from(event.location);
        if event.reads() {
            let missing = facts.own[e] & !placed;
            row[places.of_reader[e]] = if missing == 0 { row[here] } else { t.events[highest(missing)].written };
        }
        if event.writes() {
            let read = row[places.of_reader[e]];
            row[here] = applied(event.operation, read, event.operand).unwrap_or(event.written);
        }
        placed |= 1 << e;
    }
    Some(row)
}

/// The least outcomes so far, ascending.
struct Least {
    rows: [[u16; VALUES]; OUTCOMES],
    len: usize,
    most: usize,
}

impl Least {
    /// Puts one in at its place, unless it is there or above all of as many as may be kept.
    fn insert(&mut self, row: [u16; VALUES], values: usize) {
        let kept = &self.rows[..self.len];
        let Err(at) = kept.binary_search_by(|other| other[..values].cmp(&row[..values])) else { return };
        if at == self.most {
            return;
        }
        self.len = self.most.min(self.len + 1);
        self.rows.copy_within(at..self.len - 1, at + 1);
        self.rows[at] = row;
    }
}

/// The next outcomes of a block, as many as the buffer has room for; the arguments are taken for good.
pub fn outcomes(block: &[u8], previous: &[u16], out: &mut [u16], allowance: u64) -> Result<Listing, Refusal> {
    let t = read(block)?;
    let (facts, places) = (Facts::of(&t), Places::of(&t));
    let values = places.values;
    let most = OUTCOMES.min(out.len() / values);
    let mut least = Least { rows: [[0; VALUES]; OUTCOMES], len: 0, most };
    let is_whole = each_order(&facts, allowance, |order| {
        if let Some(row) = outcome(&t, &facts, &places, order) {
            if row[..values] > *previous {
                least.insert(row, values);
            }
        }
    });
    if !is_whole {
        return Ok(Listing::Spent);
    }
    if least.len == 0 {
        return Ok(Listing::NoneLeft);
    }
    for (place, row) in out.chunks_mut(values).zip(&least.rows[..least.len]) {
        place.copy_from_slice(&row[..values]);
    }
    Ok(Listing::Listed { outcomes: least.len, values })
}

#[cfg(test)]
mod tests {
    use super::*;
    use oracle::encode::encode;
    use oracle::generate::prng::Prng;
    use oracle::generate::random::random_table;
    use oracle::outcome::{outcome_length, write, Arguments, Asked, Lister, Listing as Other};
    use oracle::search::MAX_ALLOWANCE;
    use oracle::table::Model;

    const TABLES: usize = 2_000;
    const FEW_EVENTS: usize = 6;
    const CALLS: usize = 6;
    const UNTOUCHED: u16 = 0xEEEE;

    fn same(listing: &Other) -> Listing {
        match listing {
            Other::Listed(outcomes) => Listing::Listed { outcomes: outcomes.len(), values: outcomes[0].len() },
            Other::NoneLeft => Listing::NoneLeft,
            Other::Spent => Listing::Spent,
        }
    }

    #[test]
    fn the_outcomes_are_those_of_the_independent_program() {
        let mut prng = Prng::new(1);
        for _ in 0..TABLES {
            let (harts, locations) = (1 + prng.below(4), 1 + prng.below(3));
            let events = 1 + prng.below(FEW_EVENTS);
            let table = random_table(&mut prng, harts, locations, events).in_model(*prng.pick(&Model::ALL));
            let (block, values, mut lister) = (encode(&table), outcome_length(&table), Lister::default());
            for _ in 0..CALLS {
                let length = *prng.pick(&[0, values]);
                let previous: Vec<u16> = (0..length).map(|_| prng.below(4) as u16).collect();
                let places = values * (1 + prng.below(5)) + prng.below(3);
                let allowance = *prng.pick(&[20, MAX_ALLOWANCE, MAX_ALLOWANCE, MAX_ALLOWANCE]);
                let arguments = Arguments { asked: Asked::Some, previous: &previous, places, allowance };
                let stated = lister.list(&block, arguments).expect("no line refuses");
                let (mut out, mut other) = (vec![UNTOUCHED; places], vec![UNTOUCHED; places]);
                write(&stated, &mut other);
                assert_eq!(outcomes(&block, &previous, &mut out, allowance), Ok(same(&stated)));
                assert_eq!(out, other);
            }
        }
    }
}
