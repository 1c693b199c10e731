//! The public litmus tests as ladders of strength: tests with the same accesses, of which one has further fences, annotations or
//! dependencies.

use crate::litmus::Test;
use crate::strength::{bare, is_stronger};
use oracle::litmus::fence;
use oracle::table::{names, read, Event, Kind, Table, MASK_BITS};

/// Two tables, of which the second is at least as strong.
pub struct Rung {
    pub first: Table,
    pub second: Table,
}

/// Each test beside itself without fence bits, annotations and dependencies, beside itself, and beside each other test that is
/// stronger.
pub fn rungs(tests: &[Test]) -> Vec<Rung> {
    let tables: Vec<Table> = tests.iter().map(|test| read(&test.block).expect("a public test is good")).collect();
    let mut rungs = Vec::new();
    for second in &tables {
        let first = Table { events: second.events.iter().map(bare).collect(), ..second.clone() };
        rungs.push(Rung { first, second: second.clone() });
    }
    for first in &tables {
        let stronger = tables.iter().filter_map(|second| with_same_fences(first, second));
        rungs.extend(stronger.filter(|rung| is_stronger(&rung.first, &rung.second)));
    }
    rungs
}

/// Two tests with the same accesses, hart after hart. A fence that only one of them has is one of no bits in the other.
fn with_same_fences(first: &Table, second: &Table) -> Option<Rung> {
    let mut slots = Vec::new();
    for hart in 0..first.harts.max(second.harts) {
        let of_hart = |table: &Table| -> Vec<usize> {
            (0..table.events.len()).filter(|&e| table.events[e].hart == hart).rev().collect()
        };
        let (mut left, mut right) = (of_hart(first), of_hart(second));
        while !(left.is_empty() && right.is_empty()) {
            let [is_left, is_right] = [is_next_fence(first, &left), is_next_fence(second, &right)];
            let from = match (is_left, is_right) {
                (true, false) => [left.pop(), None],
                (false, true) => [None, right.pop()],
                _ => [Some(left.pop()?), Some(right.pop()?)],
            };
            slots.push(Slot { hart, from });
        }
    }
    Some(Rung { first: arranged(first, &slots, 0), second: arranged(second, &slots, 1) })
}

/// A place in both tables, and the event of each that stands there.
struct Slot {
    hart: usize,
    from: [Option<usize>; 2],
}

fn is_next_fence(table: &Table, left: &[usize]) -> bool {
    left.last().is_some_and(|&e| table.events[e].kind == Kind::Fence)
}

/// The table with its events in these places, and a fence of no bits where it has none.
fn arranged(table: &Table, slots: &[Slot], side: usize) -> Table {
    let place = |e: usize| slots.iter().position(|slot| slot.from[side] == Some(e));
    let moved = |mask: u32| {
        let named = (0..MASK_BITS).filter(|&e| names(mask, e));
        named.filter_map(place).fold(0, |mask, e| mask | 1 << e)
    };
    let event = |slot: &Slot| match slot.from[side] {
        None => fence(slot.hart, 0),
        Some(e) => {
            let event = table.events[e].clone();
            let (address, data, control) = (moved(event.address), moved(event.data), moved(event.control));
            Event { address, data, control, ..event }
        }
    };
    Table { events: slots.iter().map(event).collect(), ..table.clone() }
}

#[cfg(test)]
mod tests {
    use super::*;
    use oracle::encode::encode;
    use oracle::litmus::{c1, c2, c9_address, c9_control};

    fn test(table: &Table) -> Test {
        Test { stated: String::new(), block: encode(table), name: String::new() }
    }

    #[test]
    fn a_missing_fence_is_one_of_no_bits() {
        let rung = with_same_fences(&c1(), &c2()).expect("the accesses are the same");
        assert_eq!(rung.second, c2());
        assert_eq!(rung.first.events[1], fence(0, 0));
        assert!(is_stronger(&rung.first, &rung.second) && !is_stronger(&rung.second, &rung.first));
    }

    #[test]
    fn masks_name_the_events_in_their_new_places() {
        let rung = with_same_fences(&c9_address(), &c2()).expect("the accesses are the same");
        assert_eq!(rung.first.events[5].address, 1 << 3);
        assert!(!is_stronger(&rung.first, &rung.second));
    }

    #[test]
    fn c1_is_weaker_than_c2_and_both_c9() {
        let tests = [c1(), c2(), c9_control(), c9_address()].map(|table| test(&table));
        // Four beside themselves without anything, four beside themselves, C1 beside the others.
        assert_eq!(rungs(&tests).len(), 4 + 4 + 3);
    }
}
