//! Tables with one outcome and with hundreds, and chains of AMOs.

use super::cases::Case;
use crate::layout::{MAX_LOCATIONS, MOST_EVENTS};
use crate::litmus::*;
use crate::operation::Operation::{self, Add, And, Larger, Or, Smaller, Xor};
use crate::table::{Event, Table};

/// Tables all of whose lawful orders give the same values.
pub fn single_outcomes() -> Vec<Case> {
    let zeros = vec![store(0, X, 0), load(1, X, 0), amo(2, X, 0, 0), load(3, X, 0)];
    let no_change = vec![amo_with(0, X, 9, Or, 0), amo_with(1, X, 9, And, 255), load(2, X, 9)];
    let fences =
        vec![store(0, X, 1), fence(0, FULL), store(0, Y, 1), fence(0, FULL), store(0, Z, 1)];
    let untouched = Table { locations: 2, ..c10() }.with_final(Y, 5);
    vec![
        ("one-store", table(vec![store(0, X, u16::MAX)])),
        ("one-value-of-many-orders", table(zeros)),
        ("one-value-of-amos", Table { initial: [9, 0, 0, 0, 0, 0, 0, 0], ..table(no_change) }),
        ("one-order", table(fences)),
        // The stated final value isn't looked at.
        ("one-with-an-untouched-location", untouched),
        ("one-of-eight-locations", eight_stores()),
        ("one-of-38-values", most_values()),
    ]
}

fn eight_stores() -> Table {
    let stores = (0..MAX_LOCATIONS).map(|l| [store(0, l, 65_528 + l as u16), fence(0, FULL)]);
    table(stores.flatten().collect())
}

/// As many readers and locations as a test can have.
fn most_values() -> Table {
    let followed = |k: usize| Event { address: (1 << k) >> 1, ..load(0, k % MAX_LOCATIONS, 0) };
    let initial = std::array::from_fn(|location| 1000 * location as u16);
    Table { initial, ..table((0..MOST_EVENTS).map(followed).collect()) }
}

/// Tables with more outcomes than one call lists.
pub fn many_outcomes() -> Vec<Case> {
    let stores = |count: usize| (0..count).map(|hart| store(hart, X, 3 - hart as u16));
    let watched = |loads: usize| {
        let watching = (0..loads).map(|_| load(3, X, 0));
        table(stores(3).chain(watching).collect())
    };
    // Three stores, two of them of one hart, and two harts that each load twice.
    let mut watched_twice = vec![store(0, X, 1), store(1, X, 2), store(1, X, 3)];
    watched_twice.extend([2, 2, 3, 3].map(|hart| load(hart, X, 0)));
    vec![
        ("many-two-loads-of-three-stores", watched(2)),
        ("many-three-loads-of-three-stores", watched(3)),
        ("many-four-loads-of-three-stores", watched(4)),
        ("many-two-watching-harts", table(watched_twice)),
        ("many-chains-of-adds", two_chains(12, 3, |k| (Add, 1 << (k % 8)))),
        ("many-long-chains-of-adds", two_chains(26, 2, |k| (Add, k as u8 + 1))),
    ]
}

/// Chains of AMOs to one location: of one hart, where they have one outcome, and of two and more.
pub fn amo_chains() -> Vec<Case> {
    const MIXED: [(Operation, u8); 8] = [
        (Add, 200),
        (Xor, 255),
        (Larger, 77),
        (And, 120),
        (Or, 3),
        (Smaller, 90),
        (Add, 255),
        (Xor, 1),
    ];
    let mixed = |k: usize| MIXED[k % MIXED.len()];
    let swaps = |k: usize| amo(k % 2, X, 0, k as u16 + 1);
    let four = (0..4).map(|hart| amo_with(hart, X, 0, Add, 1 << hart)).collect();
    let wrapping = Table {
        initial: [65_530, 0, 0, 0, 0, 0, 0, 0],
        ..two_chains(3, 3, |k| (Add, 2 * k as u8 + 1))
    };
    // What an AMO leaves is read, stored over, and read through its own hart's buffer.
    let beside = vec![
        amo_with(0, X, 0, Add, 5),
        load(0, X, 0),
        store(1, X, 100),
        amo_with(1, X, 0, Xor, 7),
        load(1, X, 0),
        amo(2, X, 0, 50),
    ];
    let pairs = vec![
        lr(0, X, 0),
        sc(0, X, 10),
        amo_with(0, X, 0, Add, 1),
        amo_with(1, X, 0, Add, 2),
        lr(1, X, 0),
        sc(1, X, 20),
    ];
    let two_places = vec![
        amo_with(0, X, 0, Add, 1),
        amo_with(0, Y, 0, Or, 1),
        amo_with(1, Y, 0, Or, 2),
        amo_with(1, X, 0, Add, 2),
        load(2, Y, 0),
    ];
    vec![
        ("amos-of-one-hart", two_chains(MOST_EVENTS, 0, mixed)),
        ("amos-of-two-harts", two_chains(4, 4, mixed)),
        ("amos-of-two-harts-unequal", two_chains(9, 1, mixed)),
        ("amos-of-four-harts", table(four)),
        ("amos-that-wrap", wrapping),
        ("amos-that-swap", table((0..6).map(swaps).collect())),
        ("amos-beside-others", table(beside)),
        ("amos-beside-pairs", table(pairs)),
        ("amos-of-two-locations", table(two_places)),
    ]
}

/// So many AMOs of hart 0 to x, then so many of hart 1, with the operations given.
fn two_chains(first: usize, second: usize, of: impl Fn(usize) -> (Operation, u8)) -> Table {
    let chain = |k: usize| {
        let (operation, operand) = of(k);
        amo_with(usize::from(k >= first), X, 0, operation, operand)
    };
    table((0..first + second).map(chain).collect())
}

#[cfg(test)]
mod tests {
    use super::*;
    use crate::encode::encode_fitting;
    use crate::outcome::{outcome_length, Within};
    use crate::search::MAX_ALLOWANCE;
    use crate::table::read;

    fn count(table: &Table) -> usize {
        Within::of(table, MAX_ALLOWANCE).all().expect("the list is short").len()
    }

    #[test]
    fn all_are_read() {
        for (name, table) in [single_outcomes(), many_outcomes(), amo_chains()].concat() {
            assert_eq!(read(&encode_fitting(&table)), Ok(table), "{name}");
        }
    }

    #[test]
    fn there_are_tables_with_one_outcome_and_with_hundreds() {
        for (name, table) in single_outcomes() {
            assert_eq!(count(&table), 1, "{name}");
        }
        let counts = many_outcomes().into_iter().map(|(_, table)| count(&table));
        let hundreds = counts.filter(|&count| count > 200);
        assert_eq!(hundreds.count(), 3);
        assert_eq!(outcome_length(&most_values()), 38);
    }

    #[test]
    fn amos_of_one_hart_have_one_outcome_and_others_have_some() {
        for (name, table) in amo_chains() {
            let count = count(&table);
            assert_eq!(count == 1, table.harts == 1, "{name}: {count}");
        }
    }
}
