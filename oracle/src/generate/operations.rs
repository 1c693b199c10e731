//! Tables of AMOs with operations.

use super::cases::Case;
use crate::litmus::*;
use crate::operation::Operation::{self, Add, And, Larger, Or, Smaller, Xor};
use crate::table::{Event, Table, ACQUIRE_RCPC, RELEASE_RCPC};

/// Values read: about the largest operand, about where a sum leaves two bytes, and the ends.
const READS: [u16; 8] = [0, 1, 254, 255, 256, 65280, 65281, 65535];

/// Operands, two to a table.
const OPERANDS: [[u8; 2]; 2] = [[0, 255], [1, 128]];

/// Each operation with each of the operands and values read.
pub fn operation_edges() -> Vec<Table> {
    let mut tables = Vec::new();
    for operation in Operation::SOME {
        for operands in OPERANDS {
            let amos = |operand: u8| READS.map(|read| amo_with(0, X, read, operation, operand));
            tables.push(table(operands.map(amos).concat()));
        }
    }
    tables
}

/// An AMO to x whose written value is stated.
fn apply(hart: usize, read: u16, operation: Operation, operand: u8, written: u16) -> Event {
    amo(hart, X, read, written).operation(operation, operand)
}

/// A table whose location x has an initial value.
fn initially(x: u16, events: Vec<Event>) -> Table {
    let mut table = table(events);
    table.initial[X] = x;
    table
}

/// Each operation, with an outcome that some order of the accesses gives, and not every one.
pub fn operation_cases() -> Vec<Case> {
    let three_adds = vec![apply(0, 2, Add, 1, 3), apply(1, 0, Add, 1, 1), apply(2, 1, Add, 1, 2)];
    let wraps = vec![apply(0, 65535, Add, 1, 0), load(1, X, 0)];
    let clears = vec![apply(0, 0x1234, And, 255, 0x34), load(1, X, 0x34)];
    let two_flags = vec![apply(0, 2, Or, 1, 3), apply(1, 0, Or, 2, 2)];
    let twice = vec![apply(0, 65535, Xor, 255, 65280), apply(1, 65280, Xor, 255, 65535)];
    let largest = vec![apply(0, 5, Larger, 9, 9), apply(1, 9, Larger, 7, 9)];
    let smallest = vec![apply(0, 3, Smaller, 7, 3), apply(1, 256, Smaller, 3, 3)];
    vec![
        ("operation-three-adds", initially(0, three_adds).with_final(X, 3)),
        ("operation-add-wraps", initially(65535, wraps)),
        ("operation-and-clears-the-high-byte", initially(0x1234, clears)),
        ("operation-or-sets-two-flags", initially(0, two_flags)),
        ("operation-xor-twice", initially(65535, twice)),
        ("operation-largest-of-three", initially(5, largest).with_final(X, 9)),
        ("operation-smallest-of-three", initially(256, smallest)),
    ]
}

/// AMOs with operations beside what else an event may have, and beside other events.
pub fn mixed_operation_cases() -> Vec<Case> {
    let passes = vec![
        store(0, Y, 1),
        apply(0, 0, Or, 4, 4).flags(RELEASE_RCPC),
        apply(1, 4, And, 3, 0).flags(ACQUIRE_RCPC),
        load(1, Y, 0),
    ];
    let dependent = vec![load(0, Y, 0), apply(0, 0, Xor, 1, 1).data_from(0)];
    let unchanged = vec![apply(0, 9, Or, 0, 9), load(0, X, 9)];
    let swap = vec![apply(0, 7, Add, 2, 9), amo(1, X, 0, 7)];
    let pair = vec![lr(0, X, 0), sc(0, X, 1), apply(1, 0, Add, 2, 2)];
    vec![
        ("operation-passes", table(passes)),
        ("operation-rule-10", table(dependent)),
        ("operation-rule-3-of-an-equal-value", initially(9, unchanged)),
        ("operation-and-swap", table(swap)),
        ("operation-atomicity", table(pair).with_final(X, 1)),
    ]
}

#[cfg(test)]
mod tests {
    use super::*;
    use crate::encode::encode;
    use crate::generate::orders::permutations;
    use crate::rules::is_witness;
    use crate::table::read;

    #[test]
    fn all_are_read() {
        let cases = [operation_cases(), mixed_operation_cases()].concat();
        let tables = cases.into_iter().map(|(_, table)| table).chain(operation_edges());
        for table in tables {
            assert_eq!(read(&encode(&table)), Ok(table));
        }
    }

    #[test]
    fn some_order_gives_each_outcome_and_not_every_one() {
        for (name, table) in operation_cases() {
            let orders = permutations(&table.memory_events());
            let witnesses = orders.iter().filter(|order| is_witness(&table, order)).count();
            assert!(witnesses > 0 && witnesses < orders.len(), "{name}");
        }
    }
}
