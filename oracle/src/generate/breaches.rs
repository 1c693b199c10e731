//! One valid table of edition 1, and for each clause of the lines 3 to 10 and 21 changes of its block's
//! bytes that break the clause.

use super::damage::Change;
use crate::encode::{encode, seal};
use crate::layout::one::{field::*, *};
use crate::layout::*;
use crate::litmus::*;
use crate::operation::Operation::{self, Add, And, Larger, Or, Smaller, Xor};
use crate::table::{Line, Table, ACQUIRE_RCSC, PR, RELEASE_RCPC, SW};

#[derive(Clone, Copy)]
pub struct Breach {
    pub line: Line,
    pub record: Option<usize>,
    changes: &'static [Change],
}

impl Breach {
    /// Breaks the clause in a block; the check is made right again.
    pub fn apply(&self, block: &mut [u8]) {
        for &(at, value) in self.changes {
            block[at] = value;
        }
        seal(block);
    }
}

/// The base: 3 harts, 5 locations, 13 events, and all seven kinds. Of the AMOs one has an
/// operation, which clears the high byte.
pub fn base() -> Table {
    let events = vec![
        load(0, 0, 7),
        store(0, 1, 300).data_from(0),
        lr(1, 2, 5),
        fence(0, PR | SW),
        amo(2, 0, 7, 65535),
        sc(1, 2, 9),
        fence_tso(2),
        load(0, 3, 258).address_from(0).control_from(0),
        store(0, 4, 4).control_from(0).flags(RELEASE_RCPC),
        lr(2, 3, 6),
        sc(2, 3, 8).data_from(9),
        load(2, 1, 0).flags(ACQUIRE_RCSC),
        amo(1, 3, 258, 2).operation(And, 255),
    ];
    Table { initial: [7, 0, 5, 258, 0, 0, 0, 0], ..table(events) }
        .with_final(0, 65535)
        .with_final(2, 9)
}

pub fn base_block() -> Vec<u8> {
    encode(&base())
}

/// All breaches, in the order of the lines.
pub fn breaches() -> Vec<Breach> {
    let header = [
        (Line::Marker, MARKER_BREACHES),
        (Line::Edition, EDITION_BREACHES),
        (Line::Ranges, RANGES_BREACHES),
        (Line::Zeros, ZEROS_BREACHES),
    ];
    let records = [
        (Line::Fields, FIELDS_BREACHES),
        (Line::Fields, OPERATIONS_BREACHES),
        (Line::Fields, WRITTEN_BREACHES),
        (Line::Annotations, ANNOTATIONS_BREACHES),
        (Line::Dependencies, DEPENDENCIES_BREACHES),
        (Line::Pairing, PAIRING_BREACHES),
    ];
    let mut all = Vec::new();
    for (line, breaches) in header {
        all.extend(breaches.iter().map(|&changes| Breach { line, record: None, changes }));
    }
    for (line, breaches) in records {
        let breach = |&(record, changes)| Breach { line, record: Some(record), changes };
        all.extend(breaches.iter().map(breach));
    }
    let line = Line::UnusedLocation;
    all.extend(UNUSED_BREACHES.iter().map(|&changes| Breach { line, record: None, changes }));
    all
}

const MARKER_BREACHES: &[&[Change]] = &[
    &[(0, 0x53)],
    &[(0, 0)],
    &[(1, 0x57)],
    &[(2, 0x55)],
    &[(3, 0x30)],
    &[(3, 0x32)],
    // The marker with its bytes turned round.
    &[(0, 0x31), (1, 0x54), (2, 0x56), (3, 0x52)],
];

const EDITION_BREACHES: &[&[Change]] =
    &[&[(EDITION_AT, 0)], &[(EDITION_AT, 3)], &[(EDITION_AT, 9)], &[(EDITION_AT, 255)]];

const RANGES_BREACHES: &[&[Change]] = &[
    &[(HARTS_AT, 0)],
    &[(HARTS_AT, 5)],
    &[(HARTS_AT, 255)],
    &[(LOCATIONS_AT, 0)],
    &[(LOCATIONS_AT, 9)],
    &[(LOCATIONS_AT, 255)],
    &[(EVENTS_AT, 0)],
    &[(EVENTS_AT, 17)],
    &[(EVENTS_AT, 200)],
    &[(EVENTS_AT, 255)],
    // The mask names the first location past the test's five, the last one, all eight.
    &[(STATED_AT, 1 << 5)],
    &[(STATED_AT, 1 << 7 | 0b101)],
    &[(STATED_AT, 255)],
];

const ZEROS_BREACHES: &[&[Change]] = &[
    &[(10, 1)],
    &[(12, 200)],
    &[(15, 255)],
    &[(304, 1)],
    &[(400, 16)],
    &[(507, 255)],
    // Initial values of the locations 5 and 7, which aren't in the test.
    &[(initial_at(5), 1)],
    &[(initial_at(5) + 1, 1)],
    &[(initial_at(7) + 1, 255)],
    // Final values not stated: locations in the test, then not in it.
    &[(final_at(1), 1)],
    &[(final_at(4) + 1, 1)],
    &[(final_at(5), 3)],
    &[(final_at(7) + 1, 255)],
    // A stated value that is no longer stated.
    &[(STATED_AT, 0b001)],
    // Records past the events: the first, the last, their operations and operands.
    &[(record_at(13) + KIND, 1)],
    &[(record_at(13) + FLAGS, 1)],
    &[(record_at(14) + HART, 1)],
    &[(record_at(14) + CONTROL + 1, 128)],
    &[(record_at(15) + WRITTEN + 1, 1)],
    &[(record_at(13) + OPERATION, 1)],
    &[(record_at(14) + OPERATION, 255)],
    &[(record_at(15) + OPERAND, 255)],
    // One event fewer leaves the last record past the events.
    &[(EVENTS_AT, 12)],
];

/// Breaches of a line that names a record: the record, and the changes.
type RecordBreaches = &'static [(usize, &'static [Change])];

const FIELDS_BREACHES: RecordBreaches = &[
    // Kind out of range.
    (0, &[(record_at(0) + KIND, 0)]),
    (4, &[(record_at(4) + KIND, 8)]),
    (7, &[(record_at(7) + KIND, 77)]),
    (11, &[(record_at(11) + KIND, 0)]),
    (11, &[(record_at(11) + KIND, 8)]),
    (11, &[(record_at(11) + KIND, 255)]),
    // Hart out of range, on accesses and on fences.
    (0, &[(record_at(0) + HART, 3)]),
    (3, &[(record_at(3) + HART, 3)]),
    (6, &[(record_at(6) + HART, 4)]),
    (11, &[(record_at(11) + HART, 255)]),
    // Location out of range.
    (0, &[(record_at(0) + LOCATION, 5)]),
    (4, &[(record_at(4) + LOCATION, 8)]),
    (11, &[(record_at(11) + LOCATION, 255)]),
    // Flags out of range, on accesses and on a fence.
    (0, &[(record_at(0) + FLAGS, 16)]),
    (1, &[(record_at(1) + FLAGS, 255)]),
    (3, &[(record_at(3) + FLAGS, 16)]),
    (3, &[(record_at(3) + FLAGS, 255)]),
    (11, &[(record_at(11) + FLAGS, 16 | ACQUIRE_RCSC)]),
    // A value read, but nothing reads: store, fence, SC, fence.tso.
    (1, &[(record_at(1) + READ, 1)]),
    (3, &[(record_at(3) + READ + 1, 1)]),
    (5, &[(record_at(5) + READ, 5)]),
    (6, &[(record_at(6) + READ, 255)]),
    (8, &[(record_at(8) + READ + 1, 255)]),
    // A value written, but nothing writes: load, LR, fence, fence.tso.
    (0, &[(record_at(0) + WRITTEN, 1)]),
    (2, &[(record_at(2) + WRITTEN + 1, 1)]),
    (3, &[(record_at(3) + WRITTEN, 1)]),
    (6, &[(record_at(6) + WRITTEN + 1, 255)]),
    (11, &[(record_at(11) + WRITTEN, 255)]),
    // A fence with a location, or with a mask that would suit an access.
    (3, &[(record_at(3) + LOCATION, 1)]),
    (3, &[(record_at(3) + LOCATION, 255)]),
    (3, &[(record_at(3) + ADDRESS, 1)]),
    (3, &[(record_at(3) + DATA, 1)]),
    (3, &[(record_at(3) + CONTROL, 1)]),
    (6, &[(record_at(6) + LOCATION, 4)]),
    (6, &[(record_at(6) + ADDRESS, 1 << 4)]),
    (6, &[(record_at(6) + DATA, 1 << 4)]),
    (6, &[(record_at(6) + CONTROL, 1 << 4)]),
    (6, &[(record_at(6) + CONTROL + 1, 128)]),
    // Flags on fence.tso.
    (6, &[(record_at(6) + FLAGS, 1)]),
    (6, &[(record_at(6) + FLAGS, 15)]),
    (6, &[(record_at(6) + FLAGS, 16)]),
];

const OPERATIONS_BREACHES: RecordBreaches = &[
    // An operation above 6; some would be none or `and` if they were cut to three bits.
    (4, &[(record_at(4) + OPERATION, 7)]),
    (4, &[(record_at(4) + OPERATION, 8)]),
    (12, &[(record_at(12) + OPERATION, 7)]),
    (12, &[(record_at(12) + OPERATION, 8 | And as u8)]),
    (12, &[(record_at(12) + OPERATION, 128 | And as u8)]),
    (12, &[(record_at(12) + OPERATION, 255)]),
    (3, &[(record_at(3) + OPERATION, 128)]),
    // An operation on another kind, though the value written would be right: load, LR, fence,
    // SC, fence.tso, store, SC, load.
    (0, &[(record_at(0) + OPERATION, And as u8)]),
    (2, &[(record_at(2) + OPERATION, Smaller as u8)]),
    (3, &[(record_at(3) + OPERATION, Add as u8)]),
    (5, &[(record_at(5) + OPERATION, Or as u8), (record_at(5) + OPERAND, 9)]),
    (6, &[(record_at(6) + OPERATION, Larger as u8)]),
    (8, &[(record_at(8) + OPERATION, Xor as u8), (record_at(8) + OPERAND, 4)]),
    (10, &[(record_at(10) + OPERATION, Add as u8), (record_at(10) + OPERAND, 8)]),
    (11, &[(record_at(11) + OPERATION, And as u8), (record_at(11) + OPERAND, 255)]),
    // An operation on another kind, and a wrong value: load, store.
    (0, &[(record_at(0) + OPERATION, Add as u8)]),
    (1, &[(record_at(1) + OPERATION, Add as u8), (record_at(1) + OPERAND, 255)]),
    // An operand without an operation, on each kind.
    (0, &[(record_at(0) + OPERAND, 1)]),
    (1, &[(record_at(1) + OPERAND, 255)]),
    (2, &[(record_at(2) + OPERAND, 128)]),
    (3, &[(record_at(3) + OPERAND, 1)]),
    (4, &[(record_at(4) + OPERAND, 255)]),
    (5, &[(record_at(5) + OPERAND, 9)]),
    (6, &[(record_at(6) + OPERAND, 255)]),
    (11, &[(record_at(11) + OPERAND, 255)]),
    (12, &[(record_at(12) + OPERATION, Operation::None as u8)]),
];

/// Another operation with its operand and values, for the AMO of record 12.
const fn applied(operation: Operation, operand: u8, read: u16, written: u16) -> [Change; 6] {
    let [read, read_high] = read.to_le_bytes();
    let [written, written_high] = written.to_le_bytes();
    [
        (record_at(12) + OPERATION, operation as u8),
        (record_at(12) + OPERAND, operand),
        (record_at(12) + READ, read),
        (record_at(12) + READ + 1, read_high),
        (record_at(12) + WRITTEN, written),
        (record_at(12) + WRITTEN + 1, written_high),
    ]
}

/// A value written that isn't what the operation makes of the value read.
const WRITTEN_BREACHES: RecordBreaches = &[
    // The base's `and`: one more, the high byte kept, another value read, another operand.
    (12, &[(record_at(12) + WRITTEN, 3)]),
    (12, &[(record_at(12) + WRITTEN + 1, 1)]),
    (12, &[(record_at(12) + READ, 3)]),
    (12, &[(record_at(12) + OPERAND, 253)]),
    // What `and` writes, by each other operation.
    (12, &[(record_at(12) + OPERATION, Add as u8)]),
    (12, &[(record_at(12) + OPERATION, Or as u8)]),
    (12, &[(record_at(12) + OPERATION, Xor as u8)]),
    (12, &[(record_at(12) + OPERATION, Larger as u8)]),
    (12, &[(record_at(12) + OPERATION, Smaller as u8)]),
    // Add: the operand ignored, no carry to the high byte, the largest value kept, modulo
    // 65,535.
    (12, &applied(Add, 9, 5, 5)),
    (12, &applied(Add, 1, 255, 0)),
    (12, &applied(Add, 1, 65535, 65535)),
    (12, &applied(Add, 1, 65535, 1)),
    (12, &applied(Add, 255, 65535, 255)),
    // And: the operand ignored, its sign spread over the high byte.
    (12, &applied(And, 0, 7, 7)),
    (12, &applied(And, 255, 65535, 65535)),
    // Or: the high byte cleared, added.
    (12, &applied(Or, 255, 256, 255)),
    (12, &applied(Or, 4, 5, 9)),
    // Exclusive or: as `or`, both bytes turned.
    (12, &applied(Xor, 255, 255, 255)),
    (12, &applied(Xor, 255, 65535, 0)),
    // Larger: the smaller one, compared as signed, more than two equal ones.
    (12, &applied(Larger, 255, 254, 254)),
    (12, &applied(Larger, 255, 65535, 255)),
    (12, &applied(Larger, 9, 9, 10)),
    // Smaller: the larger one, compared as signed, less than two equal ones.
    (12, &applied(Smaller, 255, 256, 256)),
    (12, &applied(Smaller, 255, 65535, 65535)),
    (12, &applied(Smaller, 1, 1, 0)),
];

const ANNOTATIONS_BREACHES: RecordBreaches = &[
    // Both acquires.
    (0, &[(record_at(0) + FLAGS, 0b0011)]),
    (1, &[(record_at(1) + FLAGS, 0b0111)]),
    (2, &[(record_at(2) + FLAGS, 0b0011)]),
    (4, &[(record_at(4) + FLAGS, 0b0011)]),
    (5, &[(record_at(5) + FLAGS, 0b1011)]),
    (11, &[(record_at(11) + FLAGS, 0b0011)]),
    // Both releases.
    (0, &[(record_at(0) + FLAGS, 0b1101)]),
    (4, &[(record_at(4) + FLAGS, 0b1110)]),
    (8, &[(record_at(8) + FLAGS, 0b1100)]),
    (10, &[(record_at(10) + FLAGS, 0b1100)]),
    // Both of both.
    (11, &[(record_at(11) + FLAGS, 0b1111)]),
    // A load or an LR with release and no acquire.
    (0, &[(record_at(0) + FLAGS, 0b0100)]),
    (0, &[(record_at(0) + FLAGS, 0b1000)]),
    (2, &[(record_at(2) + FLAGS, 0b1000)]),
    (9, &[(record_at(9) + FLAGS, 0b0100)]),
    (9, &[(record_at(9) + FLAGS, 0b1000)]),
    (11, &[(record_at(11) + FLAGS, 0b0100)]),
    // A plain store or an SC with acquire and no release.
    (1, &[(record_at(1) + FLAGS, 0b0001)]),
    (1, &[(record_at(1) + FLAGS, 0b0010)]),
    (5, &[(record_at(5) + FLAGS, 0b0001)]),
    (10, &[(record_at(10) + FLAGS, 0b0010)]),
];

const DEPENDENCIES_BREACHES: RecordBreaches = &[
    // An event that isn't earlier: itself, a later one.
    (0, &[(record_at(0) + ADDRESS, 1 << 0)]),
    (0, &[(record_at(0) + ADDRESS, 1 << 7)]),
    (1, &[(record_at(1) + DATA, 1 << 1)]),
    (7, &[(record_at(7) + ADDRESS + 1, 1 << 0)]),
    (8, &[(record_at(8) + DATA + 1, 1 << 0)]),
    (8, &[(record_at(8) + CONTROL + 1, 1 << 0)]),
    (11, &[(record_at(11) + ADDRESS + 1, 1 << 3)]),
    // An event of another hart.
    (2, &[(record_at(2) + ADDRESS, 1 << 0)]),
    (7, &[(record_at(7) + ADDRESS, 1 << 2)]),
    (8, &[(record_at(8) + DATA, 1 << 4)]),
    (8, &[(record_at(8) + CONTROL, 1 << 0 | 1 << 5)]),
    // No event of the test: the first number past the events, and bit 15.
    (0, &[(record_at(0) + ADDRESS + 1, 1 << 7)]),
    (8, &[(record_at(8) + DATA + 1, 1 << 5)]),
    (8, &[(record_at(8) + DATA + 1, 1 << 7)]),
    (8, &[(record_at(8) + CONTROL + 1, 1 << 5)]),
    (11, &[(record_at(11) + CONTROL + 1, 1 << 7)]),
    // A plain store.
    (7, &[(record_at(7) + ADDRESS, 1 << 1)]),
    (8, &[(record_at(8) + DATA, 1 << 1)]),
    (8, &[(record_at(8) + CONTROL, 1 << 0 | 1 << 1)]),
    // A fence, a fence.tso.
    (7, &[(record_at(7) + ADDRESS, 1 << 3)]),
    (8, &[(record_at(8) + DATA, 1 << 3)]),
    (8, &[(record_at(8) + CONTROL, 1 << 0 | 1 << 3)]),
    (11, &[(record_at(11) + ADDRESS, 1 << 6)]),
    // A data mask on a non-writer: loads and an LR, each naming what an address mask may.
    (7, &[(record_at(7) + DATA, 1 << 0)]),
    (9, &[(record_at(9) + DATA, 1 << 4)]),
    (11, &[(record_at(11) + DATA, 1 << 4)]),
    // A control bit that a later memory event of the hart lacks.
    (7, &[(record_at(8) + CONTROL, 0)]),
    (9, &[(record_at(9) + CONTROL, 1 << 4)]),
    (9, &[(record_at(9) + CONTROL, 1 << 4), (record_at(10) + CONTROL, 1 << 4)]),
    (10, &[(record_at(10) + CONTROL + 1, 1 << 1)]),
    // The later event lacks one bit of two.
    (
        10,
        &[
            (record_at(10) + CONTROL, 1 << 4),
            (record_at(10) + CONTROL + 1, 1 << 1),
            (record_at(11) + CONTROL, 1 << 4),
        ],
    ),
];

const PAIRING_BREACHES: RecordBreaches = &[
    // The LR's location is another.
    (5, &[(record_at(5) + LOCATION, 3)]),
    (5, &[(record_at(2) + LOCATION, 0)]),
    (10, &[(record_at(10) + LOCATION, 4)]),
    // No LR: it is a load, or on another hart.
    (5, &[(record_at(2) + KIND, 1)]),
    (5, &[(record_at(2) + HART, 2)]),
    (10, &[(record_at(9) + KIND, 1)]),
    // The SC's own hart is another.
    (5, &[(record_at(5) + HART, 2)]),
    // Two SCs, the first with no LR.
    (9, &[(record_at(9) + KIND, 5), (record_at(9) + READ, 0)]),
    // LR, SC, SC.
    (11, &[(record_at(11) + KIND, 5), (record_at(11) + LOCATION, 3), (record_at(11) + FLAGS, 0)]),
];

const UNUSED_BREACHES: &[&[Change]] = &[
    // The only event of location 4 goes to another, or is a fence.
    &[(record_at(8) + LOCATION, 1)],
    &[
        (record_at(8) + KIND, 6),
        (record_at(8) + LOCATION, 0),
        (record_at(8) + FLAGS, 0),
        (record_at(8) + CONTROL, 0),
        (record_at(8) + WRITTEN, 0),
    ],
    // Nothing is left at location 1; at location 3, whose initial value isn't 0; at both.
    &[(record_at(1) + LOCATION, 0), (record_at(11) + LOCATION, 4)],
    &[
        (record_at(7) + LOCATION, 4),
        (record_at(9) + LOCATION, 2),
        (record_at(10) + LOCATION, 2),
        (record_at(12) + LOCATION, 1),
    ],
    &[
        (record_at(1) + LOCATION, 0),
        (record_at(7) + LOCATION, 4),
        (record_at(9) + LOCATION, 2),
        (record_at(10) + LOCATION, 2),
        (record_at(11) + LOCATION, 4),
        (record_at(12) + LOCATION, 0),
    ],
    // Nothing is left at location 2, and its final value isn't stated any more.
    &[
        (STATED_AT, 0b001),
        (final_at(2), 0),
        (record_at(2) + LOCATION, 3),
        (record_at(5) + LOCATION, 3),
    ],
];

#[cfg(test)]
mod tests {
    use super::*;
    use crate::table::{read, Refusal};

    #[test]
    fn the_base_is_read() {
        assert_eq!(read(&base_block()), Ok(base()));
    }

    #[test]
    fn each_breach_breaks_its_line_at_its_record() {
        for breach in breaches() {
            let mut block = base_block();
            breach.apply(&mut block);
            let Breach { line, record, changes } = breach;
            assert_eq!(read(&block), Err(Refusal { line, record }), "{changes:?}");
        }
    }

    /// Breaches that change one record may mend each other.
    fn change_one_record(a: &Breach, b: &Breach) -> bool {
        let record = |&(at, _): &Change| at / RECORD_LENGTH;
        a.changes.iter().any(|one| b.changes.iter().any(|other| record(one) == record(other)))
    }

    #[test]
    fn the_lowest_line_wins_over_every_later_breach() {
        for low in breaches() {
            let is_later = |high: &Breach| high.line as u8 > low.line as u8;
            let is_apart = |high: &Breach| !change_one_record(&low, high);
            for high in breaches().into_iter().filter(is_later).filter(is_apart) {
                let mut block = base_block();
                high.apply(&mut block);
                low.apply(&mut block);
                let Breach { line, record, .. } = low;
                assert_eq!(read(&block), Err(Refusal { line, record }));
            }
        }
    }
}
