//! Tests of tables, and texts, damaged in one place.

use super::prng::Prng;
use super::text_cases::BYTES;
use crate::encode::{encode_in, seal};
use crate::layout::*;
use crate::table::{Kind, Table};

/// A place and the byte that it is to have.
pub type Change = (usize, u8);

/// A table's block of edition 1 with bytes changed, and a check that is right.
pub fn changed(table: &Table, changes: &[Change]) -> Vec<u8> {
    changed_in(Edition::One, table, changes)
}

/// A table's test with bytes changed, and checks that are right.
pub fn changed_in(edition: Edition, table: &Table, changes: &[Change]) -> Vec<u8> {
    let mut test = encode_in(edition, table);
    for &(at, value) in changes {
        test[at] = value;
    }
    seal(&mut test);
    test
}

/// A table's block of edition 1, damaged.
pub fn damaged(prng: &mut Prng, table: &Table) -> Vec<u8> {
    damaged_in(Edition::One, prng, table)
}

/// A table's test with one byte changed, mostly in one of its records, and often in what an AMO
/// does; mostly the checks are made right again.
pub fn damaged_in(edition: Edition, prng: &mut Prng, table: &Table) -> Vec<u8> {
    let mut test = encode_in(edition, table);
    let record = edition.record(prng.below(table.events.len()));
    let at = match prng.below(14) {
        0 => prng.below(test.len()),
        1 => prng.below(HEADER_ZEROS.end),
        2 => initial_at(0) + prng.below(VALUE_LENGTH * MAX_LOCATIONS),
        3 => final_at(0) + prng.below(VALUE_LENGTH * MAX_LOCATIONS),
        // Kind and flags have one place in both editions.
        4 => record.start + one::field::KIND,
        5 => record.start + one::field::FLAGS,
        6 | 7 => operation_byte(edition, prng, table),
        _ => record.start + prng.below(record.len()),
    };
    test[at] = match prng.below(4) {
        0 => prng.bits() as u8,
        1 | 2 => prng.below(Kind::ALL.len() + 1) as u8,
        _ => test[at] ^ 1 << prng.below(8),
    };
    if !prng.one_in(10) {
        seal(&mut test);
    }
    test
}

/// The place of a byte of an AMO's operation or of its values; of any event's if there is no AMO.
pub fn operation_byte(edition: Edition, prng: &mut Prng, table: &Table) -> usize {
    let is_amo = |event: &usize| table.events[*event].kind == Kind::Amo;
    let amos: Vec<usize> = (0..table.events.len()).filter(is_amo).collect();
    let event = if amos.is_empty() { prng.below(table.events.len()) } else { *prng.pick(&amos) };
    let fields = match edition {
        Edition::One => one::field::READ..=one::field::OPERAND,
        Edition::Two => two::field::READ..=two::field::OPERAND,
    };
    edition.record(event).start + fields.start() + prng.below(fields.count())
}

/// A text with a byte changed, left out or put in, with two bytes swapped, or cut.
pub fn damaged_text(prng: &mut Prng, text: &[u8]) -> Vec<u8> {
    let mut damaged = text.to_vec();
    let at = prng.below(text.len());
    let byte = if prng.one_in(8) { prng.bits() as u8 } else { *prng.pick(BYTES) };
    match prng.below(8) {
        0 => damaged.truncate(at),
        1 => drop(damaged.remove(at)),
        2 | 3 => damaged.insert(prng.below(text.len() + 1), byte),
        4 => damaged.swap(at, prng.below(text.len())),
        5 if at > 0 => damaged.swap(at - 1, at),
        _ => damaged[at] = byte,
    }
    damaged
}
