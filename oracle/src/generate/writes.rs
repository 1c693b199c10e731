//! The stored stream of `writes`: good tables, tables that each of the lines 5 to 11 and 21 refuses,
//! and buffers of other lengths.

use super::breaches::{base, base_block, breaches};
use super::kinds::{control_clauses, fields_out_of_range};
use super::models::model_tables;
use super::operations::operation_edges;
use super::prng::Prng;
use super::random::any_table;
use super::readings::breaches_before_21;
use super::unused::{stated_ends, unused_cases, unused_in_two, used_cases};
use crate::encode::encode;
use crate::layout::one::MAX_EVENTS;
use crate::layout::{BLOCK_LENGTH, LONGEST_TEST, MAX_LOCATIONS, MOST_EVENTS};
use crate::litmus::{self, *};
use crate::raw::{RawTable, SLOTS};
use crate::record::RawEvent;
use crate::table::Table;

const SEED: u64 = 4;
const RANDOM_TABLES: usize = 40;

pub fn make_writes() -> Vec<u8> {
    let mut prng = Prng::new(SEED);
    let families = [
        litmus::all().iter().map(|(_, test)| raw(test)).collect(),
        largest(),
        operation_edges().iter().map(raw).collect(),
        (0..RANDOM_TABLES).map(|_| raw(&any_table(&mut prng))).collect(),
        broken_blocks(),
        past_a_block(),
        fences_only(),
    ];
    let mut stream = Vec::new();
    for table in families.concat() {
        push_call(&mut stream, &table, BLOCK_LENGTH);
    }
    for length in [0, 1, 511, 513, 1024] {
        push_call(&mut stream, &raw(&base()), length);
        push_call(&mut stream, &RawTable { harts: 9, ..raw(&base()) }, length);
    }
    let controls = control_clauses().iter().map(encode).collect();
    for block in [fields_out_of_range(), controls].concat() {
        push_call(&mut stream, &RawTable::of_block(&block), BLOCK_LENGTH);
    }
    for table in thirty_events() {
        push_call(&mut stream, &table, BLOCK_LENGTH);
    }
    for table in [raw(&base()), thirty_events()[0].clone()] {
        push_call(&mut stream, &table, LONGEST_TEST);
    }
    for table in model_tables(&mut prng) {
        push_call(&mut stream, &table, BLOCK_LENGTH);
    }
    unused_locations(&mut stream);
    stream
}

/// Line 21, alone, with buffers of another length and with breaches of earlier lines; tables next to
/// those that it refuses; and those of more than 16 events, which are refused by 5 first.
fn unused_locations(stream: &mut Vec<u8>) {
    for (_, test) in unused_cases() {
        push_call(stream, &raw(&test), BLOCK_LENGTH);
        push_call(stream, &raw(&test), BLOCK_LENGTH - 1);
    }
    for (_, test) in [used_cases(), stated_ends()].concat() {
        push_call(stream, &raw(&test), BLOCK_LENGTH);
    }
    for block in breaches_before_21().iter().step_by(2) {
        push_call(stream, &RawTable::of_block(block), BLOCK_LENGTH);
    }
    let fences = Table { locations: 2, ..table(vec![fence(0, FULL)]) };
    let others = [unused_in_two(), vec![("no-memory-event", fences)]].concat();
    for (_, test) in others {
        push_call(stream, &RawTable::from(&test), BLOCK_LENGTH);
    }
}

fn push_call(stream: &mut Vec<u8>, table: &RawTable, buffer_length: usize) {
    table.push_to(stream);
    stream.extend(u16::try_from(buffer_length).expect("a length has two bytes").to_le_bytes());
}

fn raw(table: &Table) -> RawTable {
    RawTable::of_block(&encode(table))
}

/// Every field as large as it may be.
fn largest() -> Vec<RawTable> {
    let table = table(vec![load(3, 7, 65535); MAX_EVENTS]);
    let stated = (0..MAX_LOCATIONS).fold(table, |t, l| t.with_final(l, 65535));
    vec![raw(&Table { initial: [65535; MAX_LOCATIONS], ..stated })]
}

/// The fields of each block that breaks a clause. What isn't a field of a table is forgotten:
/// the table of such a block is the base's, which is good and stands once where it would stand
/// in a row.
fn broken_blocks() -> Vec<RawTable> {
    let broken = breaches().into_iter().map(|breach| {
        let mut block = base_block();
        breach.apply(&mut block);
        RawTable::of_block(&block)
    });
    let mut tables: Vec<RawTable> = broken.collect();
    tables.dedup();
    tables
}

/// The base with one event changed.
fn with_event(number: usize, change: fn(&mut RawEvent)) -> RawTable {
    let mut table = raw(&base());
    change(&mut table.events[number]);
    table
}

/// What no block of edition 1 holds: slots past its records, and masks of more than 16 bits.
fn past_a_block() -> Vec<RawTable> {
    let mut full = raw(&table(vec![load(0, X, 0); MAX_EVENTS]));
    full.events[MAX_EVENTS] = full.events[0];
    vec![
        with_event(MAX_EVENTS, |event| event.kind = 1),
        with_event(SLOTS - 1, |event| event.written = 1),
        with_event(SLOTS - 1, |event| event.control = 1 << 31),
        with_event(SLOTS - 1, |event| event.operand = 255),
        with_event(13, |event| event.operation = 1),
        with_event(13, |event| event.address = 1 << 16),
        full.clone(),
        RawTable { count: 17, ..full.clone() },
        RawTable { count: 32, ..full },
        // A load, a store, an SC; a fence, and one with line 8 broken before it.
        with_event(0, |event| event.address = 1 << 16),
        with_event(7, |event| event.control = 1 | 1 << 31),
        with_event(8, |event| event.data = 1 << 20),
        with_event(10, |event| event.data |= 1 << 16),
        with_event(3, |event| event.address = 1 << 16),
        with_event(6, |event| event.data = 1 << 31),
        with_event(11, |event| {
            event.flags = 3;
            event.address = 1 << 31;
        }),
    ]
}

/// Tables that reading gives of edition 2, from 17 to 30 events: "more than 16 events is 5".
fn thirty_events() -> Vec<RawTable> {
    let loads = |count: usize| RawTable::from(&table(vec![load(0, X, 0); count]));
    (MAX_EVENTS + 1..=MOST_EVENTS).map(loads).collect()
}

fn fences_only() -> Vec<RawTable> {
    vec![
        raw(&table(vec![fence(0, FULL), fence_tso(0)])),
        raw(&table(vec![fence(0, 0); MAX_EVENTS])),
    ]
}

#[cfg(test)]
mod tests {
    use super::*;
    use crate::operation::Operation;
    use crate::raw::write;
    use crate::stream::{Stream, PREFILL};
    use crate::table::read;

    /// What isn't refused is read back, and what is leaves the buffer alone.
    #[test]
    fn every_stored_table_is_written_and_read_back_or_refused() {
        let bytes = make_writes();
        let mut stream = Stream::new(&bytes);
        let mut refusals = Vec::new();
        let mut operations = Vec::new();
        while !stream.is_empty() {
            let table = RawTable::take_from(&mut stream).unwrap();
            let mut buffer = vec![PREFILL; stream.word().unwrap().into()];
            match write(&table, &mut buffer) {
                Ok(()) => {
                    assert!(read(&buffer).is_ok());
                    assert_eq!(RawTable::of_block(&buffer), table);
                    operations.extend(table.events.map(|event| event.operation));
                }
                Err(refusal) => {
                    assert!(buffer.iter().all(|&byte| byte == PREFILL));
                    refusals.push(refusal.line as u8);
                }
            }
        }
        for line in [1, 21].into_iter().chain(5..=11) {
            assert!(refusals.contains(&line), "no table is refused by {line}");
        }
        for operation in Operation::SOME {
            assert!(operations.contains(&(operation as u8)), "{operation:?} isn't written");
        }
    }

    /// A block with a breach in a field is refused as its fields are.
    #[test]
    fn reading_and_writing_refuse_alike() {
        for breach in breaches() {
            let mut block = base_block();
            breach.apply(&mut block);
            let table = RawTable::of_block(&block);
            let written = write(&table, &mut [0; BLOCK_LENGTH]);
            let is_field = table != raw(&base());
            assert_eq!(written.err(), read(&block).err().filter(|_| is_field));
        }
    }
}
