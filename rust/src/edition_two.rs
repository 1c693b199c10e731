//! A table as a test of edition 2, in plain Rust: this is not the proved writer, which writes edition 1 only.

use crate::table::{Event, Table};
use crate::{BLOCK, EVENTS, TEST};

const MARKER: [u8; 4] = *b"RVT1";
const NUMBER: u8 = 2;

/// Places in the first block.
const INITIAL_AT: usize = 16;
const FINALS_AT: usize = 288;

/// The records stand in the later blocks, fifteen in each.
const RECORD: usize = 32;
const RECORDS: usize = 15;

/// Behind the records of the last block: zero in every good test.
const ZERO_AT: usize = 2 * BLOCK + RECORDS * RECORD;

/// The check of a block stands behind the bytes that it covers.
const COVERED: usize = BLOCK - 4;

/// The fields of a table in their places. An event that there is no record for makes a byte wrong that has to be zero, so that
/// reading refuses by 6, as the writer does for an event that isn't counted.
pub fn encode(table: &Table) -> [u8; TEST] {
    let mut test = [0; TEST];
    test[..MARKER.len()].copy_from_slice(&MARKER);
    let header = [NUMBER, table.harts, table.locations, table.count, table.stated, table.model];
    test[MARKER.len()..][..header.len()].copy_from_slice(&header);
    put_values(&mut test[INITIAL_AT..], &table.initial);
    put_values(&mut test[FINALS_AT..], &table.finals);
    for (k, event) in table.events[..EVENTS].iter().enumerate() {
        put_event(&mut test[record_at(k)..][..RECORD], event);
    }
    test[ZERO_AT] = table.events[EVENTS..].iter().any(|&event| event != Event::default()).into();
    for block in test.chunks_mut(BLOCK) {
        seal(block);
    }
    test
}

fn record_at(event: usize) -> usize {
    BLOCK * (1 + event / RECORDS) + RECORD * (event % RECORDS)
}

fn put_values(bytes: &mut [u8], values: &[u16]) {
    for (place, value) in bytes.chunks_mut(2).zip(values) {
        place.copy_from_slice(&value.to_le_bytes());
    }
}

/// Kind, hart, location, flags; three masks; value read, value written; operation, operand; ten zeros.
fn put_event(record: &mut [u8], event: &Event) {
    record[..4].copy_from_slice(&[event.kind, event.hart, event.location, event.flags]);
    for (place, mask) in record[4..16].chunks_mut(4).zip([event.address, event.data, event.control]) {
        place.copy_from_slice(&mask.to_le_bytes());
    }
    put_values(&mut record[16..20], &[event.read, event.written]);
    record[20..22].copy_from_slice(&[event.operation, event.operand]);
}

/// Makes the check of a block right: the sum of its bytes, each times its place counted from 1.
fn seal(block: &mut [u8]) {
    let sum: u32 = (1..).zip(&block[..COVERED]).map(|(weight, &byte)| weight * u32::from(byte)).sum();
    block[COVERED..].copy_from_slice(&sum.to_le_bytes());
}

#[cfg(test)]
mod tests {
    use super::*;
    use crate::library::{read, table_of};
    use crate::Operation;

    /// Another number in each field: `count` loads, but for an AMO at the end, which depends on three of them.
    fn table(count: u8) -> Table {
        let mut table = Table::new(4, 8);
        for k in 1..count {
            table.load(k % 4, k % 8, 0x0101 * u16::from(k));
        }
        let amo = table.amo_with(1, 7, 0x1234, Operation::Xor, 0x51);
        table.address_dependency(amo, 0);
        table.data_dependency(amo, 4 * ((count - 2) / 4));
        table.control_dependency(amo, 8);
        for location in 0..8 {
            table.initial_value(location, 0x1000 + u16::from(location));
            table.final_value(location, 0x2000 + u16::from(location));
        }
        table
    }

    #[test]
    fn reading_gives_the_table_back() {
        for count in 17..=30 {
            let test = encode(&table(count));
            assert_eq!(read(&test), Ok(()), "{count} events");
            assert_eq!(table_of(&test), table(count));
        }
    }

    #[test]
    fn a_test_of_fewer_events_is_one_too() {
        let mut table = Table::new(1, 1);
        table.load(0, 0, 0);
        assert_eq!(read(&encode(&table)), Ok(()));
        assert_eq!(table_of(&encode(&table)), table);
    }

    #[test]
    fn each_byte_of_a_record_is_where_edition_2_has_it() {
        let mut table = table(30);
        table.events[29] = Event {
            kind: 3,
            hart: 1,
            location: 2,
            flags: 9,
            address: 0x1413_1211,
            data: 0x1817_1615,
            control: 0x1c1b_1a19,
            read: 0x2221,
            written: 0x2423,
            operation: 4,
            operand: 0x51,
        };
        let record = [
            [3, 1, 2, 9, 0x11, 0x12, 0x13, 0x14, 0x15, 0x16, 0x17, 0x18, 0x19, 0x1a, 0x1b, 0x1c],
            [0x21, 0x22, 0x23, 0x24, 4, 0x51, 0, 0, 0, 0, 0, 0, 0, 0, 0, 0],
        ];
        assert_eq!(encode(&table)[1024 + 14 * 32..][..32], record.concat());
    }
}
