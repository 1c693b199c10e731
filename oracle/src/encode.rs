//! Writes a table as a test: the inverse of reading.

use crate::layout::*;
use crate::raw::RawTable;
use crate::table::Table;

/// The block of edition 1.
pub fn encode(table: &Table) -> Vec<u8> {
    encode_in(Edition::One, table)
}

/// The test of the first edition that has a record for each event.
pub fn encode_fitting(table: &Table) -> Vec<u8> {
    let has_room = |edition: &Edition| table.events.len() <= edition.max_events();
    let edition = Edition::ALL.into_iter().find(has_room).expect("a test has up to 30 events");
    encode_in(edition, table)
}

/// The test of an edition.
pub fn encode_in(edition: Edition, table: &Table) -> Vec<u8> {
    encode_raw(edition, &RawTable::from(table))
}

/// The fields in the places that an edition has for them; events that it has no record for are
/// left out.
pub fn encode_raw(edition: Edition, table: &RawTable) -> Vec<u8> {
    let mut test = vec![0; edition.test_length()];
    test[..MARKER.len()].copy_from_slice(&MARKER);
    test[EDITION_AT] = edition as u8;
    test[HARTS_AT] = table.harts;
    test[LOCATIONS_AT] = table.locations;
    test[EVENTS_AT] = table.count;
    test[STATED_AT] = table.stated;
    test[MODEL_AT] = table.model;
    for location in 0..MAX_LOCATIONS {
        put_word(&mut test, initial_at(location), table.initial[location]);
        put_word(&mut test, final_at(location), table.finals[location]);
    }
    for (number, event) in table.events[..edition.max_events()].iter().enumerate() {
        event.put(edition, &mut test[edition.record(number)]);
    }
    seal(&mut test);
    test
}

fn put_word(bytes: &mut [u8], at: usize, value: u16) {
    bytes[at..at + VALUE_LENGTH].copy_from_slice(&value.to_le_bytes());
}

/// Makes the check of each block right; a last part block has none.
pub fn seal(test: &mut [u8]) {
    for block in test.chunks_exact_mut(BLOCK_LENGTH) {
        seal_block(block);
    }
}

fn seal_block(block: &mut [u8]) {
    let check = check(block).to_le_bytes();
    block[CHECK_AT..].copy_from_slice(&check);
}
