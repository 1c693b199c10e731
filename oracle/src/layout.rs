//! Where a test holds what. Numbers of two and of four bytes are little endian.

use std::ops::Range;

/// "up to 4 harts, 8 locations"
pub const MAX_HARTS: usize = 4;
pub const MAX_LOCATIONS: usize = 8;

/// "A test is one block of 512 bytes"; those of edition 2 have three such blocks.
pub const BLOCK_LENGTH: usize = 512;

/// "refusal 4 is for editions other than 1 and 2"
#[derive(Clone, Copy, PartialEq, Eq, Debug)]
pub enum Edition {
    One = 1,
    Two = 2,
}

impl Edition {
    pub const ALL: [Edition; 2] = [Edition::One, Edition::Two];

    pub fn from_number(number: u8) -> Option<Edition> {
        Edition::ALL.into_iter().find(|&edition| edition as u8 == number)
    }

    /// "Events run from 1 to 30; edition 1 keeps 16."
    pub const fn max_events(self) -> usize {
        match self {
            Edition::One => one::MAX_EVENTS,
            Edition::Two => two::MAX_EVENTS,
        }
    }

    /// "For edition 2, refusal 1 is a length other than 1,536"
    pub const fn test_length(self) -> usize {
        match self {
            Edition::One => BLOCK_LENGTH,
            Edition::Two => two::BLOCKS * BLOCK_LENGTH,
        }
    }

    /// The bytes of an event's record.
    pub fn record(self, event: usize) -> Range<usize> {
        let (at, length) = match self {
            Edition::One => (one::record_at(event), one::RECORD_LENGTH),
            Edition::Two => (two::record_at(event), two::RECORD_LENGTH),
        };
        at..at + length
    }
}

/// The most events that any test has: an order or a returned list isn't longer.
pub const MOST_EVENTS: usize = two::MAX_EVENTS;
/// The length of the longest test.
pub const LONGEST_TEST: usize = Edition::Two.test_length();

/// "52 56 54 31 hex", at the start of a test's first block
pub const MARKER: [u8; 4] = [0x52, 0x56, 0x54, 0x31];

/// "4, 5, 6, 7: edition 1; harts 1..4; locations 1..8; events 1..16"
pub const EDITION_AT: usize = 4;
pub const HARTS_AT: usize = 5;
pub const LOCATIONS_AT: usize = 6;
pub const EVENTS_AT: usize = 7;
/// "8: mask of locations whose final value is stated"
pub const STATED_AT: usize = 8;
/// "Header byte 9 becomes the model"
pub const MODEL_AT: usize = 9;
/// "9..15: zero", behind the model
pub const HEADER_ZEROS: Range<usize> = 10..16;
/// "32..287: event records", of edition 1; in edition 2 "the header block as today, records area
/// zero"
pub const RECORDS_AREA: Range<usize> = 32..288;
/// "304..507: zero"
pub const TAIL_ZEROS: Range<usize> = 304..508;
/// "508..511: the sum"; "the usual check in each" block
pub const CHECK_AT: usize = 508;

pub const VALUE_LENGTH: usize = 2;

/// "16..31: initial values, two bytes a location"
pub const fn initial_at(location: usize) -> usize {
    16 + VALUE_LENGTH * location
}

/// "288..303: stated final values, two bytes a location"
pub const fn final_at(location: usize) -> usize {
    288 + VALUE_LENGTH * location
}

/// The records of edition 1.
pub mod one {
    /// "16 events"
    pub const MAX_EVENTS: usize = 16;
    pub const RECORD_LENGTH: usize = 16;

    /// "32..287: event records, 16 bytes each"
    pub const fn record_at(event: usize) -> usize {
        super::RECORDS_AREA.start + RECORD_LENGTH * event
    }

    /// Places within a record.
    pub mod field {
        pub const KIND: usize = 0;
        pub const HART: usize = 1;
        pub const LOCATION: usize = 2;
        pub const FLAGS: usize = 3;
        pub const ADDRESS: usize = 4;
        pub const DATA: usize = 6;
        pub const CONTROL: usize = 8;
        pub const READ: usize = 10;
        pub const WRITTEN: usize = 12;
        /// "Record bytes 14 and 15 become an operation and an operand"
        pub const OPERATION: usize = 14;
        pub const OPERAND: usize = 15;
    }
}

/// The records of edition 2: "the header block as today, records area zero, then two blocks of
/// fifteen 32-byte records from byte 0, zero from 480, and the usual check in each".
pub mod two {
    use super::{BLOCK_LENGTH, CHECK_AT};
    use std::ops::Range;

    /// "Events run from 1 to 30"
    pub const MAX_EVENTS: usize = 30;
    /// "Edition 2 is three blocks"
    pub const BLOCKS: usize = 3;
    pub const RECORD_LENGTH: usize = 32;
    const RECORDS_A_BLOCK: usize = 15;
    /// "zero from 480", up to the check
    pub const BLOCK_ZEROS: Range<usize> = RECORDS_A_BLOCK * RECORD_LENGTH..CHECK_AT;

    pub const fn record_at(event: usize) -> usize {
        let block = 1 + event / RECORDS_A_BLOCK;
        BLOCK_LENGTH * block + RECORD_LENGTH * (event % RECORDS_A_BLOCK)
    }

    /// Places within a record: "kind, hart, location, flags; three 4-byte masks; value read, value
    /// written (2 bytes each); operation, operand; ten zeros".
    pub mod field {
        use std::ops::Range;

        pub const KIND: usize = 0;
        pub const HART: usize = 1;
        pub const LOCATION: usize = 2;
        pub const FLAGS: usize = 3;
        pub const ADDRESS: usize = 4;
        pub const DATA: usize = 8;
        pub const CONTROL: usize = 12;
        pub const READ: usize = 16;
        pub const WRITTEN: usize = 18;
        pub const OPERATION: usize = 20;
        pub const OPERAND: usize = 21;
        pub const ZEROS: Range<usize> = 22..32;
    }
}

/// The number of two bytes at a place.
pub fn word(bytes: &[u8], at: usize) -> u16 {
    u16::from_le_bytes([bytes[at], bytes[at + 1]])
}

/// The number of four bytes at a place.
pub fn long(bytes: &[u8], at: usize) -> u32 {
    u32::from_le_bytes([bytes[at], bytes[at + 1], bytes[at + 2], bytes[at + 3]])
}

/// "the sum over i = 0..507 of (i+1) times byte i"
pub fn check(block: &[u8]) -> u32 {
    (1..).zip(&block[..CHECK_AT]).map(|(weight, &byte)| weight * u32::from(byte)).sum()
}

/// Whether the check that a block of 512 bytes holds is right.
pub fn is_sealed(block: &[u8]) -> bool {
    long(block, CHECK_AT) == check(block)
}
