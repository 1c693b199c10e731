//! A litmus test, its encoders, and where a test holds what.

use std::ops::{BitAnd, BitOr, Not};

/// Of edition 1, and of edition 2.
pub const EVENTS: usize = 16;
pub const EVENTS_TWO: usize = 30;
pub const LOCATIONS: usize = 8;
pub const HARTS: usize = 4;
pub const BLOCK: usize = 512;
pub const TEST_TWO: usize = 3 * BLOCK;

pub const MARKER: [u8; 4] = [0x52, 0x56, 0x54, 0x31];
pub const EDITION: u8 = 1;
pub const EDITION_TWO: u8 = 2;
pub const EDITION_AT: usize = 4;
pub const HARTS_AT: usize = 5;
pub const LOCATIONS_AT: usize = 6;
pub const EVENTS_AT: usize = 7;
pub const STATED_AT: usize = 8;
pub const MODEL_AT: usize = 9;
pub const INITIAL_AT: usize = 16;
pub const RECORDS_AT: usize = 32;
pub const RECORD: usize = 16;
/// Within a record.
pub const OPERATION_AT: usize = 14;
pub const OPERAND_AT: usize = 15;
pub const FINALS_AT: usize = 288;
/// Of edition 2: the records stand in the later blocks, and end with zeros.
pub const RECORD_TWO: usize = 32;
pub const RECORDS_A_BLOCK: usize = 15;
pub const RECORD_END: usize = 22;
pub const CHECK_AT: usize = 508;

pub const LOAD: u8 = 1;
pub const STORE: u8 = 2;
pub const AMO: u8 = 3;
pub const LR: u8 = 4;
pub const SC: u8 = 5;
pub const FENCE: u8 = 6;
pub const FENCE_TSO: u8 = 7;

/// The flags of a memory event, its annotations.
pub const ACQUIRE_RCPC: u8 = 1;
pub const ACQUIRE_RCSC: u8 = 2;
pub const RELEASE_RCPC: u8 = 4;
pub const RELEASE_RCSC: u8 = 8;
pub const ACQUIRE: u8 = ACQUIRE_RCPC | ACQUIRE_RCSC;
pub const RELEASE: u8 = RELEASE_RCPC | RELEASE_RCSC;
pub const RCSC: u8 = ACQUIRE_RCSC | RELEASE_RCSC;

/// The flags of a fence.
pub const PR: u8 = 1;
pub const PW: u8 = 2;
pub const SR: u8 = 4;
pub const SW: u8 = 8;
pub const FULL_FENCE: u8 = PR | PW | SR | SW;

/// The model beside RVWMO, which is 0.
pub const RVTSO: u8 = 1;

/// The operations of AMOs.
pub const NO_OPERATION: u8 = 0;
pub const ADD: u8 = 1;
pub const AND: u8 = 2;
pub const OR: u8 = 3;
pub const XOR: u8 = 4;
pub const LARGER: u8 = 5;
pub const SMALLER: u8 = 6;

/// How many bytes a test has that stands at the front of these.
pub fn length(tests: &[u8]) -> usize {
    if tests[EDITION_AT] == EDITION_TWO {
        TEST_TWO
    } else {
        BLOCK
    }
}

/// A mask of events: two bytes in edition 1, four in edition 2.
pub trait Mask: Copy + Default + Eq + BitOr<Output = Self> + BitAnd<Output = Self> + Not<Output = Self> {
    fn of(event: usize) -> Self;
}

impl Mask for u16 {
    fn of(event: usize) -> u16 {
        1 << event
    }
}

impl Mask for u32 {
    fn of(event: usize) -> u32 {
        1 << event
    }
}

#[derive(Clone, Copy, Default)]
pub struct Event<M = u16> {
    pub kind: u8,
    pub hart: u8,
    pub location: u8,
    pub flags: u8,
    pub addr: M,
    pub data: M,
    pub ctrl: M,
    pub read: u16,
    pub written: u16,
    pub operation: u8,
    pub operand: u8,
}

/// With room for the events of edition 1, unless it says otherwise.
#[derive(Clone)]
pub struct Table<M = u16, const N: usize = EVENTS> {
    pub count: usize,
    pub locations: usize,
    pub stated: u8,
    pub model: u8,
    pub initial: [u16; LOCATIONS],
    pub finals: [u16; LOCATIONS],
    pub events: [Event<M>; N],
}

/// A table with room for the events of edition 2.
pub type TableTwo = Table<u32, EVENTS_TWO>;

impl<M: Mask, const N: usize> Default for Table<M, N> {
    fn default() -> Table<M, N> {
        let values = [0; LOCATIONS];
        let events = [Event::default(); N];
        Table { count: 0, locations: 0, stated: 0, model: 0, initial: values, finals: values, events }
    }
}

impl<M> Event<M> {
    pub fn reads(&self) -> bool {
        matches!(self.kind, LOAD | AMO | LR)
    }

    pub fn writes(&self) -> bool {
        matches!(self.kind, STORE | AMO | SC)
    }

    pub fn is_memory(&self) -> bool {
        self.reads() || self.writes()
    }

    /// The annotations that the rules read: those carried, and those that the model adds.
    pub fn annotations(&self, model: u8) -> u8 {
        match (model, self.kind) {
            (_, FENCE | FENCE_TSO) => 0,
            (RVTSO, LOAD | LR) => self.flags | ACQUIRE_RCPC,
            (RVTSO, STORE | SC) => self.flags | RELEASE_RCPC,
            (RVTSO, _) => self.flags | RCSC,
            _ => self.flags,
        }
    }
}

fn put(bytes: &mut [u8], at: usize, value: u16) {
    bytes[at..at + 2].copy_from_slice(&value.to_le_bytes());
}

pub fn check(block: &[u8]) -> u32 {
    (1..).zip(&block[..CHECK_AT]).map(|(weight, &byte)| weight * u32::from(byte)).sum()
}

/// Makes the check of a block right.
fn seal(block: &mut [u8]) {
    let sum = check(block);
    block[CHECK_AT..].copy_from_slice(&sum.to_le_bytes());
}

fn encode_event(e: &Event, record: &mut [u8]) {
    record[..4].copy_from_slice(&[e.kind, e.hart, e.location, e.flags]);
    for (k, value) in [e.addr, e.data, e.ctrl, e.read, e.written].into_iter().enumerate() {
        put(record, 4 + 2 * k, value);
    }
    record[OPERATION_AT] = e.operation;
    record[OPERAND_AT] = e.operand;
}

fn encode_event_two(e: &Event<u32>, record: &mut [u8]) {
    record[..4].copy_from_slice(&[e.kind, e.hart, e.location, e.flags]);
    for (place, mask) in record[4..16].chunks_mut(4).zip([e.addr, e.data, e.ctrl]) {
        place.copy_from_slice(&mask.to_le_bytes());
    }
    put(record, 16, e.read);
    put(record, 18, e.written);
    record[20..RECORD_END].copy_from_slice(&[e.operation, e.operand]);
}

impl<M, const N: usize> Table<M, N> {
    fn put_header(&self, edition: u8, block: &mut [u8]) {
        let harts = self.events[..self.count].iter().map(|e| e.hart + 1).max().unwrap_or(1);
        block[..MARKER.len()].copy_from_slice(&MARKER);
        block[EDITION_AT] = edition;
        block[HARTS_AT] = harts;
        block[LOCATIONS_AT] = self.locations as u8;
        block[EVENTS_AT] = self.count as u8;
        block[STATED_AT] = self.stated;
        block[MODEL_AT] = self.model;
        for x in 0..LOCATIONS {
            put(block, INITIAL_AT + 2 * x, self.initial[x]);
            put(block, FINALS_AT + 2 * x, self.finals[x]);
        }
    }
}

impl Table {
    pub fn encode(&self) -> Vec<u8> {
        let mut block = vec![0; BLOCK];
        self.put_header(EDITION, &mut block);
        for (e, record) in self.events[..self.count].iter().zip(block[RECORDS_AT..].chunks_mut(RECORD)) {
            encode_event(e, record);
        }
        seal(&mut block);
        block
    }
}

impl TableTwo {
    pub fn encode(&self) -> Vec<u8> {
        let mut test = vec![0; TEST_TWO];
        self.put_header(EDITION_TWO, &mut test);
        let records = test[BLOCK..].chunks_mut(BLOCK).flat_map(|b| b.chunks_mut(RECORD_TWO).take(RECORDS_A_BLOCK));
        for (e, record) in self.events[..self.count].iter().zip(records) {
            encode_event_two(e, record);
        }
        test.chunks_mut(BLOCK).for_each(seal);
        test
    }
}
