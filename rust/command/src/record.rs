//! The numbers in the records of a table.

use cogthunder::{Event, Operation};

/// The kinds of events.
pub const LOAD: u8 = 1;
pub const STORE: u8 = 2;
pub const AMO: u8 = 3;
pub const LR: u8 = 4;
pub const SC: u8 = 5;
pub const FENCE: u8 = 6;
pub const FENCE_TSO: u8 = 7;

/// The kinds in words, by number.
pub const KINDS: [&str; 8] = ["", "load", "store", "AMO", "LR", "SC", "fence", "fence.tso"];

/// Bits of a memory event's flags: `.aq` and `.rl` are the RCsc annotations, and no instruction has the RCpc ones.
pub const ACQUIRE: u8 = 2;
pub const RELEASE: u8 = 8;
pub const RCPC: u8 = 5;

/// Words for the flags of a memory event, from bit 0.
pub const ANNOTATIONS: [&str; 4] = ["acquire-RCpc", "acquire-RCsc", "release-RCpc", "release-RCsc"];

/// Bits of a fence's flags: the earlier accesses lowest, the later ones `LATER` bits above them.
pub const READS: u8 = 1;
pub const WRITES: u8 = 2;
pub const LATER: u8 = 2;

/// A test has at most as many events.
pub const MOST_EVENTS: usize = cogthunder::EVENTS;

/// Whether an event reads.
pub fn reads(event: &Event) -> bool {
    matches!(event.kind, LOAD | AMO | LR)
}

/// Whether an event writes.
pub fn writes(event: &Event) -> bool {
    matches!(event.kind, STORE | AMO | SC)
}

/// The AMO instruction of each operation; without one the value written is stated, as `amoswap` does.
pub const AMOS: [&str; 7] = ["amoswap", "amoadd", "amoand", "amoor", "amoxor", "amomaxu", "amominu"];

/// The operation of an AMO by its number; none for 0.
pub fn operation(number: u8) -> Option<Operation> {
    use Operation::{Add, And, Larger, Or, Smaller, Xor};
    [Add, And, Or, Xor, Larger, Smaller].into_iter().find(|&operation| operation as u8 == number)
}
