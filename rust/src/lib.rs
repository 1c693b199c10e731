//! A proved bench for the RISC-V memory models, RVWMO and RVTSO.
//!
//! A test is a block of 512 bytes, or three of them in edition 2: loads, stores, AMOs, LR/SC pairs and fences of up to four
//! harts, with the values that were read and the final values that are stated. The bench says whether the rules allow that
//! outcome, and by which global memory orders. Events and locations are numbered from 0, in the order of the table. A test states
//! its model; a new table's is RVWMO, and [`Table::tso`] makes it RVTSO.
//!
//! The functions here take any bytes: what they cannot work on they refuse, by a [`Refusal`] that says why, and a refusal
//! alters no buffer. They call the proved static library, which allocates nothing and has no state.
//!
//! Whether an outcome is allowed, and by which orders:
//!
//! ```
//! use cogthunder::{Table, Witnesses};
//!
//! let mut table = Table::new(2, 2);
//! table.store(0, 0, 1); // event 0: hart 0 stores x=1
//! table.store(0, 1, 1); // 1: .. then y=1
//! table.load(1, 1, 1); // 2: hart 1 loads y, reading 1
//! table.load(1, 0, 0); // 3: .. then x, reading 0
//! let block = table.block()?;
//! let orders: Vec<Vec<u8>> = Witnesses::of(&block)?.collect();
//! assert_eq!(orders.len(), 6);
//! assert_eq!(orders[0], [1, 2, 3, 0]);
//!
//! // With a fence between the accesses of each hart no order gives that outcome: it is forbidden.
//! let block = include_bytes!(concat!(env!("CARGO_MANIFEST_DIR"), "/../samples/C2.block"));
//! assert_eq!(Witnesses::of(block)?.next(), None);
//! # Ok::<(), cogthunder::Refusal>(())
//! ```
//!
//! [`decide`] and [`Witnesses::decided`] give the same orders without visiting prefixes one by one: never undecided, and quick for
//! tests with many of them.
//!
//! A test may also be a text of up to 2,048 bytes, which asks for a condition instead of stated values; [`read_text`] says how
//! it is written. Its model is RVWMO. [`search_text`] and [`Witnesses::of_text`] take it, and all other functions take blocks only:
//!
//! ```
//! use cogthunder::Witnesses;
//!
//! let text = b"2 0 0 0 0 0 0 0 1 0 0\n\
//!              2 0 1 0 0 0 0 0 1 0 0\n\
//!              1 1 1 0 0 0 0 0 0 0 0\n\
//!              1 1 0 0 0 0 0 0 0 0 0\n\
//!              \n\
//!              0 0\n\
//!              ( r2=1 and r3=0 )\n";
//! let orders: Vec<Vec<u8>> = Witnesses::of_text(text)?.collect();
//! assert_eq!(orders.len(), 6);
//! assert_eq!(orders[0], [1, 2, 3, 0]);
//! # Ok::<(), cogthunder::Refusal>(())
//! ```
//!
//! Which outcomes a test has at all, whatever it states: [`Outcomes`].
//!
//! For tests of RVTSO there is a machine of single steps, with a store buffer for each hart: [`step`].
//!
//! Where an outcome is to be forbidden, [`advise`] says which fences a test lacks.

#![deny(missing_docs)]

mod answers;
mod edition_two;
mod library;
mod operation;
mod outcomes;
mod rules;
mod suite;
mod table;
mod witnesses;

pub use answers::{Advice, Answer, Axiom, Decision, Listing, Refusal, Taken, Verdict};
pub use library::{
    advise, blocks, decide, decide_with, next_test, outcome, outcomes, part, read, read_text, returns, rules, search,
    search_pruned, search_text, step, test_length, verdict, write,
};
pub use operation::Operation;
pub use outcomes::{Outcomes, Unlisted};
pub use rules::Rules;
pub use suite::Tests;
pub use table::{Accesses, Annotation, Event, Table};
pub use witnesses::Witnesses;

/// The length of a block.
pub const BLOCK: usize = 512;

/// The length of the longest test, which is one of edition 2.
pub const TEST: usize = 3 * BLOCK;

/// The length of the longest text.
pub const TEXT: usize = 2048;

/// A test has at most this many events: room for any order and for any returned list. One of edition 1 has up to 16.
pub const EVENTS: usize = 30;

/// A test has at most this many locations.
pub const LOCATIONS: usize = 8;

/// An outcome has a value for each event that reads and for each location: at most this many.
pub const VALUES: usize = EVENTS + LOCATIONS;

/// No call lists more outcomes than this.
pub const OUTCOMES: usize = 64;

/// A test may have at most this many clear fences where advice is asked for.
pub const EMPTY_FENCES: usize = 8;

/// The largest allowance of a search, and of a call for outcomes.
pub const LARGEST_ALLOWANCE: u64 = 1_000_000_000;

/// In a returned list: the entry of an event that doesn't read.
pub const NOTHING: u8 = 254;

/// In a returned list: the entry of an event that returns the initial value.
pub const INITIALLY: u8 = 255;
