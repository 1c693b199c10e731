//! The proved functions, each answer of which is one word.

use crate::answers::{Advice, Answer, Axiom, Decision, Listing, Refusal, Taken, Verdict};
use crate::rules::Rules;
use crate::table::{Event, Table};

extern "C" {
    fn ct_read(test: *const u8, test_len: usize) -> u64;

    fn ct_table_of(test: *const u8, test_len: usize) -> Table;

    fn ct_write(table: Table, out: *mut u8, out_len: usize) -> u64;

    fn ct_verdict(
        test: *const u8,
        test_len: usize,
        returned: *const u8,
        returned_len: usize,
        order: *const u8,
        order_len: usize,
    ) -> u64;

    fn ct_rules(test: *const u8, test_len: usize, returned: *const u8, returned_len: usize, a: u64, b: u64) -> u64;

    fn ct_returns(
        test: *const u8,
        test_len: usize,
        order: *const u8,
        order_len: usize,
        out: *mut u8,
        out_len: usize,
    ) -> u64;

    fn ct_search(
        test: *const u8,
        test_len: usize,
        start: *const u8,
        start_len: usize,
        out: *mut u8,
        out_len: usize,
        allowance: u64,
    ) -> u64;

    fn ct_search_pruned(
        test: *const u8,
        test_len: usize,
        start: *const u8,
        start_len: usize,
        out: *mut u8,
        out_len: usize,
        allowance: u64,
    ) -> u64;

    fn ct_decide(
        test: *const u8,
        test_len: usize,
        start: *const u8,
        start_len: usize,
        out: *mut u8,
        out_len: usize,
    ) -> u64;
    fn ct_decide_with(
        test: *const u8,
        test_len: usize,
        start: *const u8,
        start_len: usize,
        out: *mut u8,
        out_len: usize,
        memo: *mut u64,
        memo_len: usize,
    ) -> u64;

    fn ct_read_text(text: *const u8, text_len: usize) -> u64;

    fn ct_table_of_text(text: *const u8, text_len: usize) -> Table;

    fn ct_search_text(
        text: *const u8,
        text_len: usize,
        start: *const u8,
        start_len: usize,
        out: *mut u8,
        out_len: usize,
        allowance: u64,
    ) -> u64;

    fn ct_step(test: *const u8, test_len: usize, steps: *const u8, steps_len: usize, step: u64) -> u64;

    fn ct_outcome(
        test: *const u8,
        test_len: usize,
        previous: *const u16,
        previous_len: usize,
        out: *mut u16,
        out_len: usize,
        allowance: u64,
    ) -> u64;

    fn ct_outcomes(
        test: *const u8,
        test_len: usize,
        previous: *const u16,
        previous_len: usize,
        out: *mut u16,
        out_len: usize,
        allowance: u64,
    ) -> u64;

    fn ct_advise(test: *const u8, test_len: usize, allowance: u64) -> u64;

    fn ct_blocks(suite: *const u8, suite_len: usize) -> u64;

    fn ct_part_of(suite: *const u8, suite_len: usize, k: u64) -> Part;

    fn ct_test_length(suite: *const u8, suite_len: usize, k: u64) -> u64;

    fn ct_next(suite: *const u8, suite_len: usize, k: u64) -> u64;
}

/// Where a block stands in its suite, or the word of its refusal.
#[repr(C)]
struct Part {
    word: u64,
    offset: u64,
    length: u64,
}

/// A table is passed by value: one byte of padding behind the model, two behind the initial values, and two at the end of each
/// event, as in the C header.
const _: () = assert!(size_of::<Event>() == 24 && size_of::<Table>() == 808);

/// Byte 0 of a word.
const GOOD: u8 = 0;
const REFUSED: u8 = 1;
const PRESERVED_ORDER: u8 = 2;
const LOAD_VALUE: u8 = 3;
const ATOMICITY: u8 = 4;
const VALUE_READ: u8 = 5;
const FINAL_VALUE: u8 = 6;
const FOUND: u8 = 7;
const NONE_LEFT: u8 = 8;
const SPENT: u8 = 9;
const STEP_TAKEN: u8 = 10;
const ADVISED: u8 = 11;
const UNDECIDED: u8 = 12;
const NO_HELP: u8 = 13;

/// In the place of a record where a refusal names none.
const NO_RECORD: u8 = 255;

/// The refusals of a text that say at which byte, in bytes 4 to 7 of their word.
const WITH_PLACE: [u8; 2] = [19, 20];

/// Bytes 0 to 3 of a word, or the refusal that it says.
fn parts(word: u64) -> Result<[u8; 4], Refusal> {
    let [case, first, second, third, ..] = word.to_le_bytes();
    match case {
        REFUSED => Err(Refusal {
            number: first,
            record: Some(second).filter(|&record| record != NO_RECORD),
            place: Some((word >> u32::BITS) as u32).filter(|_| WITH_PLACE.contains(&first)),
        }),
        _ => Ok([case, first, second, third]),
    }
}

/// Bytes 4 and 5 of a word: a set of rules.
fn rules_part(word: u64) -> Rules {
    let [_, _, _, _, low, high, ..] = word.to_le_bytes();
    Rules::of_bits(u16::from_le_bytes([low, high]))
}

/// Reads a test. It is refused by 1 to 11 and 21.
///
/// ```
/// let mut block = *include_bytes!(concat!(env!("CARGO_MANIFEST_DIR"), "/../samples/C1.block"));
/// assert!(cogthunder::read(&block).is_ok());
///
/// block[7] = 3;
/// let refusal = cogthunder::read(&block).unwrap_err();
/// assert_eq!(refusal.number, 2);
/// assert_eq!(refusal.words(), "the check in bytes 508 to 511 of a block isn't the weighted sum of the bytes before it");
/// ```
pub fn read(test: &[u8]) -> Result<(), Refusal> {
    // Here and below each pointer is that of a slice, beside its length; it isn't null, and what is written to is lent
    // to this call alone.
    let word = unsafe { ct_read(test.as_ptr(), test.len()) };
    parts(word).map(|_| ())
}

/// The table of a test; blank if reading refuses it.
pub(crate) fn table_of(test: &[u8]) -> Table {
    unsafe { ct_table_of(test.as_ptr(), test.len()) }
}

/// Writes the block of a table to `out`, which has [`BLOCK`](crate::BLOCK) bytes. It is refused by 1 if `out` has another
/// length, and by 5 to 11 and 21; a block is of edition 1, so more than 16 events are refused by 5.
///
/// [`Table::block`] makes such a call.
///
/// ```
/// let mut table = cogthunder::Table::new(1, 1);
/// table.load(0, 0, 0);
/// let mut suite = [0; 2 * cogthunder::BLOCK];
/// cogthunder::write(&table, &mut suite[cogthunder::BLOCK..])?;
/// assert!(cogthunder::read(&suite[cogthunder::BLOCK..]).is_ok());
/// assert_eq!(cogthunder::write(&table, &mut suite).unwrap_err().number, 1);
/// # Ok::<(), cogthunder::Refusal>(())
/// ```
pub fn write(table: &Table, out: &mut [u8]) -> Result<(), Refusal> {
    let word = unsafe { ct_write(table.clone(), out.as_mut_ptr(), out.len()) };
    parts(word).map(|_| ())
}

/// The verdict for a candidate: `order` has each memory event once, and `returned` an entry for each event, which is the
/// writer that it returns from, [`INITIALLY`](crate::INITIALLY), or [`NOTHING`](crate::NOTHING) for an event that
/// doesn't read. It is refused by 1 to 14 and 21.
///
/// ```
/// use cogthunder::{verdict, Axiom, Rules, Verdict, INITIALLY, NOTHING};
///
/// let block = include_bytes!(concat!(env!("CARGO_MANIFEST_DIR"), "/../samples/C2.block"));
/// // Event 3 reads what event 2 stored, event 5 the initial value; 1 and 4 are fences.
/// let returned = [NOTHING, NOTHING, NOTHING, 2, NOTHING, INITIALLY];
/// let broken = verdict(block, &returned, &[2, 3, 5, 0])?;
/// assert_eq!(broken, Verdict::Broken(Axiom::PreservedOrder { a: 0, b: 2, rules: Rules::from_iter([4]) }));
/// assert_eq!(
///     broken.to_string(),
///     "not allowed: event 0 has to come before event 2 by rule 4 (a fence between), and doesn't"
/// );
/// # Ok::<(), cogthunder::Refusal>(())
/// ```
pub fn verdict(test: &[u8], returned: &[u8], order: &[u8]) -> Result<Verdict, Refusal> {
    let word = unsafe {
        ct_verdict(test.as_ptr(), test.len(), returned.as_ptr(), returned.len(), order.as_ptr(), order.len())
    };
    let [case, first, second, _] = parts(word)?;
    Ok(Verdict::Broken(match case {
        GOOD => return Ok(Verdict::Allowed),
        PRESERVED_ORDER => Axiom::PreservedOrder { a: first, b: second, rules: rules_part(word) },
        LOAD_VALUE => Axiom::LoadValue { reader: first },
        ATOMICITY => Axiom::Atomicity { lr: first, writer: second },
        VALUE_READ => Axiom::ValueRead { reader: first },
        FINAL_VALUE => Axiom::FinalValue { location: first },
        _ => unreachable!("a verdict has no other case"),
    }))
}

/// Every rule by which preserved program order puts event `a` before event `b`, with the returns given: any numbers, and
/// `returned` as for a candidate. The set is empty unless both are memory events of the test and `a` is earlier on the
/// same hart. It is refused by 1 to 12, 14 and 21.
///
/// ```
/// use cogthunder::{rules, INITIALLY};
///
/// let block = include_bytes!(concat!(env!("CARGO_MANIFEST_DIR"), "/../samples/C5.block"));
/// // Event 1, a load, returns from event 0, an AMO.
/// let returned = [INITIALLY, 0];
/// let found = rules(block, &returned, 0, 1)?;
/// assert_eq!(found.iter().collect::<Vec<u8>>(), [2, 3]);
/// assert_eq!(
///     found.to_string(),
///     "rules 2 (reads of one location that return from different writes) and 3 (a read that returns from an earlier AMO \
///      or SC)"
/// );
///
/// assert!(rules(block, &returned, 1, 0)?.is_empty());
/// assert!(rules(block, &returned, 0, u64::MAX)?.is_empty());
/// assert_eq!(rules(block, &[INITIALLY], 0, 1).unwrap_err().number, 12);
/// # Ok::<(), cogthunder::Refusal>(())
/// ```
pub fn rules(test: &[u8], returned: &[u8], a: u64, b: u64) -> Result<Rules, Refusal> {
    let word = unsafe { ct_rules(test.as_ptr(), test.len(), returned.as_ptr(), returned.len(), a, b) };
    parts(word).map(|_| rules_part(word))
}

/// Writes the returned list that an order determines to the front of `out`, an entry for each event; bytes past it stay.
/// It is refused by 1 to 13, 16 and 21.
///
/// ```
/// use cogthunder::{returns, verdict, Verdict, EVENTS, INITIALLY, NOTHING};
///
/// let block = include_bytes!(concat!(env!("CARGO_MANIFEST_DIR"), "/../samples/C1.block"));
/// let order = [1, 2, 3, 0];
/// let mut returned = [0; 4];
/// returns(block, &order, &mut returned)?;
/// assert_eq!(returned, [NOTHING, NOTHING, 1, INITIALLY]);
/// assert_eq!(verdict(block, &returned, &order)?, Verdict::Allowed);
/// # Ok::<(), cogthunder::Refusal>(())
/// ```
pub fn returns(test: &[u8], order: &[u8], out: &mut [u8]) -> Result<(), Refusal> {
    let word =
        unsafe { ct_returns(test.as_ptr(), test.len(), order.as_ptr(), order.len(), out.as_mut_ptr(), out.len()) };
    parts(word).map(|_| ())
}

/// Searches the clean prefixes after `start`, ascending, for the next witness, and visits at most `allowance` of them.
/// The order found, or the last prefix visited if the allowance is spent, is written to the front of `out`, which has
/// room for each memory event ([`EVENTS`](crate::EVENTS) is enough); bytes past it stay. `start` is empty, or what an
/// earlier call wrote. It is refused by 1 to 11, 15 to 17 and 21.
///
/// [`Witnesses`](crate::Witnesses) makes such calls one after the other.
///
/// ```
/// use cogthunder::{search, Answer, EVENTS};
///
/// let block = include_bytes!(concat!(env!("CARGO_MANIFEST_DIR"), "/../samples/C1.block"));
/// let mut out = [0; EVENTS];
/// let answer = search(block, &[], &mut out, 26)?;
/// assert_eq!(answer, Answer::Spent { len: 3, visited: 26 });
/// assert_eq!(out[..3], [1, 2, 3]);
///
/// let answer = search(block, &[1, 2, 3], &mut out, 1_000_000)?;
/// assert_eq!(answer, Answer::Found { len: 4, visited: 1 });
/// assert_eq!(out[..4], [1, 2, 3, 0]);
/// # Ok::<(), cogthunder::Refusal>(())
/// ```
pub fn search(test: &[u8], start: &[u8], out: &mut [u8], allowance: u64) -> Result<Answer, Refusal> {
    searched(ct_search, test, start, out, allowance)
}

/// The same search by an engine that gives up early, for tests with many clean prefixes.
///
/// A clean prefix is spoiled if one of its readers returns another value than the stated one, whatever follows. This engine
/// visits only the clean prefixes of which no proper prefix is spoiled, and `allowance`, the number visited and refusal 15
/// read over these: a spoiled one is visited and may be a start, and what extends it is refused by 15. All else is as for
/// [`search`].
///
/// From the empty start until none are left, both find the same witnesses in the same order. Keep to one of them from call
/// to call, as [`Witnesses::pruned`](crate::Witnesses::pruned) does.
///
/// ```
/// use cogthunder::{search, search_pruned, Answer, EVENTS};
///
/// let block = include_bytes!(concat!(env!("CARGO_MANIFEST_DIR"), "/../samples/C1.block"));
/// let mut out = [0; EVENTS];
/// assert_eq!(search(block, &[], &mut out, 1_000_000)?, Answer::Found { len: 4, visited: 27 });
/// assert_eq!(search_pruned(block, &[], &mut out, 1_000_000)?, Answer::Found { len: 4, visited: 17 });
/// assert_eq!(out[..4], [1, 2, 3, 0]);
///
/// // Event 3 reads 0 from x, and behind event 0 it would read 1: the prefix is spoiled, and goes no further.
/// assert_eq!(search_pruned(block, &[0, 3], &mut out, 0)?, Answer::Spent { len: 2, visited: 0 });
/// assert_eq!(search_pruned(block, &[0, 3, 1], &mut out, 0).unwrap_err().number, 15);
/// # Ok::<(), cogthunder::Refusal>(())
/// ```
pub fn search_pruned(test: &[u8], start: &[u8], out: &mut [u8], allowance: u64) -> Result<Answer, Refusal> {
    searched(ct_search_pruned, test, start, out, allowance)
}

/// Decides a test: writes the least witness greater than `start` to the front of `out`, or says that none is left. There is no
/// allowance, and it is never undecided. With the empty start, none left means that the outcome is forbidden.
///
/// `start` is any list of bytes; orders are compared with it entry by entry, and a list comes before its extensions. The order
/// that a call wrote is the start of the next one. `out` has room for each memory event ([`EVENTS`](crate::EVENTS) is enough);
/// bytes past the order stay. It is refused by 1 to 11 and 21, then by 16 if `out` is too short.
///
/// The witness is the one that [`search`] finds from the empty start, in less time where a test has many prefixes: what can
/// still follow is told from the events that are placed and the values in memory. Most tests take microseconds;
/// tests of thirty events were made that take half a second, and longer ones can't be ruled out.
///
/// [`Witnesses::decided`](crate::Witnesses::decided) makes such calls one after the other.
///
/// ```
/// use cogthunder::{decide, Decision, EVENTS};
///
/// let block = include_bytes!(concat!(env!("CARGO_MANIFEST_DIR"), "/../samples/C1.block"));
/// let mut out = [0; EVENTS];
/// assert_eq!(decide(block, &[], &mut out)?, Decision::Found { len: 4 });
/// assert_eq!(out[..4], [1, 2, 3, 0]);
/// assert_eq!(decide(block, &[1, 2, 3, 0], &mut out)?, Decision::Found { len: 4 });
/// assert_eq!(out[..4], [1, 3, 0, 2]);
/// // No order begins with 2, so this is the next that begins with 3.
/// assert_eq!(decide(block, &[2, 255], &mut out)?, Decision::Found { len: 4 });
/// assert_eq!(out[..4], [3, 0, 1, 2]);
/// assert_eq!(decide(block, &[3, 1, 2, 0], &mut out)?, Decision::NoneLeft);
///
/// // With fences it is forbidden.
/// let block = include_bytes!(concat!(env!("CARGO_MANIFEST_DIR"), "/../samples/C2.block"));
/// assert_eq!(decide(block, &[], &mut out)?, Decision::NoneLeft);
/// # Ok::<(), cogthunder::Refusal>(())
/// ```
pub fn decide(test: &[u8], start: &[u8], out: &mut [u8]) -> Result<Decision, Refusal> {
    decision(unsafe { ct_decide(test.as_ptr(), test.len(), start.as_ptr(), start.len(), out.as_mut_ptr(), out.len()) })
}

/// The same with a lent memo of any number of words, in the place of the 4,096 that [`decide`] has: on tests that take long, more
/// words save time. The answer is the same whatever is in it, and what is left in it is of no account.
///
/// ```
/// use cogthunder::{decide, decide_with};
///
/// let block = include_bytes!(concat!(env!("CARGO_MANIFEST_DIR"), "/../samples/C3.block"));
/// let (mut out, mut same) = ([0; 4], [0; 4]);
/// for words in [0, 1, 7, 65_536] {
///     let decision = decide_with(block, &[1, 3], &mut out, &mut vec![u64::MAX; words])?;
///     assert_eq!((decision, out), (decide(block, &[1, 3], &mut same)?, same));
/// }
/// # Ok::<(), cogthunder::Refusal>(())
/// ```
pub fn decide_with(test: &[u8], start: &[u8], out: &mut [u8], memo: &mut [u64]) -> Result<Decision, Refusal> {
    let (out_len, words) = (out.len(), memo.len());
    let (out, memo) = (out.as_mut_ptr(), memo.as_mut_ptr());
    decision(unsafe {
        ct_decide_with(test.as_ptr(), test.len(), start.as_ptr(), start.len(), out, out_len, memo, words)
    })
}

/// A decision, from its word.
fn decision(word: u64) -> Result<Decision, Refusal> {
    match parts(word)? {
        [FOUND, len, ..] => Ok(Decision::Found { len: len.into() }),
        [NONE_LEFT, ..] => Ok(Decision::NoneLeft),
        _ => unreachable!("a decision has no other case"),
    }
}

/// Reads a test as text, and gives its table. It is refused by 1, 5, 7 to 11, 19 to 21 and 23.
///
/// A text has a line for each event, with the fields of [`Event`] in their order; then a blank line, a line of initial
/// values, and a line with the condition that is asked for. There `r2=1` says that event 2 returns 1, and `x0=2` that location
/// 0 ends at 2; these are joined by `not`, `and` and `or`, a bracket around each pair. docs/FORMAT.md has it in full.
///
/// No values are stated in the lines: the table has 0 for each value read, for what an AMO with an operation writes, and for
/// the final values.
///
/// ```
/// use cogthunder::read_text;
///
/// // Message passing: hart 0 stores x=1, then y=1; hart 1 loads y, then x.
/// let text = b"2 0 0 0 0 0 0 0 1 0 0\n\
///              2 0 1 0 0 0 0 0 1 0 0\n\
///              1 1 1 0 0 0 0 0 0 0 0\n\
///              1 1 0 0 0 0 0 0 0 0 0\n\
///              \n\
///              0 0\n\
///              ( r2=1 and r3=0 )\n";
/// let table = read_text(text)?;
/// assert_eq!((table.harts, table.locations, table.count), (2, 2, 4));
/// assert_eq!(table.events[1].written, 1);
///
/// // Cut before the condition, it ends too soon.
/// let refusal = read_text(&text[..93]).unwrap_err();
/// assert_eq!((refusal.number, refusal.place), (19, Some(93)));
/// # Ok::<(), cogthunder::Refusal>(())
/// ```
pub fn read_text(text: &[u8]) -> Result<Table, Refusal> {
    let word = unsafe { ct_read_text(text.as_ptr(), text.len()) };
    parts(word)?;
    Ok(unsafe { ct_table_of_text(text.as_ptr(), text.len()) })
}

/// The same search as [`search`] of a test as text: a witness is an order that the rules allow and that makes the condition
/// true. An AMO with an operation writes what this makes of the value that the order makes it return. It is refused as by
/// [`read_text`], and by 15 to 17.
///
/// [`Witnesses::of_text`](crate::Witnesses::of_text) makes such calls one after the other.
///
/// ```
/// use cogthunder::{search_text, Answer, EVENTS};
///
/// // Two harts add 1 to a counter, which is 7 at first.
/// let text = b"3 0 0 0 0 0 0 0 0 1 1\n3 1 0 0 0 0 0 0 0 1 1\n\n7\n( r0=8 and x0=9 )\n";
/// let mut out = [0; EVENTS];
/// let answer = search_text(text, &[], &mut out, 1_000_000)?;
/// assert_eq!(answer, Answer::Found { len: 2, visited: 4 });
/// assert_eq!(out[..2], [1, 0]);
///
/// // Neither is lost.
/// let text = b"3 0 0 0 0 0 0 0 0 1 1\n3 1 0 0 0 0 0 0 0 1 1\n\n7\nnot x0=9\n";
/// assert_eq!(search_text(text, &[], &mut out, 1_000_000)?, Answer::NoneLeft { visited: 4 });
/// # Ok::<(), cogthunder::Refusal>(())
/// ```
pub fn search_text(text: &[u8], start: &[u8], out: &mut [u8], allowance: u64) -> Result<Answer, Refusal> {
    searched(ct_search_text, text, start, out, allowance)
}

/// Of a test or a text, with a start, a buffer and an allowance.
type Search = unsafe extern "C" fn(*const u8, usize, *const u8, usize, *mut u8, usize, u64) -> u64;

/// What one of the searches says.
fn searched(search: Search, test: &[u8], start: &[u8], out: &mut [u8], allowance: u64) -> Result<Answer, Refusal> {
    let word = unsafe {
        search(test.as_ptr(), test.len(), start.as_ptr(), start.len(), out.as_mut_ptr(), out.len(), allowance)
    };
    let [case, len, ..] = parts(word)?;
    let (len, visited) = (usize::from(len), word >> u32::BITS);
    Ok(match case {
        FOUND => Answer::Found { len, visited },
        NONE_LEFT => Answer::NoneLeft { visited },
        SPENT => Answer::Spent { len, visited },
        _ => unreachable!("a search has no other case"),
    })
}

/// One step of a machine for RVTSO, behind a list of steps: its event, and what a returned list holds for it.
///
/// A hart issues its next event, or drains its oldest buffered store. Stores and SCs enter the hart's buffer when they are
/// issued, and memory when they drain; fences just pass. Loads, LRs and AMOs read when they are issued: a load or LR from the
/// newest store to its location in its own hart's buffer, if there is one, else from memory; an AMO reads and writes memory at
/// once. A reader isn't issued while a store in its hart's buffer has to come before it by a rule that doesn't look at what is
/// returned, or while the store that it would read from the buffer is an SC or depends on a buffered SC by its address or data.
/// An SC drains only if atomicity allows it.
///
/// A step is one byte: the hart to issue, or the hart plus 4 to drain. A state is the list of the steps so far, empty at first;
/// where a step is taken, add it to the list. The order of the drains, loads, LRs and AMOs of complete runs, in which every
/// event is issued and every buffer is empty, are exactly the orders that the rules allow in RVTSO, with the same returns.
///
/// It is refused by 1 to 11 and 21, then by 24: the list isn't a run of the machine, the machine doesn't take the step (any
/// number may be asked for), or the model isn't RVTSO.
///
/// ```
/// use cogthunder::{step, Table, Taken, INITIALLY, NOTHING};
///
/// // Store buffering: each hart stores, then loads what the other stores.
/// let mut table = Table::new(2, 2);
/// table.store(0, 0, 1);
/// table.load(0, 1, 0);
/// table.store(1, 1, 1);
/// table.load(1, 0, 0);
/// table.tso();
/// let block = table.block()?;
///
/// // Hart 0 issues its store, which waits in the buffer, and its load, which reads memory past it.
/// assert_eq!(step(&block, &[], 0)?, Taken { event: 0, entry: NOTHING });
/// assert_eq!(step(&block, &[0], 0)?, Taken { event: 1, entry: INITIALLY });
/// // It has no event left; its store drains, and hart 1 reads what it wrote.
/// assert_eq!(step(&block, &[0, 0], 0).unwrap_err().number, 24);
/// assert_eq!(step(&block, &[0, 0], 4)?, Taken { event: 0, entry: NOTHING });
/// assert_eq!(step(&block, &[0, 0, 4, 1], 1)?, Taken { event: 3, entry: 0 });
/// # Ok::<(), cogthunder::Refusal>(())
/// ```
pub fn step(test: &[u8], steps: &[u8], step: u64) -> Result<Taken, Refusal> {
    let word = unsafe { ct_step(test.as_ptr(), test.len(), steps.as_ptr(), steps.len(), step) };
    match parts(word)? {
        [STEP_TAKEN, event, entry, _] => Ok(Taken { event, entry }),
        _ => unreachable!("a step has no other case"),
    }
}

/// The next outcome of a test: the value of each event that reads, in the order of the events, then the value that each
/// location ends at, as some order that the rules allow gives them.
///
/// The reads and final values that the test states aren't asked for, and an AMO with an operation writes what this makes of
/// the value that the order makes it return. `previous` is an earlier outcome, or empty for none; it may also be any other
/// values, as many as an outcome has. The least outcome above it is written to the front of `out`
/// ([`VALUES`](crate::VALUES) is enough room), and places past it stay. [`Listing::Spent`] is by the test and the allowance
/// alone: the test has more clean prefixes. Refused by 1 to 11 and 21; then by 12 if `previous` has another length, by 16
/// if `out` has too few places, and by 17.
///
/// [`Outcomes`](crate::Outcomes) has all outcomes one after the other.
///
/// ```
/// use cogthunder::{outcome, Listing, VALUES};
///
/// // Message passing: events 2 and 3 read, and there are two locations.
/// let block = include_bytes!(concat!(env!("CARGO_MANIFEST_DIR"), "/../samples/C1.block"));
/// let mut out = [9; VALUES];
/// assert_eq!(outcome(block, &[], &mut out, 64)?, Listing::Listed { outcomes: 1, values: 4 });
/// assert_eq!(out[..5], [0, 0, 1, 1, 9]);
/// outcome(block, &[0, 1, 7, 7], &mut out, 64)?;
/// assert_eq!(out[..4], [1, 0, 1, 1]);
/// assert_eq!(outcome(block, &[1, 1, 1, 1], &mut out, 64)?, Listing::NoneLeft);
/// assert_eq!(outcome(block, &[], &mut out, 63)?, Listing::Spent);
/// assert_eq!(outcome(block, &[0, 0], &mut out, 64).unwrap_err().number, 12);
/// # Ok::<(), cogthunder::Refusal>(())
/// ```
pub fn outcome(test: &[u8], previous: &[u16], out: &mut [u16], allowance: u64) -> Result<Listing, Refusal> {
    listed(list(ct_outcome, test, previous, out, allowance), |_| 1)
}

/// The next outcomes at once, by one walk: as many as there are and `out` has room for, at most [`OUTCOMES`](crate::OUTCOMES),
/// ascending, one behind the other. All else is as for [`outcome`].
///
/// ```
/// use cogthunder::{outcomes, Listing};
///
/// let block = include_bytes!(concat!(env!("CARGO_MANIFEST_DIR"), "/../samples/C1.block"));
/// let mut out = [0; 12];
/// assert_eq!(outcomes(block, &[], &mut out, 64)?, Listing::Listed { outcomes: 3, values: 4 });
/// assert_eq!(out, [0, 0, 1, 1, 0, 1, 1, 1, 1, 0, 1, 1]);
/// assert_eq!(outcomes(block, &[1, 0, 1, 1], &mut out, 64)?, Listing::Listed { outcomes: 1, values: 4 });
/// assert_eq!(out[..4], [1, 1, 1, 1]);
/// # Ok::<(), cogthunder::Refusal>(())
/// ```
pub fn outcomes(test: &[u8], previous: &[u16], out: &mut [u16], allowance: u64) -> Result<Listing, Refusal> {
    listed(list(ct_outcomes, test, previous, out, allowance), |word| (word >> u32::BITS) as usize)
}

/// Of a test, with a previous outcome, a buffer and an allowance.
type List = unsafe extern "C" fn(*const u8, usize, *const u16, usize, *mut u16, usize, u64) -> u64;

/// The word of a call for outcomes.
fn list(list: List, test: &[u8], previous: &[u16], out: &mut [u16], allowance: u64) -> u64 {
    unsafe {
        list(test.as_ptr(), test.len(), previous.as_ptr(), previous.len(), out.as_mut_ptr(), out.len(), allowance)
    }
}

/// What the word of a call for outcomes says, with how many outcomes that is.
fn listed(word: u64, outcomes: fn(u64) -> usize) -> Result<Listing, Refusal> {
    match parts(word)? {
        [FOUND, values, ..] => Ok(Listing::Listed { outcomes: outcomes(word), values: values.into() }),
        [NONE_LEFT, ..] => Ok(Listing::NoneLeft),
        [SPENT, ..] => Ok(Listing::Spent),
        _ => unreachable!("a call for outcomes has no other case"),
    }
}

/// Which fences a test lacks: the first set of its clear fences, those that order nothing, with which no witness is left. A fence of
/// the set orders all accesses before it with all behind it. The empty set is tried first, then sets by their size, and those of
/// one size by their lists of event numbers, compared entry by entry; each is searched as by [`search`], from the empty start and
/// with the allowance given, and the first one for which no witness is found decides.
///
/// It is refused by 1 to 11 and 21, by 22 if it has more than [`EMPTY_FENCES`](crate::EMPTY_FENCES) of them, and by 17.
///
/// ```
/// use cogthunder::{advise, Accesses, Advice, Table, Witnesses};
///
/// // Message passing, with a clear fence between the accesses of each hart.
/// let mut table = Table::new(2, 2);
/// table.store(0, 0, 1);
/// let first = table.fence(0, Accesses::None, Accesses::None);
/// table.store(0, 1, 1);
/// table.load(1, 1, 1);
/// let second = table.fence(1, Accesses::None, Accesses::None);
/// table.load(1, 0, 0);
/// assert!(Witnesses::of(&table.block()?)?.next().is_some());
///
/// // Both are needed, and with both the outcome is forbidden.
/// assert_eq!(advise(&table.block()?, 1_000_000)?, Advice::Advised(vec![first, second]));
/// table.fill_fence(first);
/// assert_eq!(advise(&table.block()?, 1_000_000)?, Advice::Advised(vec![second]));
/// table.fill_fence(second);
/// assert_eq!(advise(&table.block()?, 1_000_000)?, Advice::Advised(vec![]));
/// assert_eq!(Witnesses::of(&table.block()?)?.next(), None);
/// # Ok::<(), cogthunder::Refusal>(())
/// ```
pub fn advise(test: &[u8], allowance: u64) -> Result<Advice, Refusal> {
    let word = unsafe { ct_advise(test.as_ptr(), test.len(), allowance) };
    let [case, ..] = parts(word)?;
    let mask = (word >> u32::BITS) as u32;
    let fences = (0..u32::BITS as u8).filter(|event| mask >> event & 1 == 1).collect();
    Ok(match case {
        ADVISED => Advice::Advised(fences),
        UNDECIDED => Advice::Undecided(fences),
        NO_HELP => Advice::NoHelp,
        _ => unreachable!("advice has no other case"),
    })
}

/// How many blocks a suite has; a last part block counts. Its tests are [`Tests`](crate::Tests).
///
/// ```
/// use cogthunder::{blocks, part, read};
///
/// let block = include_bytes!(concat!(env!("CARGO_MANIFEST_DIR"), "/../samples/C1.block"));
/// let suite = [&block[..], &block[..], &block[..100]].concat();
/// assert_eq!(blocks(&suite), 3);
/// let good: Vec<bool> = (0..3).map(|k| part(&suite, k).and_then(read).is_ok()).collect();
/// assert_eq!(good, [true, true, false]);
/// ```
pub fn blocks(suite: &[u8]) -> u64 {
    unsafe { ct_blocks(suite.as_ptr(), suite.len()) }
}

/// Block `k` of a suite, as that part of its bytes: a last part block is shorter than [`BLOCK`](crate::BLOCK), and none is
/// empty. It is refused by 18 if the suite has no block `k`.
///
/// ```
/// use cogthunder::{part, BLOCK};
///
/// let suite = [7; BLOCK + 1];
/// assert_eq!(part(&suite, 0), Ok(&suite[..BLOCK]));
/// assert_eq!(part(&suite, 1), Ok(&suite[BLOCK..]));
/// assert_eq!(part(&suite, 2).unwrap_err().number, 18);
/// assert_eq!(part(&suite, u64::MAX).unwrap_err().number, 18);
/// ```
pub fn part(suite: &[u8], k: u64) -> Result<&[u8], Refusal> {
    let part = unsafe { ct_part_of(suite.as_ptr(), suite.len(), k) };
    parts(part.word)?;
    // Both are within the suite, whose length is a `usize`.
    Ok(&suite[part.offset as usize..][..part.length as usize])
}

/// How many bytes the test that begins at block `k` of a suite has: those of three blocks if block `k` by itself is neither
/// refused by 2 nor by 3 and states edition 2, else those of one. A test that is cut has what is left, and 0 says that block
/// `k` isn't in the suite.
///
/// ```
/// use cogthunder::{test_length, BLOCK, TEST};
///
/// let test = include_bytes!(concat!(env!("CARGO_MANIFEST_DIR"), "/../samples/peterson.block"));
/// let suite = [&test[..], &test[..1000]].concat();
/// let lengths: Vec<usize> = (0..=5).map(|k| test_length(&suite, k)).collect();
/// assert_eq!(lengths, [TEST, BLOCK, BLOCK, 1000, 1000 - BLOCK, 0]);
/// ```
pub fn test_length(suite: &[u8], k: u64) -> usize {
    // It is within the suite, whose length is a `usize`.
    unsafe { ct_test_length(suite.as_ptr(), suite.len(), k) as usize }
}

/// The number of the block where the test after that at block `k` begins: three blocks on after a good test of edition 2,
/// one after any other test, refused or not. It is `k` itself where block `k` isn't in the suite.
///
/// [`Tests`](crate::Tests) makes such calls one after the other.
///
/// ```
/// use cogthunder::next_test;
///
/// let test = include_bytes!(concat!(env!("CARGO_MANIFEST_DIR"), "/../samples/peterson.block"));
/// let suite = [&test[..], &test[..1000]].concat();
/// let next: Vec<u64> = (0..=5).map(|k| next_test(&suite, k)).collect();
/// assert_eq!(next, [3, 2, 3, 4, 5, 5]);
/// ```
pub fn next_test(suite: &[u8], k: u64) -> u64 {
    unsafe { ct_next(suite.as_ptr(), suite.len(), k) }
}

#[cfg(test)]
mod tests {
    use super::*;
    use crate::{Accesses, INITIALLY, NOTHING};

    #[test]
    fn the_word_of_a_refusal_has_a_record_or_a_place() {
        let refusal = |word: u64| parts(word).expect_err("the word is a refusal's");
        assert_eq!(refusal(0x0003_0701), Refusal { number: 7, record: Some(3), place: None });
        assert_eq!(refusal(0x00ff_1701), Refusal { number: 23, record: None, place: None });
        assert_eq!(refusal(0x00ff_1301), Refusal { number: 19, record: None, place: Some(0) });
        assert_eq!(refusal(0x0800_00ff_1301), Refusal { number: 19, record: None, place: Some(2048) });
        assert_eq!(refusal(0x0123_00ff_1401), Refusal { number: 20, record: None, place: Some(0x123) });
        assert_eq!(refusal(0x00ff_1501), Refusal { number: 21, record: None, place: None });
    }

    /// A load of location 0, and an initial value of location 1, which nothing touches.
    #[test]
    fn a_text_names_a_location_that_it_does_not_touch() {
        let text = |condition: &str| format!("1 0 0 0 0 0 0 0 0 0 0\n\n0 7\n{condition}\n").into_bytes();
        let unused = Refusal { number: 21, record: None, place: None };
        for condition in ["r0=0", "x0=0"] {
            let mut out = [9; 2];
            assert_eq!(read_text(&text(condition)), Err(unused));
            assert_eq!(search_text(&text(condition), &[5], &mut out, u64::MAX), Err(unused));
            assert_eq!(out, [9; 2]);
        }
        for condition in ["x1=7", "not x1=8", "( r0=0 or x1=8 )"] {
            let answer = search_text(&text(condition), &[], &mut [0], 1);
            assert_eq!(answer, Ok(Answer::Found { len: 1, visited: 1 }));
        }
    }

    /// LR x (0), SC x (1), a store of y with data of the SC (2), a load of y (3); hart 1 stores x (4).
    fn pair_and_store() -> Vec<u8> {
        let mut table = Table::new(2, 2);
        table.lr(0, 0, 0);
        let sc = table.sc(0, 0, 1);
        let store = table.store(0, 1, 1);
        table.data_dependency(store, sc);
        table.load(0, 1, 1);
        table.store(1, 0, 2);
        table.tso();
        table.block().expect("the table is good").to_vec()
    }

    #[test]
    fn the_word_of_a_step_has_its_event_and_entry() {
        let (block, steps) = (pair_and_store(), [0, 0, 0, 4]);
        let word = unsafe { ct_step(block.as_ptr(), block.len(), steps.as_ptr(), steps.len(), 0) };
        assert_eq!(word.to_le_bytes(), [STEP_TAKEN, 3, 2, 0, 0, 0, 0, 0]);
        let word = unsafe { ct_step(block.as_ptr(), block.len(), steps.as_ptr(), steps.len(), u64::MAX) };
        assert_eq!(word.to_le_bytes(), [REFUSED, 24, NO_RECORD, 0, 0, 0, 0, 0]);
    }

    #[test]
    fn a_run_goes_to_its_end() {
        let block = pair_and_store();
        let run = [0, 0, 0, 4, 0, 4, 1, 5];
        let taken = [
            (0, INITIALLY),
            (1, NOTHING),
            (2, NOTHING),
            (1, NOTHING),
            (3, 2),
            (2, NOTHING),
            (4, NOTHING),
            (4, NOTHING),
        ];
        for (place, &number) in run.iter().enumerate() {
            let (event, entry) = taken[place];
            assert_eq!(step(&block, &run[..place], number.into()), Ok(Taken { event, entry }));
        }
        for number in 0..=8 {
            assert_eq!(step(&block, &run, number).map_err(|refusal| refusal.number), Err(24));
        }
    }

    #[test]
    fn steps_that_the_machine_does_not_take() {
        let refusal =
            |test: &[u8], steps: &[u8], number: u64| step(test, steps, number).map_err(|refusal| refusal.number);
        let block = pair_and_store();
        // The load would read from a store that depends on a buffered SC; hart 1's store came between the LR and its SC.
        assert_eq!(refusal(&block, &[0, 0, 0], 0), Err(24));
        assert_eq!(refusal(&block, &[0, 0, 1, 5], 4), Err(24));
        for number in [2, 4, 5, 8, 255, 256, 1 << 32, u64::MAX] {
            assert_eq!(refusal(&block, &[], number), Err(24));
        }
        // A list that isn't a run, and one that is long.
        assert_eq!(refusal(&block, &[4], 0), Err(24));
        assert_eq!(refusal(&block, &[0; 1000], 0), Err(24));
        // Another model, and a test that is refused before.
        assert_eq!(refusal(include_bytes!("../../samples/C1.block"), &[], 0), Err(24));
        assert_eq!(refusal(&block[1..], &[9], 9), Err(1));
    }

    /// Message passing behind 20 fences that do nothing, so that it takes edition 2, with a clear fence between each hart's
    /// accesses: events 21 and 24.
    fn fenced_message() -> Table {
        let mut table = Table::new(2, 2);
        for _ in 0..20 {
            table.fence_tso(0);
        }
        table.store(0, 0, 1);
        table.fence(0, Accesses::None, Accesses::None);
        table.store(0, 1, 1);
        table.load(1, 1, 1);
        table.fence(1, Accesses::None, Accesses::None);
        table.load(1, 0, 0);
        table
    }

    #[test]
    fn the_word_of_a_decision_has_the_length_of_its_order() {
        let block = include_bytes!("../../samples/C1.block");
        let call = |test: &[u8], start: &[u8], room: usize| {
            let mut out = vec![9; room];
            let (from, to) = (start.as_ptr(), out.as_mut_ptr());
            let word = unsafe { ct_decide(test.as_ptr(), test.len(), from, start.len(), to, room) };
            (word.to_le_bytes(), out)
        };
        assert_eq!(call(block, &[], 5), ([FOUND, 4, 0, 0, 0, 0, 0, 0], vec![1, 2, 3, 0, 9]));
        assert_eq!(call(block, &[3, 1, 2, 0], 5), ([NONE_LEFT, 0, 0, 0, 0, 0, 0, 0], vec![9; 5]));
        assert_eq!(call(block, &[3, 1, 2, 0], 3), ([REFUSED, 16, NO_RECORD, 0, 0, 0, 0, 0], vec![9; 3]));
        assert_eq!(call(&block[1..], &[255; 300], 0), ([REFUSED, 1, NO_RECORD, 0, 0, 0, 0, 0], vec![]));
    }

    #[test]
    fn the_word_of_advice_has_the_mask_of_a_set() {
        let test = fenced_message().test().expect("the table is good");
        let word = |allowance| unsafe { ct_advise(test.as_ptr(), test.len(), allowance) }.to_le_bytes();
        assert_eq!(word(29), [ADVISED, 0, 0, 0, 0, 0, 0x20, 0x01]);
        assert_eq!(word(28), [UNDECIDED, 0, 0, 0, 0, 0, 0x20, 0]);
        assert_eq!(word(0), [UNDECIDED, 0, 0, 0, 0, 0, 0, 0]);
        assert_eq!(word(1_000_000_001), [REFUSED, 17, NO_RECORD, 0, 0, 0, 0, 0]);
        let block = include_bytes!("../../samples/C1.block");
        let word = unsafe { ct_advise(block.as_ptr(), block.len(), 27) };
        assert_eq!(word.to_le_bytes(), [NO_HELP, 0, 0, 0, 0, 0, 0, 0]);
    }

    #[test]
    fn advice_is_given_of_eight_fences_at_most() {
        let mut table = fenced_message();
        let fence = table.events[21].kind;
        (0..6).for_each(|event| table.events[event].kind = fence);
        let advised = |table: &Table| advise(&table.test().expect("the table is good"), 1000);
        assert_eq!(advised(&table), Ok(Advice::Advised(vec![21, 24])));
        table.events[6].kind = fence;
        assert_eq!(advised(&table).map_err(|refusal| refusal.number), Err(22));
        table.fill_fence(0);
        assert_eq!(advised(&table), Ok(Advice::Advised(vec![21, 24])));
    }

    #[test]
    fn the_word_of_outcomes_has_their_number_and_that_of_their_values() {
        let block = include_bytes!("../../samples/C1.block");
        let call = |previous: &[u16], places: usize, allowance: u64| {
            let mut out = vec![9; places];
            [ct_outcome, ct_outcomes].map(|entry| unsafe {
                let (from, to) = (previous.as_ptr(), out.as_mut_ptr());
                entry(block.as_ptr(), block.len(), from, previous.len(), to, places, allowance).to_le_bytes()
            })
        };
        assert_eq!(call(&[], 15, 64), [[FOUND, 4, 0, 0, 0, 0, 0, 0], [FOUND, 4, 0, 0, 3, 0, 0, 0]]);
        assert_eq!(call(&[1; 4], 15, 64), [[NONE_LEFT, 0, 0, 0, 0, 0, 0, 0]; 2]);
        assert_eq!(call(&[1; 4], 15, 63), [[SPENT, 0, 0, 0, 0, 0, 0, 0]; 2]);
        let refusals = [(&[1; 3][..], 0, 12), (&[1; 4], 3, 16), (&[], 4, 17)];
        for (previous, places, number) in refusals {
            assert_eq!(call(previous, places, u64::MAX), [[REFUSED, number, NO_RECORD, 0, 0, 0, 0, 0]; 2]);
        }
    }

    #[test]
    fn the_word_of_a_preserved_order_break_has_the_lowest_rule_and_the_set() {
        let block = include_bytes!("../../samples/C5.block");
        let (returned, order) = ([INITIALLY, 0], [1, 0]);
        let word = unsafe { ct_verdict(block.as_ptr(), block.len(), returned.as_ptr(), 2, order.as_ptr(), 2) };
        assert_eq!(word.to_le_bytes(), [PRESERVED_ORDER, 0, 1, 2, 0b110, 0, 0, 0]);
        let word = unsafe { ct_rules(block.as_ptr(), block.len(), returned.as_ptr(), 2, 0, 1) };
        assert_eq!(word.to_le_bytes(), [GOOD, 0, 0, 0, 0b110, 0, 0, 0]);
    }
}
