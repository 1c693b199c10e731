//! Decisions: random calls on small tables, and all witnesses by the iterator; and decisions on tables of any size, each held to
//! the verdict and to the second engine.

use crate::call::Entry;
use crate::cases::*;
use crate::comparison::{Comparison, Difference};
use cogthunder::{decide, returns, search_pruned, verdict, Answer, Decision, Refusal, Verdict, Witnesses, EVENTS};
use oracle::candidate;
use oracle::decision::{witnesses, Decider, Order};
use oracle::generate::calls::any_buffer_length;
use oracle::generate::orders::{bytes, linear_extension, state_outcome};
use oracle::generate::prng::Prng;
use oracle::layout::{EVENTS_AT, MOST_EVENTS};
use oracle::table::{read, Table};
use std::fmt;
use std::process::ExitCode;

/// Calls with any starts and buffers, on a small table or on one whose harts are chains.
pub fn decisions(prng: &mut Prng, comparison: &mut Comparison) -> Result<(), Box<Difference>> {
    let table = any_listed(prng);
    let witnesses = witnesses(&table);
    let mut calls = Calls { comparison, bytes: any_test(prng, &table) };
    for _ in 0..SOME_CALLS {
        let start = any_start_of(prng, &table, &witnesses);
        any_decision(prng, &mut calls, &table, start)?;
    }
    Ok(())
}

/// All witnesses of such a table above any start, by the iterator.
pub fn all_decided(prng: &mut Prng, comparison: &mut Comparison) -> Result<(), Box<Difference>> {
    let table = any_listed(prng);
    let witnesses = witnesses(&table);
    let mut calls = Calls { comparison, bytes: any_test(prng, &table) };
    for _ in 0..2 {
        let start = if prng.one_in(2) { Vec::new() } else { any_start_of(prng, &table, &witnesses) };
        calls.call(Entry::AllDecided { start, steps: prng.below(SOME_CALLS) })?;
    }
    Ok(())
}

fn any_listed(prng: &mut Prng) -> Table {
    let events = 1 + prng.below(FEW_EVENTS);
    if prng.one_in(8) {
        any_chain(prng)
    } else {
        table_with_outcome(prng, events)
    }
}

/// One call; the buffer is long enough or not.
pub fn any_decision(prng: &mut Prng, calls: &mut Calls, table: &Table, start: Vec<u8>) -> Result<(), Box<Difference>> {
    let room = any_buffer_length(prng, table.memory_events().len());
    let out = some_bytes(prng, room);
    calls.call(Entry::Decide { start, out })?;
    Ok(())
}

/// The same with a start of a table that the bytes may or may not hold, unless they hold one with many prefixes.
pub fn decision_on_bytes(prng: &mut Prng, calls: &mut Calls, table: &Table) -> Result<(), Box<Difference>> {
    if read(&calls.bytes).is_ok_and(|held| held.memory_events().len() > FEW_EVENTS) {
        return Ok(());
    }
    let start = bytes(&any_start(prng, table));
    any_decision(prng, calls, table, start)
}

/// None, a witness, a part of one or a list near it, a part of any order, or any bytes.
fn any_start_of(prng: &mut Prng, table: &Table, witnesses: &[Order]) -> Vec<u8> {
    let order = match witnesses {
        [] => bytes(&any_start(prng, table)),
        _ => prng.pick(witnesses).clone(),
    };
    let length = prng.below(2 * MOST_EVENTS);
    match prng.below(8) {
        0 | 1 => order,
        2 => order[..prng.below(order.len() + 1)].to_vec(),
        3 | 4 => nearly(prng, &order),
        5 => bytes(&any_start(prng, table)),
        6 => some_bytes(prng, length),
        _ => Vec::new(),
    }
}

/// All witnesses above a start: after some steps the iterator is thrown away, and another one resumed where it stood.
pub fn library(test: &[u8], start: &[u8], steps: usize) -> Result<Vec<Order>, Refusal> {
    let mut orders = Vec::new();
    let mut walk = Witnesses::resume_decided(test, start)?;
    orders.extend(walk.by_ref().take(steps));
    orders.extend(Witnesses::resume_decided(test, walk.start())?);
    Ok(orders)
}

/// What the independent program lists of these.
pub fn reference(test: &[u8], start: &[u8]) -> Result<Vec<Order>, oracle::table::Refusal> {
    let table = read(test)?;
    Ok(witnesses(&table).into_iter().filter(|order| order[..] > *start).collect())
}

/// Random tables of any size that are decided by themselves.
const LARGE_TABLES: usize = 30_000;
/// So many decisions are made on each, unless none is left before.
const SOME_DECISIONS: usize = 4;
/// The second engine is given up after so many prefixes.
const MOST_VISITED: u64 = 50_000;

/// A decision that isn't right.
struct Wrong {
    test: Vec<u8>,
    start: Vec<u8>,
    decision: Result<Decision, Refusal>,
    out: Vec<u8>,
    why: &'static str,
}

impl fmt::Display for Wrong {
    fn fmt(&self, f: &mut fmt::Formatter) -> fmt::Result {
        let Wrong { test, start, decision, out, why } = self;
        write!(f, "{why}: {decision:?} with start {start:?} and buffer {out:?}, of the test\n{:?}", read(test))
    }
}

#[derive(Default)]
struct Count {
    witnesses: usize,
    forbidden: usize,
    /// Tests on which the second engine came to its end: to its first witness, or to none.
    same_first: usize,
    same_forbidden: usize,
}

/// Decides tables of any size, and prints what was done.
pub fn run() -> ExitCode {
    let (mut prng, mut count) = (Prng::new(1), Count::default());
    let wrong = (0..LARGE_TABLES).find_map(|_| {
        let table = large_table(&mut prng);
        hold(&mut prng, &mut count, &table).err()
    });
    let Count { witnesses, forbidden, same_first, same_forbidden } = count;
    println!(
        "decisions: {LARGE_TABLES} tables of up to {EVENTS} events; {witnesses} witnesses, each allowed by the verdict, \
         {same_first} the second engine's first; {forbidden} tests forbidden, {same_forbidden} by the second engine too"
    );
    if let Some(wrong) = &wrong {
        println!("  WRONG: {wrong}");
    }
    let is_shown = [witnesses, same_first, same_forbidden].iter().all(|&number| number > LARGE_TABLES / 10);
    if wrong.is_none() && is_shown {
        ExitCode::SUCCESS
    } else {
        ExitCode::FAILURE
    }
}

/// A table of any shape and size; mostly it states the values of some order, lawful or not.
fn large_table(prng: &mut Prng) -> Table {
    let mut table = any_shape(prng);
    if !prng.one_in(4) {
        let order = linear_extension(prng, &table);
        state_outcome(&mut table, &order);
    }
    table
}

/// The first decisions on a table, each from the order before it.
fn hold(prng: &mut Prng, count: &mut Count, table: &Table) -> Result<(), Box<Wrong>> {
    let test = any_test(prng, table);
    let mut start = Vec::new();
    for number in 0..SOME_DECISIONS {
        let mut out = some_bytes(prng, EVENTS);
        let before = out.clone();
        let decision = decide(&test, &start, &mut out);
        let why = match decision {
            Err(_) => Some("the test is good"),
            Ok(Decision::NoneLeft) => (out != before).then_some("nothing is to be written"),
            Ok(Decision::Found { len }) => broken(table, &test, &start, &out, &before, len),
        };
        let why = why.or_else(|| if number == 0 { contradicted(count, &test, decision, &out) } else { None });
        if let Some(why) = why {
            return Err(Box::new(Wrong { test, start, decision, out, why }));
        }
        let Ok(Decision::Found { len }) = decision else {
            count.forbidden += usize::from(number == 0);
            return Ok(());
        };
        count.witnesses += 1;
        start = out[..len].to_vec();
    }
    Ok(())
}

/// What is wrong with the order that was written: both verdicts have to allow it.
fn broken(table: &Table, test: &[u8], start: &[u8], out: &[u8], before: &[u8], len: usize) -> Option<&'static str> {
    let (order, rest) = out.split_at(len);
    if order.len() != table.memory_events().len() || rest != &before[len..] {
        return Some("an order is to be written, and nothing past it");
    }
    if order <= start {
        return Some("the order isn't above the start");
    }
    let mut returned = [0; EVENTS];
    if returns(test, order, &mut returned).is_err() {
        return Some("this is no order of the memory events");
    }
    let returned = &returned[..usize::from(test[EVENTS_AT])];
    let is_allowed = verdict(test, returned, order) == Ok(Verdict::Allowed);
    let is_witness = candidate::verdict(test, returned, order).is_ok_and(|broken| broken.is_none());
    (!is_allowed || !is_witness).then_some("the verdict doesn't allow the order")
}

/// What the second engine says of the first decision, if it comes to its end.
fn contradicted(
    count: &mut Count,
    test: &[u8],
    decision: Result<Decision, Refusal>,
    out: &[u8],
) -> Option<&'static str> {
    let mut found = [0; EVENTS];
    match search_pruned(test, &[], &mut found, MOST_VISITED) {
        Ok(Answer::Found { len, .. }) => {
            count.same_first += 1;
            (decision != Ok(Decision::Found { len }) || found[..len] != out[..len])
                .then_some("the second engine has another first witness")
        }
        Ok(Answer::NoneLeft { .. }) => {
            count.same_forbidden += 1;
            (decision != Ok(Decision::NoneLeft)).then_some("the second engine finds no witness")
        }
        Ok(Answer::Spent { .. }) => None,
        Err(_) => Some("the second engine refuses the test"),
    }
}

/// The independent program's decision, and what it writes.
pub fn decided(
    decider: &mut Decider,
    test: &[u8],
    start: &[u8],
    out: &mut [u8],
) -> Result<Decision, oracle::table::Refusal> {
    use oracle::decision::Decision as Other;
    Ok(match decider.decide(test, start, out)? {
        Other::Found(order) => Decision::Found { len: order.len() },
        Other::NoneLeft => Decision::NoneLeft,
    })
}
