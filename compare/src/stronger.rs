//! Stronger tests never allow more: every witness of a test is a witness of each weaker one. Random pairs of tests, and the
//! public litmus tests along their ladders of strength.

use crate::cases::{any_model, any_program, any_test, FEW_EVENTS};
use crate::ladders::{rungs, Rung};
use crate::litmus;
use crate::strength::strengthened;
use cogthunder::{returns, verdict, Answer, Refusal, Verdict, Witnesses, EVENTS};
use oracle::generate::chains::chained_table;
use oracle::generate::orders::{lawful_order, state_outcome};
use oracle::generate::prng::Prng;
use oracle::generate::random::random_table;
use oracle::layout::{EVENTS_AT, MAX_HARTS};
use oracle::search::Engine;
use oracle::table::{Model, Table};
use std::collections::BTreeSet;
use std::fmt;
use std::process::ExitCode;

/// Random pairs of small tables, and of tables of any size.
const SMALL_PAIRS: usize = 40_000;
const LARGE_PAIRS: usize = 4_000;
/// A walk that visits more prefixes isn't made to its end.
const LONGEST_WALK: u64 = 20_000;
/// Of a table with more witnesses, these are held to the weaker table's verdict.
const SOME_WITNESSES: usize = 20;
/// So few that harts often meet at one.
const FEW_LOCATIONS: usize = 3;

/// A pair with a witness of the second that the first doesn't have.
pub struct Exception {
    pub first: Table,
    pub second: Table,
    pub order: Vec<u8>,
}

impl fmt::Display for Exception {
    fn fmt(&self, f: &mut fmt::Formatter) -> fmt::Result {
        let Exception { first, second, order } = self;
        write!(f, "order {order:?} is a witness of the second table alone:\n{first:?}\n{second:?}")
    }
}

#[derive(Default)]
pub struct Count {
    pairs: usize,
    /// Both walked to the end.
    finished: usize,
    /// Witnesses of the second, all of them the first's too, and others of the first.
    kept: usize,
    lost: usize,
}

impl fmt::Display for Count {
    fn fmt(&self, f: &mut fmt::Formatter) -> fmt::Result {
        let Count { pairs, finished, kept, lost } = self;
        write!(f, "{pairs} pairs, {finished} walked to the end, {kept} witnesses kept, {lost} lost")
    }
}

/// Reads the lines of `scripts/litmus --blocks`, and prints what was done.
pub fn run() -> ExitCode {
    let mut prng = Prng::new(1);
    let (mut random, mut ladders) = (Count::default(), Count::default());
    let held = random_pairs(&mut prng, &mut random)
        .and_then(|()| rungs(&litmus::tests()).iter().try_for_each(|rung| hold_rung(&mut prng, &mut ladders, rung)));
    println!("stronger: random {random}; public litmus tests {ladders}");
    match held {
        Ok(()) if [&random, &ladders].iter().all(|count| count.kept > 0 && count.lost > 0) => ExitCode::SUCCESS,
        Ok(()) => {
            println!("  the pairs show nothing");
            ExitCode::FAILURE
        }
        Err(exception) => {
            println!("  EXCEPTION: {exception}");
            ExitCode::FAILURE
        }
    }
}

fn random_pairs(prng: &mut Prng, count: &mut Count) -> Result<(), Box<Exception>> {
    for pair in 0..SMALL_PAIRS + LARGE_PAIRS {
        let program = if pair < SMALL_PAIRS { small_program(prng) } else { large_program(prng) };
        let (first, second) = random_pair(prng, &program);
        hold(prng, count, &first, &second)?;
    }
    Ok(())
}

fn small_program(prng: &mut Prng) -> Table {
    let (harts, locations) = (1 + prng.below(MAX_HARTS), 1 + prng.below(FEW_LOCATIONS));
    let events = 1 + prng.below(FEW_EVENTS);
    random_table(prng, harts, locations, events)
}

/// Of any shape, or one whose harts are chains.
fn large_program(prng: &mut Prng) -> Table {
    if prng.one_in(2) {
        any_program(prng)
    } else {
        chained_table(prng)
    }
}

/// A program in either model and a stronger one; mostly both state the outcome of a lawful order of the one or the other.
fn random_pair(prng: &mut Prng, program: &Table) -> (Table, Table) {
    let mut first = program.clone().in_model(any_model(prng));
    let mut second = strengthened(prng, &first);
    let lawful = if prng.one_in(3) { lawful_order(prng, &first) } else { lawful_order(prng, &second) };
    if let Some(order) = lawful {
        for table in [&mut first, &mut second] {
            state_outcome(table, &order);
        }
    }
    (first, second)
}

/// In each model, and the stronger one in model 1 beside the weaker one in model 0.
fn hold_rung(prng: &mut Prng, count: &mut Count, rung: &Rung) -> Result<(), Box<Exception>> {
    for models in [[Model::Rvwmo, Model::Rvwmo], [Model::Rvtso, Model::Rvtso], [Model::Rvwmo, Model::Rvtso]] {
        let [first, second] = [rung.first.clone().in_model(models[0]), rung.second.clone().in_model(models[1])];
        if first != second {
            hold(prng, count, &first, &second)?;
        }
    }
    Ok(())
}

/// Holds every witness of the second, or some of them, to be one of the first.
pub fn hold(prng: &mut Prng, count: &mut Count, first: &Table, second: &Table) -> Result<(), Box<Exception>> {
    let (weaker, stronger) = (any_test(prng, first), any_test(prng, second));
    let engine = *prng.pick(&Engine::ALL);
    let [allowed, kept] = [&weaker, &stronger].map(|test| walk(engine, test).expect("both tables are good"));
    count.pairs += 1;
    count.kept += kept.orders.len();
    let exception = if allowed.is_finished {
        count.finished += usize::from(kept.is_finished);
        count.lost += if kept.is_finished { allowed.orders.difference(&kept.orders).count() } else { 0 };
        kept.orders.difference(&allowed.orders).next()
    } else {
        kept.orders.iter().take(SOME_WITNESSES).find(|order| !is_allowed(&weaker, order))
    };
    match exception {
        Some(order) => Err(Box::new(Exception { first: first.clone(), second: second.clone(), order: order.clone() })),
        None => Ok(()),
    }
}

struct Walk {
    orders: BTreeSet<Vec<u8>>,
    is_finished: bool,
}

/// To its end, if that is near.
fn walk(engine: Engine, test: &[u8]) -> Result<Walk, Refusal> {
    let witnesses = match engine {
        Engine::First => Witnesses::of(test)?,
        Engine::Second => Witnesses::pruned(test)?,
    };
    let mut witnesses = witnesses.allowance(LONGEST_WALK);
    let mut orders = BTreeSet::new();
    while witnesses.visited() <= LONGEST_WALK {
        match witnesses.step() {
            Answer::Found { .. } => orders.insert(witnesses.start().to_vec()),
            Answer::Spent { .. } => break,
            Answer::NoneLeft { .. } => return Ok(Walk { orders, is_finished: true }),
        };
    }
    Ok(Walk { orders, is_finished: false })
}

/// Whether the verdict allows an order with the returns that it determines.
fn is_allowed(test: &[u8], order: &[u8]) -> bool {
    let mut returned = [0; EVENTS];
    returns(test, order, &mut returned).expect("the order has each memory event once");
    let events = usize::from(test[EVENTS_AT]);
    verdict(test, &returned[..events], order) == Ok(Verdict::Allowed)
}

#[cfg(test)]
mod tests {
    use super::*;
    use crate::strength::is_stronger;
    use oracle::litmus::c2;

    const TABLES: usize = 1000;

    #[test]
    fn both_tables_of_a_pair_state_the_same_outcome() {
        let mut prng = Prng::new(1);
        for _ in 0..TABLES {
            let program = large_program(&mut prng);
            let (first, second) = random_pair(&mut prng, &program);
            assert!(is_stronger(&first, &second.in_model(first.model)));
        }
    }

    #[test]
    fn a_pair_the_wrong_way_round_is_an_exception() {
        let mut open = c2();
        for event in open.events.iter_mut().filter(|event| event.is_fence()) {
            event.flags = 0;
        }
        let mut prng = Prng::new(4);
        let mut count = Count::default();
        assert!(hold(&mut prng, &mut count, &open, &c2()).is_ok());
        assert_eq!((count.finished, count.kept, count.lost), (1, 0, 6));
        let exception = hold(&mut prng, &mut count, &c2(), &open).expect_err("C2 has no witness");
        assert_eq!(exception.order, [2, 3, 5, 0]);
    }
}
