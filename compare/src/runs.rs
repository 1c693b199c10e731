//! Steps of the machine for RVTSO behind random lists of steps, and all runs of small tables beside a finished walk.

use crate::call::{Entry, Ran};
use crate::cases::{any_program, any_test, nearly, some_bytes, Calls, SOME_CALLS};
use crate::comparison::{Comparison, Difference};
use cogthunder::{step, Refusal, Table, Witnesses, NOTHING};
use oracle::candidate::encode_entry;
use oracle::generate::machine_tables::{machine_table, sc_shapes};
use oracle::generate::orders::bytes;
use oracle::generate::prng::Prng;
use oracle::generate::random::state_untouched;
use oracle::generate::runs::{changed_run, random_run};
use oracle::layout::{MAX_HARTS, MAX_LOCATIONS, MOST_EVENTS};
use oracle::machine::orders_of_runs;
use oracle::operation::Operation;
use oracle::rules::is_witness;
use oracle::table::{read, refuse_if, Kind, Line, Model};
use std::collections::BTreeSet;

/// With so few events all runs of a table can be made.
const FEW_EVENTS: usize = 5;
const LONGEST_LIST: usize = 1000;
const STEPS: std::ops::Range<u64> = 0..8;
const DRAINS: u64 = 4;

/// Steps behind a run of a table of any size, behind fronts of it, and behind lists that are nearly a run.
pub fn steps(prng: &mut Prng, comparison: &mut Comparison) -> Result<(), Box<Difference>> {
    let table = any_machine(prng);
    let mut calls = Calls { comparison, bytes: any_test(prng, &table) };
    let run = random_run(prng, &table);
    for _ in 0..SOME_CALLS {
        let steps = any_list(prng, &run);
        let step = any_step(prng, run.get(steps.len()).copied());
        calls.call(Entry::Step { steps, step })?;
    }
    let most = prng.below(run.len() + 1);
    for step in STEPS {
        calls.call(Entry::Step { steps: run[..most].to_vec(), step })?;
    }
    Ok(())
}

/// Mostly a table with SCs and stores that depend on them; any table in model 1, or in model 0.
fn any_machine(prng: &mut Prng) -> oracle::table::Table {
    let (harts, events) = (1 + prng.below(MAX_HARTS), 1 + prng.below(MOST_EVENTS));
    match prng.below(8) {
        0 => any_program(prng),
        1 => any_program(prng).in_model(Model::Rvtso),
        2 => prng.pick(&sc_shapes()).clone(),
        3 | 4 => machine_table(prng, harts, events),
        _ => machine_table(prng, harts, 1 + events / 3),
    }
}

fn any_list(prng: &mut Prng, run: &[u8]) -> Vec<u8> {
    let length = prng.below(run.len() + 1);
    match prng.below(12) {
        0 => nearly(prng, &run[..length]),
        1 | 2 if length > 0 => changed_run(prng, &run[..length]),
        3 => {
            let length = prng.below(LONGEST_LIST);
            some_bytes(prng, length)
        }
        4 => run.to_vec(),
        5 => run.repeat(2),
        _ => run[..length].to_vec(),
    }
}

/// Often the step that the run goes on with.
pub fn any_step(prng: &mut Prng, next: Option<u8>) -> u64 {
    let small = prng.below(10) as u64;
    let any = prng.bits();
    let next = next.map_or(small, u64::from);
    let no_step = *prng.pick(&[any, any % 256, next + 256, next + (1 << 32)]);
    *prng.pick(&[next, next, next, next, small, small, no_step])
}

/// All runs of a small table; mostly of one in which every lawful order is a witness.
pub fn all_runs(prng: &mut Prng, comparison: &mut Comparison) -> Result<(), Box<Difference>> {
    let (harts, events) = (1 + prng.below(MAX_HARTS), 1 + prng.below(FEW_EVENTS));
    let shape = prng.pick(&sc_shapes()).clone();
    let mut table = if prng.one_in(8) { shape } else { machine_table(prng, harts, events) };
    if !prng.one_in(4) {
        clear_values(&mut table);
    }
    let bytes = any_test(prng, &table);
    Calls { comparison, bytes }.call(Entry::Runs)?;
    Ok(())
}

/// Every value is 0.
fn clear_values(table: &mut oracle::table::Table) {
    for event in &mut table.events {
        (event.read, event.written, event.operand) = (0, 0, 0);
        event.operation = Operation::None;
    }
    (table.stated, table.initial, table.finals) = (0, [0; MAX_LOCATIONS], [0; MAX_LOCATIONS]);
    state_untouched(table);
}

/// The independent program's orders of all complete runs, and those of them that are witnesses.
pub fn reference(test: &[u8]) -> Result<Ran, oracle::table::Refusal> {
    let table = read(test)?;
    refuse_if(table.model != Model::Rvtso, Line::Step)?;
    let runs = orders_of_runs(&table);
    let witnesses = runs.iter().filter(|(order, _)| is_witness(&table, order)).map(|(order, _)| bytes(order));
    let entries = |returns: Vec<_>| returns.into_iter().map(encode_entry).collect();
    Ok(Ran { witnesses: witnesses.collect(), orders: runs.into_iter().map(|(o, r)| (bytes(&o), entries(r))).collect() })
}

/// What the library's steps have led to.
#[derive(Clone, PartialEq, Eq, PartialOrd, Ord)]
struct State {
    issued: [usize; MAX_HARTS],
    order: Vec<u8>,
    returned: Vec<u8>,
}

/// The orders of all complete runs that the library's steps make, and the witnesses of a finished walk.
pub fn library(test: &[u8]) -> Result<Ran, Refusal> {
    let is_refused = |number| step(test, &[], number).is_err();
    if STEPS.into_iter().all(is_refused) {
        return step(test, &[], 0).map(|_| Ran::default());
    }
    let orders = library_runs(test, &Table::of_test(test)?).into_iter().collect();
    Ok(Ran { orders, witnesses: Witnesses::of(test)?.collect() })
}

/// The orders of all complete runs, with their returned lists, ascending.
fn library_runs(test: &[u8], table: &Table) -> BTreeSet<(Vec<u8>, Vec<u8>)> {
    let count = usize::from(table.count);
    let memory_events = table.events[..count].iter().filter(|event| event.kind <= Kind::Sc as u8).count();
    let begin = State { issued: [0; MAX_HARTS], order: Vec::new(), returned: vec![NOTHING; count] };
    let (mut seen, mut complete) = (BTreeSet::from([begin.clone()]), BTreeSet::new());
    let mut open = vec![(Vec::new(), begin)];
    while let Some((steps, state)) = open.pop() {
        if state.issued.iter().sum::<usize>() == count && state.order.len() == memory_events {
            complete.insert((state.order.clone(), state.returned.clone()));
        }
        for number in STEPS {
            if let Ok(taken) = step(test, &steps, number) {
                let mut next = state.clone();
                if number < DRAINS {
                    next.issued[number as usize] += 1;
                }
                if number >= DRAINS || taken.entry != NOTHING {
                    next.order.push(taken.event);
                }
                next.returned[usize::from(taken.event)] = taken.entry;
                if seen.insert(next.clone()) {
                    open.push(([&steps[..], &[number as u8]].concat(), next));
                }
            }
        }
    }
    complete
}

#[cfg(test)]
mod tests {
    use super::*;

    const TABLES: usize = 300;

    #[test]
    fn most_small_tables_have_many_orders_and_all_are_witnesses() {
        let mut prng = Prng::new(1);
        let (mut orders, mut witnesses) = (0, 0);
        for _ in 0..TABLES {
            let mut table = machine_table(&mut prng, 2, FEW_EVENTS);
            clear_values(&mut table);
            let ran = reference(&any_test(&mut prng, &table)).expect("the table is good");
            orders += ran.orders.len();
            witnesses += ran.witnesses.len();
        }
        assert_eq!(orders, witnesses);
        assert!(orders > 2 * TABLES, "{orders}");
    }

    #[test]
    fn lists_are_runs_and_others() {
        let mut prng = Prng::new(2);
        let (mut runs, mut others) = (0, 0);
        for _ in 0..TABLES {
            let table = machine_table(&mut prng, 2, 6);
            let run = random_run(&mut prng, &table);
            match oracle::machine::after(&table, &any_list(&mut prng, &run)) {
                Some(_) => runs += 1,
                None => others += 1,
            }
        }
        assert!(runs > TABLES / 4 && others > TABLES / 8, "{runs}, {others}");
    }
}
