//! Outcomes: they are those of every lawful order, told a second way, and the stated one is among
//! them exactly if it has a witness.

use oracle::generate::calls::small_table_in;
use oracle::generate::orders::permutations;
use oracle::generate::outcome_tables::{amo_chains, many_outcomes, single_outcomes};
use oracle::generate::prng::Prng;
use oracle::outcome::{Outcome, Within};
use oracle::rules::{is_lawful, is_witness};
use oracle::search::MAX_ALLOWANCE;
use oracle::table::{names_location, Model, Table};
use std::collections::BTreeSet;

const TABLES: usize = 2000;
/// Every order of so many memory events is tried.
const MOST_ORDERED: usize = 6;

fn outcomes(table: &Table) -> BTreeSet<Outcome> {
    let within = Within::of(table, MAX_ALLOWANCE);
    within.all().expect("the list is short").clone()
}

/// What a lawful order gives, event by event: memory holds the last write of each location, and a
/// reader returns the newest write of its own hart that memory doesn't have yet, if there is one.
fn followed(table: &Table, order: &[usize]) -> Outcome {
    let mut memory = table.initial;
    let mut read = vec![0; table.events.len()];
    for (place, &number) in order.iter().enumerate() {
        let event = &table.events[number];
        if event.reads() {
            let is_own = |&writer: &usize| {
                let other = &table.events[writer];
                other.writes() && other.hart == event.hart && other.location == event.location
            };
            let mut waiting = (0..number).rev().filter(is_own);
            let waiting = waiting.find(|writer| !order[..place].contains(writer));
            read[number] = match waiting {
                Some(writer) => table.events[writer].written,
                None => memory[event.location],
            };
        }
        if event.writes() {
            let applied = event.operation.applied(read[number], event.operand);
            memory[event.location] = applied.unwrap_or(event.written);
        }
    }
    let readers = (0..table.events.len()).filter(|&event| table.events[event].reads());
    readers.map(|reader| read[reader]).chain(memory[..table.locations].iter().copied()).collect()
}

fn has_stated_values(table: &Table, outcome: &[u16]) -> bool {
    let stated = table.events.iter().filter(|event| event.reads()).map(|event| event.read);
    let (read, ends) = outcome.split_at(outcome.len() - table.locations);
    let is_end = |location: usize| {
        !names_location(table.stated, location) || ends[location] == table.finals[location]
    };
    stated.eq(read.iter().copied()) && (0..ends.len()).all(is_end)
}

/// Holds the outcomes of a table to all orders of its memory events; says whether the stated one is
/// among them.
fn compare(table: &Table) -> bool {
    let orders = permutations(&table.memory_events());
    let lawful = orders.iter().filter(|order| is_lawful(table, order));
    let outcomes = outcomes(table);
    assert_eq!(outcomes, lawful.map(|order| followed(table, order)).collect(), "{table:?}");
    let is_listed = outcomes.iter().any(|outcome| has_stated_values(table, outcome));
    assert_eq!(is_listed, orders.iter().any(|order| is_witness(table, order)), "{table:?}");
    is_listed
}

#[test]
fn random_tables() {
    let mut prng = Prng::new(11);
    let (mut tables, mut listed) = (0, 0);
    while tables < TABLES {
        let model = *prng.pick(&Model::ALL);
        let table = small_table_in(model, &mut prng);
        if table.memory_events().len() <= MOST_ORDERED {
            tables += 1;
            listed += usize::from(compare(&table));
        }
    }
    assert!(listed > TABLES / 4 && listed < TABLES * 9 / 10, "{listed}");
}

#[test]
fn named_tables() {
    let cases = [single_outcomes(), many_outcomes(), amo_chains()].concat();
    let mut compared = 0;
    for (_, table) in cases {
        if table.memory_events().len() <= MOST_ORDERED {
            for model in Model::ALL {
                compare(&table.clone().in_model(model));
                compared += 1;
            }
        }
    }
    assert!(compared >= 20, "{compared}");
}
