//! Calls for outcomes with random arguments, and all outcomes of a test.

use crate::call::{value_bytes, Entry, Reply};
use crate::cases::{any_chain, any_shape, any_test, table_with_outcome, Calls, FEW_EVENTS, SOME_CALLS};
use crate::comparison::{Comparison, Difference};
use cogthunder::{outcome, outcomes, Listing, Outcomes, Refusal, Unlisted, VALUES};
use oracle::generate::prng::Prng;
use oracle::generate::random::random_table;
use oracle::layout::MAX_HARTS;
use oracle::outcome::{outcome_length, refuse_arguments, Arguments, Asked, Lister, Outcome, Within, MOST_OUTCOMES};
use oracle::search::MAX_ALLOWANCE;
use oracle::table::{read, Model, Table};

/// A chain has fewer clean prefixes than this.
const CHAIN_ALLOWANCE: u64 = 40_000;

/// Of a test, with a previous outcome, a buffer and an allowance.
type Listed = fn(&[u8], &[u16], &mut [u16], u64) -> Result<Listing, Refusal>;

/// The library's function for what is asked.
pub fn entry_of(asked: Asked) -> Listed {
    match asked {
        Asked::One => outcome,
        Asked::Some => outcomes,
    }
}

/// Calls with any previous outcomes, buffers and allowances: of a small table, about the length of its list of prefixes; of
/// one of any size, with small allowances.
pub fn outcome_calls(prng: &mut Prng, comparison: &mut Comparison) -> Result<(), Box<Difference>> {
    let (table, prefixes) = any_counted(prng);
    let mut calls = Calls { comparison, bytes: any_test(prng, &table) };
    for _ in 0..SOME_CALLS {
        let around = [0, prefixes - 1, prefixes, prefixes, prefixes, prefixes + 1];
        let allowance = *prng.pick(&around);
        any_listing(prng, &mut calls, &table, allowance)?;
    }
    any_listing(prng, &mut calls, &table, MAX_ALLOWANCE + 1)
}

/// A table, and a number of prefixes after which its list ends, or one that is small.
fn any_counted(prng: &mut Prng) -> (Table, u64) {
    if prng.one_in(6) {
        return (any_shape(prng), 1 + prng.below(100) as u64);
    }
    let table = any_listed(prng);
    let prefixes = Within::of(&table, MAX_ALLOWANCE).prefixes;
    (table, prefixes)
}

/// A table whose outcomes can be listed: a chain, a small one, or one whose harts meet at few locations with different values.
fn any_listed(prng: &mut Prng) -> Table {
    let events = 1 + prng.below(FEW_EVENTS);
    match prng.below(40) {
        0 => any_chain(prng),
        1..=12 => table_with_outcome(prng, events),
        _ => {
            let (harts, locations) = (2 + prng.below(MAX_HARTS - 1), 1 + prng.below(2));
            let model = *prng.pick(&Model::ALL);
            let mut table = random_table(prng, harts, locations, events).in_model(model);
            different_values(&mut table);
            table
        }
    }
}

/// Every write has a value of its own, but for AMOs with an operation.
fn different_values(table: &mut Table) {
    for (number, event) in table.events.iter_mut().enumerate() {
        if event.writes() && !event.has_operation() {
            event.written = 10 + number as u16;
        }
    }
}

/// One call with an allowance; the rest is right or nearly so.
pub fn any_listing(prng: &mut Prng, calls: &mut Calls, table: &Table, allowance: u64) -> Result<(), Box<Difference>> {
    let values = outcome_length(table);
    let asked = *prng.pick(&Asked::ALL);
    let previous = any_previous(prng, table);
    let (more, several) = (prng.below(9), (2 + prng.below(4)) * values);
    let longer = [values + more, several, several + more, several + more, MOST_OUTCOMES * values + more];
    let places = [&[values, values, values - 1, 0][..], &longer].concat();
    let places = *prng.pick(&places);
    let out = some_values(prng, places);
    let allowance = if prng.one_in(8) { u64::MAX } else { allowance };
    calls.call(Entry::Outcomes { asked, previous, out, allowance })?;
    Ok(())
}

/// None, values that the table states or that are near them, any values, or a list of another length.
fn any_previous(prng: &mut Prng, table: &Table) -> Outcome {
    let stated = table.events.iter().filter(|event| event.reads()).map(|event| event.read);
    let mut values: Outcome = stated.chain(table.finals[..table.locations].iter().copied()).collect();
    let place = prng.below(values.len());
    match prng.below(14) {
        0..=5 => values.clear(),
        6 => values[place] = values[place].wrapping_sub(1),
        7 => values[place] = prng.below(4) as u16,
        8 => values = some_values(prng, values.len()),
        9 => drop(values.remove(place)),
        10 => values.push(0),
        _ => {}
    }
    values
}

fn some_values(prng: &mut Prng, length: usize) -> Vec<u16> {
    (0..length).map(|_| prng.bits() as u16).collect()
}

/// All outcomes of a table, or those above some values, by single calls or by the iterator.
pub fn all_outcomes(prng: &mut Prng, comparison: &mut Comparison) -> Result<(), Box<Difference>> {
    let table = any_listed(prng);
    let bytes = any_test(prng, &table);
    let asked = *prng.pick(&Asked::ALL);
    let previous = if prng.one_in(3) { any_previous(prng, &table) } else { Outcome::new() };
    let allowance = *prng.pick(&[CHAIN_ALLOWANCE, CHAIN_ALLOWANCE, CHAIN_ALLOWANCE, 20]);
    let resumed_after = prng.below(SOME_CALLS);
    Calls { comparison, bytes }.call(Entry::AllOutcomes { asked, previous, allowance, resumed_after })?;
    Ok(())
}

/// The independent program's answer to one call, which it writes to the bytes of a buffer.
pub fn listed(
    lister: &mut Lister,
    test: &[u8],
    arguments: Arguments,
    buffer: &mut [u8],
) -> Result<Listing, oracle::table::Refusal> {
    let listing = lister.list(test, arguments)?;
    if let oracle::outcome::Listing::Listed(outcomes) = &listing {
        let written = value_bytes(&outcomes.concat());
        buffer[..written.len()].copy_from_slice(&written);
    }
    Ok(same_listing(&listing))
}

fn same_listing(listing: &oracle::outcome::Listing) -> Listing {
    use oracle::outcome::Listing as Other;
    match listing {
        Other::Listed(outcomes) => Listing::Listed { outcomes: outcomes.len(), values: outcomes[0].len() },
        Other::NoneLeft => Listing::NoneLeft,
        Other::Spent => Listing::Spent,
    }
}

/// Its outcomes above some values.
pub fn reference(test: &[u8], previous: &[u16], allowance: u64) -> Result<Reply, oracle::table::Refusal> {
    let table = read(test)?;
    let places = outcome_length(&table);
    refuse_arguments(&table, Arguments { asked: Asked::One, previous, places, allowance })?;
    let within = Within::of(&table, allowance);
    let Some(all) = within.all() else { return Ok(Reply::Listed(Listing::Spent)) };
    Ok(Reply::AllOutcomes(all.iter().filter(|outcome| outcome[..] > *previous).cloned().collect()))
}

/// The library's: by single calls, or by the iterator, which is thrown away after some outcomes and resumed where it stood.
pub fn library(
    test: &[u8],
    asked: Asked,
    previous: &[u16],
    allowance: u64,
    resumed_after: usize,
) -> Result<Vec<Vec<u16>>, Unlisted> {
    match asked {
        Asked::One => one_by_one(test, previous, allowance),
        Asked::Some => {
            let mut first = Outcomes::resume(test, previous, allowance)?;
            let mut all: Vec<Vec<u16>> = first.by_ref().take(resumed_after).collect();
            all.extend(Outcomes::resume(test, first.previous(), allowance)?);
            Ok(all)
        }
    }
}

fn one_by_one(test: &[u8], previous: &[u16], allowance: u64) -> Result<Vec<Vec<u16>>, Unlisted> {
    let (mut previous, mut out, mut all) = (previous.to_vec(), [0; VALUES], Vec::new());
    loop {
        match outcome(test, &previous, &mut out, allowance)? {
            Listing::Listed { values, .. } => {
                previous = out[..values].to_vec();
                all.push(previous.clone());
            }
            Listing::NoneLeft => return Ok(all),
            Listing::Spent => return Err(Unlisted::Spent),
        }
    }
}

impl From<Unlisted> for Reply {
    fn from(unlisted: Unlisted) -> Reply {
        match unlisted {
            Unlisted::Refused(refusal) => refusal.into(),
            Unlisted::Spent => Reply::Listed(Listing::Spent),
        }
    }
}

#[cfg(test)]
mod tests {
    use super::*;
    use std::collections::BTreeMap;

    const TABLES: usize = 300;

    #[test]
    fn previous_outcomes_are_none_good_and_of_other_lengths() {
        let mut prng = Prng::new(1);
        let mut lengths = BTreeMap::<&str, usize>::new();
        for _ in 0..TABLES {
            let table = any_listed(&mut prng);
            let name = match any_previous(&mut prng, &table).len() {
                0 => "none",
                length if length == outcome_length(&table) => "good",
                _ => "other",
            };
            *lengths.entry(name).or_default() += 1;
        }
        assert!(lengths.len() == 3 && lengths.values().all(|&count| count > TABLES / 20), "{lengths:?}");
    }

    #[test]
    fn some_tables_have_many_outcomes() {
        let mut prng = Prng::new(2);
        let mut counts = Vec::new();
        for _ in 0..TABLES {
            let table = any_listed(&mut prng);
            let within = Within::of(&table, MAX_ALLOWANCE);
            assert!(within.prefixes <= CHAIN_ALLOWANCE);
            counts.push(within.all().expect("the list is short").len());
        }
        let above = |least: usize| counts.iter().filter(|&&count| count > least).count();
        assert!(above(1) > TABLES / 3 && above(10) > TABLES / 50, "{}, {}", above(1), above(10));
    }
}
