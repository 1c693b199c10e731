//! Tables bred against the decision: changed again and again, and kept where it looks at more states.

use crate::decide::states;
use crate::drawn::{drawn, some_value};
use oracle::encode::encode_fitting;
use oracle::generate::prng::Prng;
use oracle::generate::random::state_untouched;
use oracle::layout::{MAX_HARTS, MAX_LOCATIONS};
use oracle::litmus::{amo, load, store};
use oracle::table::{names_location, read, Model, Table, ALL_FLAGS};
use std::io::{stdout, Write};

/// The word after the program's name that makes this program breed tables.
pub const COMMAND: &str = "breed";

/// What it made; the script that times decisions says how.
pub const BRED: &[u8] = include_bytes!("../bred.tests");

/// So many tables are drawn at first, and so many of those with the most states are changed further.
const DRAWN: usize = 200;
const KEPT: usize = 12;

/// How many values bred events write.
const VALUES: usize = 4;

/// Changes an event or what is stated; the table may be no good afterwards.
fn change(prng: &mut Prng, table: &mut Table) {
    let e = prng.below(table.events.len());
    let location = prng.below(table.locations);
    let other = prng.below(table.events.len());
    match prng.below(12) {
        0 => table.events[e].location = location,
        1 => table.events[e].hart = prng.below(MAX_HARTS),
        2 => table.events.swap(e, other),
        3 => table.events[e] = table.events[other].clone(),
        4 => change_kind(prng, table, e),
        5 => table.events[e].flags = prng.below(usize::from(ALL_FLAGS) + 1) as u8,
        6 => table.events[e].flags = 0,
        7 => table.events[e].read = some_value(prng, table, table.events[e].location, e),
        8 => table.events[e].written = prng.below(VALUES) as u16,
        9 => table.events[e].address ^= 1 << other,
        10 => table.events[e].data ^= 1 << other,
        _ if prng.one_in(8) => table.model = *prng.pick(&Model::ALL),
        _ if prng.one_in(4) => table.locations = 1 + prng.below(MAX_LOCATIONS),
        _ => change_final(prng, table, location),
    }
    table.harts = table.events.iter().map(|event| event.hart + 1).max().unwrap_or(1);
    state_untouched(table);
}

fn change_kind(prng: &mut Prng, table: &mut Table, e: usize) {
    let (hart, location) = (table.events[e].hart, table.events[e].location);
    let read = some_value(prng, table, location, e);
    let written = prng.below(VALUES) as u16;
    let events = [load(hart, location, read), store(hart, location, written), amo(hart, location, read, written)];
    table.events[e] = prng.pick(&events).clone();
}

fn change_final(prng: &mut Prng, table: &mut Table, location: usize) {
    table.stated ^= 1 << location;
    let is_stated = names_location(table.stated, location);
    table.finals[location] = if is_stated { some_value(prng, table, location, table.events.len()) } else { 0 };
}

/// A table with one to three changes, if it is good.
fn changed(prng: &mut Prng, table: &Table) -> Option<Vec<u8>> {
    let mut table = table.clone();
    for _ in 0..1 + prng.below(3) {
        change(prng, &mut table);
    }
    let test = encode_fitting(&table);
    read(&test).is_ok().then_some(test)
}

/// The test with the most states that is met from a seed in so many tries. One that has more states than it may is dropped, so that
/// the tries end.
fn bred(events: usize, seed: u64, tries: usize, most: u64) -> (u64, Vec<u8>) {
    let mut prng = Prng::new(seed);
    let first = drawn(seed, events, DRAWN).into_iter().map(|test| (states(&test, most), test));
    let mut kept: Vec<(u64, Vec<u8>)> = first.filter(|(states, _)| *states <= most).collect();
    for _ in 0..tries {
        kept.sort_by(|a, b| b.cmp(a));
        kept.dedup_by_key(|(states, _)| *states);
        kept.truncate(KEPT);
        let parent = read(&prng.pick(&kept).1).expect("a good table");
        if let Some(test) = changed(&mut prng, &parent) {
            let states = states(&test, most);
            if states <= most {
                kept.push((states, test));
            }
        }
    }
    kept.into_iter().max().expect("some are kept")
}

/// Writes a test to standard output. After the word stand the number of events, the seed, the number of tries, and how many states
/// the test may have.
pub fn run() {
    let numbers: Vec<u64> = std::env::args().skip(2).map(|word| word.parse().expect("a number")).collect();
    let [events, seed, tries, most] = numbers[..] else { panic!("events, seed, tries and states") };
    let (states, test) = bred(events as usize, seed, tries as usize, most);
    eprintln!("{events} events, seed {seed}: {states} states");
    stdout().write_all(&test).expect("standard output takes the test");
}

#[cfg(test)]
mod tests {
    use super::*;
    use crate::decisions::tests;

    #[test]
    fn breeding_raises_the_number_of_states_and_what_is_kept_is_good() {
        let before = drawn(1, 16, DRAWN).iter().map(|test| states(test, u64::MAX)).max();
        let (after, test) = bred(16, 1, 200, 100_000);
        assert!(Some(after) > before && states(&test, u64::MAX) == after);
        assert!(tests(BRED).iter().all(|test| read(test).is_ok()));
    }
}
