//! Seeded tables on which decisions are timed: shapes, random events and weak ones, with the values of some order.

use crate::facts::Facts;
use crate::plain::ready_of;
use crate::reading::read_two;
use crate::table::EVENTS_TWO;
use oracle::encode::{encode_fitting, encode_in};
use oracle::generate::orders::state_outcome;
use oracle::generate::prng::Prng;
use oracle::generate::random::{random_table, state_untouched};
use oracle::layout::{Edition, MAX_HARTS, MAX_LOCATIONS};
use oracle::litmus::{amo, fence, fence_tso, load, lr, sc, store, table, FULL};
use oracle::table::{names_location, Event, Kind, Model, Table, ACQUIRE_RCPC, PR, PW, RELEASE_RCPC, SR, SW};

/// How many random orders are tried for a lawful one.
const TRIES: usize = 100;

/// How many values weak events have.
const WEAK_VALUES: usize = 3;

/// Tables of so many events, as tests of the edition that fits.
pub fn drawn(seed: u64, events: usize, count: usize) -> Vec<Vec<u8>> {
    let mut prng = Prng::new(seed);
    (0..count).map(|number| encode_fitting(&one(&mut prng, events, number))).collect()
}

/// A third of the tables are shapes, a third random and a third weak; the values of each third are those of a lawful order, of any
/// order that steady rules let be, and of any writes, in turn; every fourth is of RVTSO.
fn one(prng: &mut Prng, events: usize, number: usize) -> Table {
    let make = [shape, random, weak][number % 3];
    let state = [state_lawful, state_clean, state_any][number / 3 % 3];
    let model = Model::ALL[usize::from(number / 9 % 4 == 3)];
    let mut drawn = make(prng, events).in_model(model);
    state(prng, &mut drawn);
    drawn
}

fn random(prng: &mut Prng, events: usize) -> Table {
    let (harts, locations) = (2 + prng.below(MAX_HARTS - 1), 1 + prng.below(MAX_LOCATIONS));
    random_table(prng, harts, locations, events)
}

/// Loads and stores that nothing but a location orders, and few values.
fn weak(prng: &mut Prng, events: usize) -> Table {
    let (harts, locations) = (2 + prng.below(MAX_HARTS - 1), 1 + prng.below(4));
    let mut access = || {
        let (hart, location) = (prng.below(harts), prng.below(locations));
        let value = prng.below(WEAK_VALUES) as u16;
        if prng.one_in(2) {
            store(hart, location, value)
        } else {
            load(hart, location, value)
        }
    };
    let accesses = (0..events).map(|_| access()).collect();
    finished(prng, accesses)
}

/// Each hart has pairs of accesses as litmus tests have them: from a location to the next one, with something between.
fn shape(prng: &mut Prng, events: usize) -> Table {
    let (harts, locations) = (2 + prng.below(MAX_HARTS - 1), 2 + prng.below(4));
    let mut written = 0;
    let mut all: Vec<Event> = Vec::new();
    while all.len() < events {
        let hart = all.len() * harts / events;
        let location = prng.below(locations);
        let pair = pair(prng, hart, [location, (location + 1) % locations], all.len());
        all.extend(pair);
    }
    all.truncate(events);
    for event in all.iter_mut().filter(|event| event.writes()) {
        written += 1;
        event.written = written;
    }
    finished(prng, all)
}

/// Two accesses of a hart, of which the first is event `at`.
fn pair(prng: &mut Prng, hart: usize, locations: [usize; 2], at: usize) -> Vec<Event> {
    if prng.one_in(6) {
        return vec![lr(hart, locations[0], 0), sc(hart, locations[0], 0)];
    }
    let [first, mut second] = locations.map(|location| access(prng, hart, location));
    match prng.below(6) {
        0 => vec![first, fence(hart, *prng.pick(&[FULL, FULL, PR | SR | SW, PW | SW])), second],
        1 => vec![first, fence_tso(hart), second],
        2 if first.reads() && second.writes() => vec![first, second.data_from(at)],
        2 if first.reads() => vec![first, second.address_from(at)],
        3 if first.reads() && first.kind != Kind::Amo => vec![first.flags(ACQUIRE_RCPC), second],
        4 if second.kind == Kind::Store => {
            second = second.flags(RELEASE_RCPC);
            vec![first, second]
        }
        _ => vec![first, second],
    }
}

fn access(prng: &mut Prng, hart: usize, location: usize) -> Event {
    match prng.below(9) {
        0..4 => load(hart, location, 0),
        4..8 => store(hart, location, 0),
        _ => amo(hart, location, 0, 0),
    }
}

/// A table of events, which states the final values of some locations.
fn finished(prng: &mut Prng, events: Vec<Event>) -> Table {
    let mut table = table(events);
    table.stated = (prng.below(1 << table.locations) & prng.below(1 << table.locations)) as u8;
    state_untouched(&mut table);
    table
}

fn state_lawful(prng: &mut Prng, table: &mut Table) {
    let order = (0..TRIES).find_map(|_| order(prng, table, true));
    match order {
        Some(order) => state_outcome(table, &order),
        None => state_clean(prng, table),
    }
}

fn state_clean(prng: &mut Prng, table: &mut Table) {
    let order = order(prng, table, false).expect("steady rules follow program order");
    state_outcome(table, &order);
}

/// Each reader states the value of some write to its location, the initial one among them, and each final value is that of a write.
fn state_any(prng: &mut Prng, table: &mut Table) {
    for e in table.memory_events() {
        let value = some_value(prng, table, table.events[e].location, e);
        let event = &mut table.events[e];
        if event.reads() {
            event.read = value;
            event.written = event.operation.applied(value, event.operand).unwrap_or(event.written);
        }
    }
    for location in 0..table.locations {
        if names_location(table.stated, location) && table.events.iter().any(|e| e.writes() && e.location == location) {
            table.finals[location] = some_value(prng, table, location, table.events.len());
        }
    }
}

/// The value that some write to a location, other than the event's own, or the initial one leaves.
pub fn some_value(prng: &mut Prng, table: &Table, location: usize, except: usize) -> u16 {
    let writers = (0..table.events.len()).filter(|&w| {
        let event = &table.events[w];
        w != except && event.writes() && event.location == location
    });
    let mut values: Vec<u16> = writers.map(|w| table.events[w].written).collect();
    values.push(table.initial[location]);
    *prng.pick(&values)
}

/// A random order that steady rules let be, and that is lawful if that is asked for; none if it gets stuck.
fn order(prng: &mut Prng, table: &Table, lawful: bool) -> Option<Vec<usize>> {
    let facts = Facts::of(&read_two(&encode_in(Edition::Two, table)).expect("a good table"));
    let (mut order, mut placed) = (Vec::new(), 0);
    while placed != facts.memory {
        let ready = ready_of(&facts, facts.memory & !placed, placed);
        let free: Vec<usize> =
            (0..EVENTS_TWO).filter(|&e| ready >> e & 1 == 1 && (!lawful || facts.may_place(e, placed))).collect();
        if free.is_empty() {
            return None;
        }
        let e = *prng.pick(&free);
        placed |= 1 << e;
        order.push(e);
    }
    Some(order)
}

#[cfg(test)]
mod tests {
    use super::*;
    use crate::decide::{decide, Decision};

    #[test]
    fn tables_are_good_and_many_are_allowed_and_many_forbidden() {
        for events in [16, 30] {
            let tests = drawn(1, events, 300);
            let mut allowed = 0;
            for test in &tests {
                assert_eq!(oracle::table::read(test).expect("a good table").events.len(), events);
                let decision = decide(test, &[], &mut [0; EVENTS_TWO]).expect("a good table");
                allowed += usize::from(decision != Decision::NoneLeft);
            }
            assert!(allowed >= 100 && tests.len() - allowed >= 60, "{allowed}");
        }
    }
}
