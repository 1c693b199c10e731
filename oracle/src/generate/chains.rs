//! Tables of more events than edition 1 has room for, with few clean prefixes: the memory events of
//! a hart stand in a chain, which steady rules keep.

use super::cases::Case;
use super::orders::{lawful_order, state_outcome};
use super::prng::Prng;
use super::random::random_table;
use crate::layout::{one, MAX_LOCATIONS, MOST_EVENTS};
use crate::litmus::*;
use crate::operation::Operation;
use crate::rules::steady_rules;
use crate::table::{names, Event, Table, ACQUIRE_RCPC, ACQUIRE_RCSC, RELEASE_RCPC, RELEASE_RCSC};

/// A second hart has no more events than this.
const FEW_EVENTS: usize = 3;

/// Chains by one rule each, of one hart or of two.
pub fn chain_cases() -> Vec<Case> {
    let families =
        [chains_by_location(), chains_by_annotation(), chains_by_dependency(), passing()];
    families.concat()
}

/// Events of one hart, each made from its number.
fn numbered(count: usize, event: impl Fn(usize) -> Event) -> Vec<Event> {
    (0..count).map(event).collect()
}

/// Rules 1 and 8: stores, AMOs, and pairs of LR and SC.
fn chains_by_location() -> Vec<Case> {
    let stores = |count: usize| table(numbered(count, |k| store(0, X, k as u16 + 1)));
    let add = |k: usize| amo_with(0, X, k as u16, Operation::Add, 1);
    // Rule 7 puts the SC of a pair before the next LR.
    let pair = |k: usize| match k % 2 {
        0 => lr(0, X, k as u16 / 2).flags(ACQUIRE_RCSC),
        _ => sc(0, X, k as u16 / 2 + 1).flags(RELEASE_RCSC),
    };
    let most = MOST_EVENTS as u16;
    vec![
        ("chain-17-stores", stores(17).with_final(X, 17)),
        ("chain-17-stores-final-16", stores(17).with_final(X, 16)),
        ("chain-30-stores", stores(MOST_EVENTS).with_final(X, most)),
        ("chain-30-stores-final-1", stores(MOST_EVENTS).with_final(X, 1)),
        ("chain-30-adds", table(numbered(MOST_EVENTS, add)).with_final(X, most)),
        ("chain-15-pairs", table(numbered(MOST_EVENTS, pair)).with_final(X, most / 2)),
    ]
}

/// Rules 5 to 7.
fn chains_by_annotation() -> Vec<Case> {
    let acquires = numbered(29, |k| load(0, k % MAX_LOCATIONS, 0).flags(ACQUIRE_RCPC));
    let releases = numbered(18, |k| store(0, k % MAX_LOCATIONS, 1).flags(RELEASE_RCPC));
    let both = numbered(20, |k| match k % 2 {
        0 => store(0, k % MAX_LOCATIONS, 1).flags(RELEASE_RCSC),
        _ => load(0, k % MAX_LOCATIONS, 0).flags(ACQUIRE_RCSC),
    });
    vec![
        ("chain-29-acquires", table(acquires)),
        ("chain-18-releases", table(releases)),
        ("chain-20-rcsc", table(both)),
    ]
}

/// Rules 9 to 11, each from one event to the next; a control mask keeps the bits before it.
fn chains_by_dependency() -> Vec<Case> {
    // The second AMO of a location reads what the first wrote.
    let swap = |k: usize| amo(0, k % MAX_LOCATIONS, u16::from(k >= MAX_LOCATIONS), 1);
    let copied = |k: usize| Event { data: (1 << k) >> 1, ..swap(k) };
    let branched = |k: usize| Event { control: (1 << k) - 1, ..swap(k) };
    let followed = |k: usize| Event { address: (1 << k) >> 1, ..load(0, k % MAX_LOCATIONS, 7) };
    let mut loads = table(numbered(MOST_EVENTS, followed));
    loads.initial = [7; MAX_LOCATIONS];
    vec![
        ("chain-30-addresses", loads),
        ("chain-19-data", table(numbered(19, copied))),
        ("chain-21-branches", table(numbered(21, branched))),
    ]
}

/// Stores of one hart, kept by fences, and loads of another that see some of them.
fn passing() -> Vec<Case> {
    let stores = |count: usize| {
        let pair = |k: usize| [store(0, X, k as u16 + 1), fence(0, FULL)];
        (0..count).flat_map(pair).collect::<Vec<_>>()
    };
    let loads = |read: u16| [load(1, Y, 1), fence(1, FULL), load(1, X, read)];
    let message =
        |read: u16| table([stores(13), vec![store(0, Y, 1)], loads(read).to_vec()].concat());
    let spread = |hart: usize, first: Event, last: Event| {
        [vec![first], vec![fence(hart, FULL); 13], vec![last]].concat()
    };
    let spread_message = |read: u16| {
        let [writer, reader] =
            [spread(0, store(0, X, 1), store(0, Y, 1)), spread(1, load(1, Y, 1), load(1, X, read))];
        table([reader, writer].concat())
    };
    let watched = |read: u16| {
        let chain = numbered(29, |k| store(0, X, k as u16 + 1));
        table([chain, vec![load(1, X, read)]].concat())
    };
    vec![
        ("chain-message", message(13)),
        ("chain-message-stale", message(12)),
        ("chain-spread-message", spread_message(1)),
        ("chain-spread-message-stale", spread_message(0)),
        ("chain-watched", watched(14)),
        ("chain-watched-never", watched(30)),
    ]
}

/// A random table of more events than edition 1 has room for: a chain, and often a short second
/// one. Mostly it states the values of a lawful order.
pub fn chained_table(prng: &mut Prng) -> Table {
    let events = one::MAX_EVENTS + 1 + prng.below(MOST_EVENTS - one::MAX_EVENTS);
    let locations = 1 + prng.below(3);
    let few = prng.below(FEW_EVENTS + 1);
    let mut table = random_table(prng, 1, locations, events - few);
    if few > 0 {
        let second = random_table(prng, 1, locations, few);
        table = merged(prng, &table, &second);
    }
    chain(&mut table);
    if !prng.one_in(4) {
        if let Some(order) = lawful_order(prng, &table) {
            state_outcome(&mut table, &order);
        }
    }
    table
}

/// The events of a second table among those of the first, on a hart of their own.
fn merged(prng: &mut Prng, first: &Table, second: &Table) -> Table {
    let count = first.events.len() + second.events.len();
    let mut places: Vec<usize> = (0..count).collect();
    while places.len() > first.events.len() {
        places.remove(prng.below(places.len()));
    }
    let others: Vec<usize> = (0..count).filter(|place| !places.contains(place)).collect();
    let mut events = vec![fence(0, 0); count];
    for (hart, (table, places)) in [(first, &places), (second, &others)].into_iter().enumerate() {
        for (event, &place) in table.events.iter().zip(places) {
            events[place] = Event { hart, ..renumbered(event, places) };
        }
    }
    Table { harts: 2, events, ..first.clone() }
}

/// An event whose masks name events at other places.
pub fn renumbered(event: &Event, places: &[usize]) -> Event {
    let moved = |mask: u32| {
        let named = places.iter().enumerate().filter(|&(source, _)| names(mask, source));
        named.fold(0, |mask, (_, place)| mask | 1 << place)
    };
    let [address, data, control] = [event.address, event.data, event.control].map(moved);
    Event { address, data, control, ..event.clone() }
}

/// Links each memory event to the next one of its hart.
fn chain(table: &mut Table) {
    for b in table.memory_events() {
        let mut earlier = table.memory_events().into_iter().rev();
        if let Some(a) = earlier.find(|&a| table.in_program_order(a, b)) {
            link(table, a, b);
        }
    }
}

/// Puts a before b where no steady rule does: by a release of b, or by an acquire of a. Line 8 wants
/// a release beside the acquire of a store or an SC.
fn link(table: &mut Table, a: usize, b: usize) {
    if !steady_rules(table, a, b).is_empty() {
        return;
    }
    if table.events[b].writes() {
        table.events[b].flags |= RELEASE_RCPC;
        return;
    }
    let first = &mut table.events[a];
    first.flags |= ACQUIRE_RCPC;
    if !first.reads() && !first.has_release() {
        first.flags |= RELEASE_RCPC;
    }
}

#[cfg(test)]
mod tests {
    use super::*;
    use crate::encode::encode_fitting;
    use crate::search::{Answer, Engine, MAX_ALLOWANCE};
    use crate::table::read;
    use crate::walks::Walk;

    const TABLES: usize = 100;
    /// Two chains of 27 and 3 memory events have 35,958 clean prefixes.
    const MOST_PREFIXES: u64 = 35_958;

    /// Whether there is a witness, and how many clean prefixes the table has: all that a walk to its
    /// end visits.
    fn walked(table: &Table) -> (bool, u64) {
        let (test, mut walk) = (encode_fitting(table), Walk::by(Engine::First));
        let (mut is_allowed, mut total) = (false, 0);
        loop {
            match walk.call(&test, &mut [0; MOST_EVENTS], MAX_ALLOWANCE) {
                Ok(Answer::Found { visited, .. }) => (is_allowed, total) = (true, total + visited),
                Ok(Answer::NoneLeft { visited }) => return (is_allowed, total + visited),
                other => panic!("{other:?}"),
            }
        }
    }

    #[test]
    fn a_chain_of_one_hart_has_one_order() {
        for (name, table) in chain_cases() {
            assert_eq!(read(&encode_fitting(&table)), Ok(table.clone()), "{name}");
            assert!((17..=MOST_EVENTS).contains(&table.events.len()), "{name}");
            let events = table.memory_events().len() as u64;
            if table.harts == 1 {
                assert_eq!(walked(&table).1, events, "{name}");
            }
        }
    }

    #[test]
    fn each_case_is_allowed_or_forbidden_as_its_name_says() {
        let forbidden = ["-final-16", "-final-1", "-stale", "-never"];
        for (name, table) in chain_cases() {
            let is_forbidden = forbidden.iter().any(|end| name.ends_with(end));
            assert_eq!(walked(&table).0, !is_forbidden, "{name}");
        }
    }

    #[test]
    fn random_chains_are_good_and_have_few_prefixes() {
        let mut prng = Prng::new(1);
        for _ in 0..TABLES {
            let table = chained_table(&mut prng);
            assert_eq!(read(&encode_fitting(&table)), Ok(table.clone()));
            assert!(walked(&table).1 <= MOST_PREFIXES);
        }
    }
}
