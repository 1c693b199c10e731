//! Random tables that reading accepts.

use super::prng::Prng;
use crate::layout::one::MAX_EVENTS;
use crate::layout::*;
use crate::litmus;
use crate::operation::Operation;
use crate::table::{
    annotations_broken, may_be_depended_on, names_location, Event, Kind, Table, ALL_FLAGS,
};

/// Kinds as often as they shall come.
const KINDS: [Kind; 16] = [
    Kind::Load,
    Kind::Load,
    Kind::Load,
    Kind::Load,
    Kind::Store,
    Kind::Store,
    Kind::Store,
    Kind::Store,
    Kind::Amo,
    Kind::Amo,
    Kind::Lr,
    Kind::Lr,
    Kind::Sc,
    Kind::Sc,
    Kind::Fence,
    Kind::FenceTso,
];

/// Small values, so that different writes often have equal ones.
const SMALL_VALUES: usize = 4;
const ALL_VALUES: usize = 1 << u16::BITS;

/// How many values a table's random values are drawn from.
fn value_range(prng: &mut Prng) -> usize {
    if prng.one_in(4) {
        ALL_VALUES
    } else {
        SMALL_VALUES
    }
}

pub fn random_table(prng: &mut Prng, harts: usize, locations: usize, events: usize) -> Table {
    let mut table = Table { harts, locations, ..litmus::table(Vec::new()) };
    let values = value_range(prng);
    for last in (0..events).map(|e| e + 1 == events) {
        let needs_memory = last && table.memory_events().is_empty();
        let event = random_event(prng, &table, values, needs_memory);
        table.events.push(event);
        choose_flags(prng, &mut table);
        choose_dependencies(prng, &mut table);
    }
    for location in 0..locations {
        if prng.one_in(3) {
            table.initial[location] = prng.below(values) as u16;
        }
    }
    choose_finals(prng, &mut table, values);
    state_untouched(&mut table);
    table
}

/// States that each location that no memory event touches keeps its initial value, unless its final
/// value is stated already: so that line 21 lets the table pass.
pub fn state_untouched(table: &mut Table) {
    for location in table.untouched().collect::<Vec<_>>() {
        if !names_location(table.stated, location) {
            table.stated |= 1 << location;
            table.finals[location] = table.initial[location];
        }
    }
}

/// A table of any shape.
pub fn any_table(prng: &mut Prng) -> Table {
    let harts = 1 + prng.below(MAX_HARTS);
    let locations = 1 + prng.below(MAX_LOCATIONS);
    let events = 1 + prng.below(MAX_EVENTS);
    random_table(prng, harts, locations, events)
}

/// A table of any shape with more events than edition 1 has room for.
pub fn wide_table(prng: &mut Prng) -> Table {
    let harts = 1 + prng.below(MAX_HARTS);
    let locations = 1 + prng.below(MAX_LOCATIONS);
    let events = MAX_EVENTS + 1 + prng.below(MOST_EVENTS - MAX_EVENTS);
    random_table(prng, harts, locations, events)
}

/// The next event of a table, with neither flags nor dependencies.
fn random_event(prng: &mut Prng, table: &Table, values: usize, needs_memory: bool) -> Event {
    let hart = prng.below(table.harts);
    let location = prng.below(table.locations);
    let read = prng.below(values) as u16;
    let written = prng.below(values) as u16;
    match *prng.pick(&KINDS) {
        Kind::Amo if prng.one_in(2) => litmus::amo(hart, location, read, written),
        Kind::Amo => random_operation(prng, hart, location, read),
        Kind::Lr => litmus::lr(hart, location, read),
        Kind::Store => litmus::store(hart, location, written),
        Kind::Sc => match open_lr(table, hart) {
            Some(lr) => litmus::sc(hart, table.events[lr].location, written),
            None => litmus::lr(hart, location, read),
        },
        Kind::Fence if !needs_memory => litmus::fence(hart, 0),
        Kind::FenceTso if !needs_memory => litmus::fence_tso(hart),
        Kind::Load | Kind::Fence | Kind::FenceTso => litmus::load(hart, location, read),
    }
}

/// An AMO with an operation, which gives the value written.
fn random_operation(prng: &mut Prng, hart: usize, location: usize, read: u16) -> Event {
    let operation = *prng.pick(&Operation::SOME);
    let operand = match prng.below(4) {
        0 | 1 => prng.below(SMALL_VALUES) as u8,
        2 => u8::MAX,
        _ => prng.bits() as u8,
    };
    litmus::amo_with(hart, location, read, operation, operand)
}

/// The hart's latest LR or SC, if that is an LR: an SC to its location may follow.
fn open_lr(table: &Table, hart: usize) -> Option<usize> {
    let is_reservation = |e: &Event| e.hart == hart && matches!(e.kind, Kind::Lr | Kind::Sc);
    let latest = table.events.iter().rposition(is_reservation)?;
    (table.events[latest].kind == Kind::Lr).then_some(latest)
}

/// Flags for the table's last event: any on a fence, sometimes any lawful ones on an access.
fn choose_flags(prng: &mut Prng, table: &mut Table) {
    let last = table.events.len() - 1;
    match table.events[last].kind {
        Kind::FenceTso => {}
        Kind::Fence => table.events[last].flags = random_flags(prng),
        _ if prng.one_in(3) => {
            table.events[last].flags = random_flags(prng);
            while annotations_broken(table, last) {
                table.events[last].flags = random_flags(prng);
            }
        }
        _ => {}
    }
}

fn random_flags(prng: &mut Prng) -> u8 {
    prng.below(usize::from(ALL_FLAGS) + 1) as u8
}

/// Dependencies for the table's last event. A control mask keeps all bits of the hart's
/// earlier ones, as line 9 wants it.
fn choose_dependencies(prng: &mut Prng, table: &mut Table) {
    let last = table.events.len() - 1;
    if table.events[last].is_fence() {
        return;
    }
    let sources: Vec<usize> = (0..last).filter(|&e| may_be_depended_on(table, e, last)).collect();
    let earlier = (0..last).filter(|&e| table.in_program_order(e, last));
    let inherited = earlier.fold(0, |mask, e| mask | table.events[e].control);
    let event = &mut table.events[last];
    event.address = sometimes_some(prng, &sources);
    if event.writes() {
        event.data = sometimes_some(prng, &sources);
    }
    event.control = inherited | sometimes_some(prng, &sources);
}

/// A mask, mostly empty, else of about half of the sources.
fn sometimes_some(prng: &mut Prng, sources: &[usize]) -> u32 {
    if !prng.one_in(4) {
        return 0;
    }
    sources.iter().filter(|_| prng.one_in(2)).fold(0, |mask, &e| mask | 1 << e)
}

/// States the final values of some locations.
fn choose_finals(prng: &mut Prng, table: &mut Table, values: usize) {
    table.stated = prng.below(1 << table.locations) as u8;
    for location in 0..table.locations {
        if names_location(table.stated, location) {
            table.finals[location] = prng.below(values) as u16;
        }
    }
}
