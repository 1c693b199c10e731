//! Tables built event by event; the paper's litmus tests C1 to C10, and tests of AMOs.

use crate::layout::MAX_LOCATIONS;
use crate::operation::Operation;
use crate::table::{
    Event, Kind, Model, Table, ACQUIRE_RCPC, ACQUIRE_RCSC, PR, PW, RELEASE_RCPC, RELEASE_RCSC, SR,
    SW,
};

/// Locations of the litmus tests.
pub const X: usize = 0;
pub const Y: usize = 1;
pub const Z: usize = 2;

/// "a fence of all four bits"
pub const FULL: u8 = PR | PW | SR | SW;

fn event(kind: Kind, hart: usize, location: usize, read: u16, written: u16) -> Event {
    Event {
        kind,
        hart,
        location,
        flags: 0,
        address: 0,
        data: 0,
        control: 0,
        read,
        written,
        operation: Operation::None,
        operand: 0,
    }
}

pub fn load(hart: usize, location: usize, read: u16) -> Event {
    event(Kind::Load, hart, location, read, 0)
}

pub fn store(hart: usize, location: usize, written: u16) -> Event {
    event(Kind::Store, hart, location, 0, written)
}

pub fn amo(hart: usize, location: usize, read: u16, written: u16) -> Event {
    event(Kind::Amo, hart, location, read, written)
}

/// An AMO that writes what its operation makes of the value read.
pub fn amo_with(
    hart: usize,
    location: usize,
    read: u16,
    operation: Operation,
    operand: u8,
) -> Event {
    let written = operation.applied(read, operand).expect("the AMO has an operation");
    amo(hart, location, read, written).operation(operation, operand)
}

pub fn lr(hart: usize, location: usize, read: u16) -> Event {
    event(Kind::Lr, hart, location, read, 0)
}

pub fn sc(hart: usize, location: usize, written: u16) -> Event {
    event(Kind::Sc, hart, location, 0, written)
}

pub fn fence(hart: usize, flags: u8) -> Event {
    event(Kind::Fence, hart, 0, 0, 0).flags(flags)
}

pub fn fence_tso(hart: usize) -> Event {
    event(Kind::FenceTso, hart, 0, 0, 0)
}

/// Changes to an event just built; a dependency is on one event.
impl Event {
    pub fn flags(self, flags: u8) -> Event {
        Event { flags, ..self }
    }

    pub fn operation(self, operation: Operation, operand: u8) -> Event {
        Event { operation, operand, ..self }
    }

    pub fn address_from(self, source: usize) -> Event {
        Event { address: 1 << source, ..self }
    }

    pub fn data_from(self, source: usize) -> Event {
        Event { data: 1 << source, ..self }
    }

    pub fn control_from(self, source: usize) -> Event {
        Event { control: 1 << source, ..self }
    }
}

/// A table with as many harts and locations as the events use, all initially 0.
pub fn table(events: Vec<Event>) -> Table {
    let harts = events.iter().map(|e| e.hart + 1).max().unwrap_or(1);
    let locations = events.iter().map(|e| e.location + 1).max().unwrap_or(1);
    let zeros = [0; MAX_LOCATIONS];
    let model = Model::Rvwmo;
    Table { harts, locations, stated: 0, model, initial: zeros, finals: zeros, events }
}

impl Table {
    pub fn in_model(self, model: Model) -> Table {
        Table { model, ..self }
    }

    pub fn with_final(mut self, location: usize, value: u16) -> Table {
        self.stated |= 1 << location;
        self.finals[location] = value;
        self
    }
}

pub fn c1() -> Table {
    table(vec![store(0, X, 1), store(0, Y, 1), load(1, Y, 1), load(1, X, 0)])
}

pub fn c2() -> Table {
    table(vec![
        store(0, X, 1),
        fence(0, FULL),
        store(0, Y, 1),
        load(1, Y, 1),
        fence(1, FULL),
        load(1, X, 0),
    ])
}

pub fn c3() -> Table {
    table(vec![store(0, X, 1), load(0, Y, 0), store(1, Y, 1), load(1, X, 0)])
}

pub fn c4(read: u16) -> Table {
    table(vec![store(0, X, 1), load(0, X, read)])
}

pub fn c5() -> Table {
    table(vec![amo(0, X, 0, 1), load(0, X, 1)])
}

pub fn c6() -> Table {
    table(vec![store(0, X, 1), load(1, X, 1), load(1, X, 0)])
}

pub fn c7(final_x: u16) -> Table {
    table(vec![lr(0, X, 0), sc(0, X, 1), store(1, X, 2)]).with_final(X, final_x)
}

pub fn c8() -> Table {
    table(vec![lr(0, X, 0), store(0, X, 2), sc(0, X, 1)]).with_final(X, 1)
}

/// C9 with load 4 as given: control-dependent or address-dependent on load 3.
fn c9(last: Event) -> Table {
    table(vec![store(0, X, 1), fence(0, FULL), store(0, Y, 1), load(1, Y, 1), last])
}

pub fn c9_control() -> Table {
    c9(load(1, X, 0).control_from(3))
}

pub fn c9_address() -> Table {
    c9(load(1, X, 0).address_from(3))
}

pub fn c10() -> Table {
    table(vec![load(0, X, 0)])
}

/// Message passing by an AMO with the flags given, to a load with acquire-RCpc.
pub fn amo_passes(flags: u8) -> Table {
    table(vec![
        store(0, X, 1),
        amo(0, Y, 0, 1).flags(flags),
        load(1, Y, 1).flags(ACQUIRE_RCPC),
        load(1, X, 0),
    ])
}

/// Store buffering by AMOs with the flags given, before loads with acquire-RCsc.
pub fn amo_stores(flags: u8) -> Table {
    table(vec![
        amo(0, X, 0, 1).flags(flags),
        load(0, Y, 0).flags(ACQUIRE_RCSC),
        amo(1, Y, 0, 1).flags(flags),
        load(1, X, 0).flags(ACQUIRE_RCSC),
    ])
}

/// AMOs with one release alone, and the same tests without it.
pub fn releasing_amos() -> Vec<(&'static str, Table)> {
    vec![
        ("amo-passes-release-rcpc", amo_passes(RELEASE_RCPC)),
        ("amo-passes", amo_passes(0)),
        ("amo-stores-release-rcsc", amo_stores(RELEASE_RCSC)),
        ("amo-stores", amo_stores(0)),
    ]
}

/// An AMO that adds 1 to x.
fn increment(hart: usize, read: u16, written: u16) -> Event {
    amo(hart, X, read, written).operation(Operation::Add, 1)
}

/// Two harts add 1 to a counter, and the second reads what the first wrote.
pub fn counter() -> Table {
    table(vec![increment(0, 0, 1), increment(1, 1, 2)]).with_final(X, 2)
}

/// Both read the counter's initial value, so that one addition is lost.
pub fn counter_lost() -> Table {
    table(vec![increment(0, 0, 1), increment(1, 0, 1)]).with_final(X, 1)
}

/// Two harts at a counter.
pub fn counters() -> Vec<(&'static str, Table)> {
    vec![("counter", counter()), ("counter-lost", counter_lost())]
}

/// Every litmus test of the paper, in its order.
pub fn all() -> Vec<(&'static str, Table)> {
    vec![
        ("c1", c1()),
        ("c2", c2()),
        ("c3", c3()),
        ("c4-reading-1", c4(1)),
        ("c4-reading-0", c4(0)),
        ("c5", c5()),
        ("c6", c6()),
        ("c7-final-1", c7(1)),
        ("c7-final-2", c7(2)),
        ("c8", c8()),
        ("c9-control", c9_control()),
        ("c9-address", c9_address()),
        ("c10", c10()),
    ]
}
