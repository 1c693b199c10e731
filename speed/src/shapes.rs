//! The tables that are timed. No outcome stated here is reachable, so that a search visits all it may.

use crate::table::{Event, Mask, Table, TableTwo, EVENTS, EVENTS_TWO};
use crate::table::{ADD, AMO, FENCE, FULL_FENCE, LOAD, LR, SC, STORE};

const X: u8 = 0;
const Y: u8 = 1;
const Z: u8 = 2;
const W: u8 = 3;
const HARTS: u8 = 4;

/// No event writes it.
const NEVER: u16 = 99;

fn store<M: Mask>(hart: u8, location: u8, written: u16) -> Event<M> {
    Event { kind: STORE, hart, location, written, ..Event::default() }
}

fn load<M: Mask>(hart: u8, location: u8, read: u16) -> Event<M> {
    Event { kind: LOAD, hart, location, read, ..Event::default() }
}

fn fence<M: Mask>(hart: u8) -> Event<M> {
    Event { kind: FENCE, hart, flags: FULL_FENCE, ..Event::default() }
}

/// What stands between two events of a hart.
#[derive(Clone, Copy)]
enum Link {
    None,
    Fence,
    /// The address of a load, or what a store writes, depends on the first.
    Dependency,
}

#[derive(Default)]
struct Builder {
    events: Vec<Event>,
    finals: Vec<(u8, u16)>,
}

impl Builder {
    fn with(mut self, event: Event) -> Builder {
        self.events.push(event);
        self
    }

    /// Two events of one hart.
    fn pair(mut self, first: Event, link: Link, mut second: Event) -> Builder {
        let source = 1 << self.events.len();
        self.events.push(first);
        match link {
            Link::None => {}
            Link::Fence => self.events.push(fence(first.hart)),
            Link::Dependency if second.reads() => second.addr = source,
            Link::Dependency => second.data = source,
        }
        self.events.push(second);
        self
    }

    /// Two events of one hart, and so many clear fences between them.
    fn apart(mut self, first: Event, fences: usize, second: Event) -> Builder {
        self.events.push(first);
        self.events.extend((0..fences).map(|_| Event { flags: 0, ..fence(first.hart) }));
        self.events.push(second);
        self
    }

    fn finally(mut self, location: u8, value: u16) -> Builder {
        self.finals.push((location, value));
        self
    }

    fn table(self) -> Table {
        let mut t = Table { count: self.events.len(), ..Table::default() };
        assert!(t.count <= EVENTS);
        t.events[..t.count].copy_from_slice(&self.events);
        t.locations = self.events.iter().map(|e| usize::from(e.location) + 1).max().unwrap_or(1);
        for (x, value) in self.finals {
            t.stated |= 1 << x;
            t.finals[usize::from(x)] = value;
        }
        t
    }
}

/// The location that the next hart of a ring of four stores to.
fn following(hart: u8) -> u8 {
    (hart + 1) % HARTS
}

fn ring(step: impl Fn(Builder, u8) -> Builder) -> Builder {
    (0..HARTS).fold(Builder::default(), step)
}

/// Each hart stores to its location and loads others, and nothing is in order.
fn free(loads: impl Fn(u8) -> u8) -> Table {
    let hart = |b: Builder, h: u8| {
        let b = b.with(store(h, h, 1));
        (0..loads(h)).fold(b, |b, k| b.with(if k == 0 { load(h, following(h), 1) } else { load(h, HARTS + h, NEVER) }))
    };
    ring(hart).table()
}

/// Loads that nothing orders. Each but the last reads what it finds, so that the test of an order's values fails late.
fn loads(count: u8) -> Table {
    let value = |k: u8| if k + 1 == count { NEVER } else { 0 };
    (0..count).fold(Builder::default(), |b, k| b.with(load(k % HARTS, X, value(k)))).table()
}

fn chains() -> Table {
    ring(|b, h| (1..=4).fold(b, |b, value| b.with(store(h, h, value)))).finally(W, 1).table()
}

fn message_passing(writer: Link, reader: Link) -> Table {
    Builder::default().pair(store(0, X, 1), writer, store(0, Y, 1)).pair(load(1, Y, 1), reader, load(1, X, 0)).table()
}

fn store_buffering(link: Link, last: u16) -> Table {
    ring(|b, h| b.pair(store(h, h, 1), link, load(h, following(h), if h + 1 == HARTS { last } else { 0 }))).table()
}

fn load_buffering(link: Link, last: u16) -> Table {
    ring(|b, h| b.pair(load(h, h, if h + 1 == HARTS { last } else { 1 }), link, store(h, following(h), 1))).table()
}

fn two_plus_two_writes(link: Link, last: u16) -> Table {
    let b = ring(|b, h| b.pair(store(h, h, 1), link, store(h, following(h), 2)));
    b.finally(X, 1).finally(Y, 1).finally(Z, 1).finally(W, last).table()
}

/// Independent reads of independent writes, twice side by side.
fn iriw() -> Table {
    let b = Builder::default().with(store(0, X, 1)).with(store(0, Z, 1)).with(store(1, Y, 1)).with(store(1, W, 1));
    b.pair(load(2, X, 1), Link::Fence, load(2, Y, 0))
        .pair(load(2, Z, 1), Link::Fence, load(2, W, 0))
        .pair(load(3, Y, 1), Link::Fence, load(3, X, 0))
        .pair(load(3, W, 1), Link::Fence, load(3, Z, 0))
        .table()
}

/// Write-to-read causality, with two observers.
fn wrc() -> Table {
    let b = Builder::default().with(store(0, X, 1)).pair(load(1, X, 1), Link::Fence, store(1, Y, 1));
    b.pair(load(2, Y, 1), Link::Dependency, load(2, X, 0)).pair(load(3, Y, 1), Link::Dependency, load(3, X, 0)).table()
}

/// A shape of two harts, from a hart on, and of two locations, twice side by side.
fn twice(side: impl Fn(Builder, u8, u8, u8) -> Builder) -> Table {
    side(side(Builder::default(), 0, X, Y), 2, Z, W).table()
}

fn s() -> Table {
    twice(|b, h, x, y| {
        b.pair(store(h, x, 2), Link::Fence, store(h, y, 1))
            .pair(load(h + 1, y, 1), Link::Dependency, store(h + 1, x, 1))
            .finally(x, 2)
    })
}

fn r() -> Table {
    twice(|b, h, x, y| {
        b.pair(store(h, x, 1), Link::Fence, store(h, y, 1))
            .pair(store(h + 1, y, 2), Link::Fence, load(h + 1, x, 0))
            .finally(y, 2)
    })
}

/// ISA2, with two observers.
fn isa2() -> Table {
    let b = Builder::default().pair(store(0, X, 1), Link::Fence, store(0, Y, 1));
    b.pair(load(1, Y, 1), Link::Dependency, store(1, Z, 1))
        .pair(load(2, Z, 1), Link::Dependency, load(2, X, 0))
        .pair(load(3, Z, 1), Link::Dependency, load(3, X, 0))
        .table()
}

pub fn timed() -> Vec<(&'static str, Table)> {
    vec![
        ("9 free events", free(|h| if h == 0 { 2 } else { 1 })),
        ("12 free events", free(|_| 2)),
        ("12 loads, the last wrong", loads(12)),
        ("16 loads, the last wrong", loads(16)),
        ("four chains of four", chains()),
        ("MP, fences", message_passing(Link::Fence, Link::Fence)),
        ("SB ring of 4, fences", store_buffering(Link::Fence, 0)),
        ("SB ring of 4", store_buffering(Link::None, NEVER)),
        ("LB ring of 4, data", load_buffering(Link::Dependency, 1)),
        ("LB ring of 4", load_buffering(Link::None, NEVER)),
        ("IRIW twice, fences", iriw()),
        ("WRC, fence and address", wrc()),
        ("2+2W ring of 4, fences", two_plus_two_writes(Link::Fence, 1)),
        ("2+2W ring of 4", two_plus_two_writes(Link::None, NEVER)),
        ("S twice, fence and data", s()),
        ("R twice, fences", r()),
        ("ISA2, fence, data, address", isa2()),
    ]
}

/// Message passing, with four clear fences on each hart, and what the second one reads; its loads come last, or first.
fn message_apart(read: [u16; 2], loads_first: bool) -> Table {
    let (reader, writer) = if loads_first { (0, 1) } else { (1, 0) };
    let loads = |b: Builder| b.apart(load(reader, Y, read[0]), 4, load(reader, X, read[1]));
    let stores = |b: Builder| b.apart(store(writer, X, 1), 4, store(writer, Y, 1));
    let b = Builder::default();
    if loads_first { stores(loads(b)) } else { loads(stores(b)) }.table()
}

/// A ring of four, with two clear fences on each hart, and what its loads read.
fn ring_apart(read: u16) -> Table {
    ring(|b, h| b.apart(store(h, h, 1), 2, load(h, following(h), read))).table()
}

/// Tables with eight clear fences: those whose outcome the order of the program gives, however the fences are filled, of which
/// some come late in the list of prefixes; and those whose outcome two or four of the fences forbid.
pub fn with_clear_fences() -> Vec<(&'static str, Table)> {
    vec![
        ("MP, both seen", message_apart([1, 1], false)),
        ("MP, both seen late", message_apart([1, 1], true)),
        ("SB ring of 4, all seen", ring_apart(1)),
        ("MP", message_apart([1, 0], false)),
        ("SB ring of 4", ring_apart(0)),
    ]
}

/// Small blocks, as a suite has them.
pub fn small() -> Vec<Table> {
    let coherence = Builder::default().with(store(0, X, 1)).with(load(1, X, 1)).with(load(1, X, 0));
    let own_store = Builder::default().with(store(0, X, 1)).with(load(0, X, 1));
    message_passings().into_iter().chain([coherence.table(), own_store.table()]).collect()
}

/// Message passing in three ways.
pub fn message_passings() -> Vec<Table> {
    let links = [(Link::None, Link::None), (Link::Fence, Link::Fence), (Link::Fence, Link::Dependency)];
    links.map(|(writer, reader)| message_passing(writer, reader)).to_vec()
}

/// Each of four harts adds 1 to a location three times.
pub fn increments() -> Table {
    let increment = |hart| Event { kind: AMO, written: NEVER + 1, operation: ADD, operand: 1, ..load(hart, X, NEVER) };
    ring(|b, h| (0..3).fold(b, |b, _| b.with(increment(h)))).table()
}

/// Tests of edition 2 that are read: every number of events that edition 1 has no room for.
pub fn of_two() -> Vec<TableTwo> {
    let table = |count: usize| {
        let mut t = TableTwo { count, locations: HARTS.into(), ..Table::default() };
        for (k, event) in t.events[..count].iter_mut().enumerate() {
            *event = mixed(k);
        }
        t
    };
    (EVENTS + 1..=EVENTS_TWO).map(table).collect()
}

/// Event k of a table whose harts take turns: each does the same, with every kind of event.
fn mixed(k: usize) -> Event<u32> {
    let turn = k / usize::from(HARTS);
    let hart = (k % usize::from(HARTS)) as u8;
    let earlier = |turns: usize| 1 << (k - turns * usize::from(HARTS));
    match turn % 6 {
        0 => load(hart, hart, 0),
        1 => Event { data: earlier(1), ..store(hart, following(hart), 1) },
        2 => fence(hart),
        3 => Event { kind: AMO, addr: earlier(3), written: 1, operation: ADD, operand: 1, ..load(hart, hart, 0) },
        4 => Event { kind: LR, ..load(hart, hart, 1) },
        _ => Event { kind: SC, ..store(hart, hart, 2) },
    }
}
