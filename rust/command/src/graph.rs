//! What has to come before what in one way: the edges that every order of it would have to keep.

use crate::case::Case;
use crate::record::{reads, writes, LR, SC};
use crate::ways::Way;
use cogthunder::{rules, Event, Refusal, Rules, INITIALLY, NOTHING};

/// Why one event has to come before another.
#[derive(Clone, Copy, PartialEq, Eq, Debug)]
pub enum Why {
    /// Preserved program order, by these rules.
    Preserved(Rules),
    /// The second returns from the first, which isn't an earlier write of its own hart.
    ReadsFrom,
    /// The first returns from a write that the second overwrites.
    FromRead,
    /// The way has the writes of a location in this order.
    Coherence,
    /// The second reads, and the first is an earlier write of its own hart to that location. This isn't kept by every order, but
    /// it is against a from-read.
    OwnWrite,
}

/// An event has to come before another.
#[derive(Clone, Copy, PartialEq, Eq, Debug)]
pub struct Edge {
    pub from: u8,
    pub to: u8,
    pub why: Why,
}

/// A paired LR and SC that a write parts.
#[derive(Clone, Copy, PartialEq, Eq, Debug)]
pub struct Parted {
    pub lr: u8,
    pub sc: u8,
    pub writer: u8,
    /// Whether the writer is the one that the LR returns from, and comes behind the SC.
    pub is_late: bool,
}

/// The edges of a way.
pub struct Graph<'a> {
    case: &'a Case,
    way: &'a Way,
    edges: Vec<Edge>,
}

impl<'a> Graph<'a> {
    /// Asks the library for the rules.
    pub fn of(case: &'a Case, way: &'a Way) -> Result<Graph<'a>, Refusal> {
        let mut graph = Graph { case, way, edges: Vec::new() };
        graph.preserved()?;
        for reader in 0..case.table.count {
            graph.reader(reader);
        }
        for order in &way.orders {
            for (place, &from) in order.iter().enumerate() {
                order[place + 1..].iter().for_each(|&to| graph.add(from, to, Why::Coherence));
            }
        }
        Ok(graph)
    }

    fn event(&self, number: u8) -> &Event {
        &self.case.table.events[usize::from(number)]
    }

    fn add(&mut self, from: u8, to: u8, why: Why) {
        self.edges.push(Edge { from, to, why });
    }

    fn preserved(&mut self) -> Result<(), Refusal> {
        let (test, count) = (self.case.table.test()?, self.case.table.count);
        for to in 0..count {
            for from in 0..to {
                let rules = rules(&test, &self.way.returned, from.into(), to.into())?;
                if !rules.is_empty() {
                    self.add(from, to, Why::Preserved(rules));
                }
            }
        }
        Ok(())
    }

    /// Whether an event is earlier on the same hart than another.
    fn is_earlier(&self, one: u8, other: u8) -> bool {
        one < other && self.event(one).hart == self.event(other).hart
    }

    /// The edges that a reader's return makes.
    fn reader(&mut self, reader: u8) {
        let returned = self.way.returned[usize::from(reader)];
        if returned == NOTHING {
            return;
        }
        if returned != INITIALLY && !self.is_earlier(returned, reader) {
            self.add(returned, reader, Why::ReadsFrom);
        }
        for writer in self.overwriters(reader, returned) {
            self.add(reader, writer, Why::FromRead);
            if self.is_earlier(writer, reader) {
                self.add(writer, reader, Why::OwnWrite);
            }
        }
    }

    /// The writes behind the one that a reader returns from.
    fn overwriters(&self, reader: u8, returned: u8) -> Vec<u8> {
        let order = &self.way.orders[usize::from(self.event(reader).location)];
        let first = order.iter().position(|&writer| writer == returned).map_or(0, |place| place + 1);
        order[first..].iter().copied().filter(|&writer| writer != reader).collect()
    }

    /// Whether preserved program order puts one event before another.
    pub fn is_preserved(&self, from: u8, to: u8) -> bool {
        let is_it = |edge: &Edge| edge.from == from && edge.to == to && matches!(edge.why, Why::Preserved(_));
        self.edges.iter().any(is_it)
    }

    pub fn has(&self, edge: &Edge) -> bool {
        self.edges.contains(edge)
    }

    /// A shortest list of edges that ends where it begins, if there is one.
    pub fn cycle(&self) -> Option<Vec<Edge>> {
        let starts = 0..self.case.table.count;
        starts.filter_map(|start| self.round(start)).min_by_key(Vec::len)
    }

    /// A shortest list of edges from an event round to itself.
    fn round(&self, start: u8) -> Option<Vec<Edge>> {
        let mut reached: Vec<Option<Edge>> = vec![None; self.case.table.count.into()];
        let mut row = vec![start];
        while !row.is_empty() && reached[usize::from(start)].is_none() {
            let mut next = Vec::new();
            for edge in row.iter().flat_map(|&from| self.edges.iter().filter(move |edge| edge.from == from)) {
                let slot = &mut reached[usize::from(edge.to)];
                if slot.is_none() {
                    *slot = Some(*edge);
                    next.push(edge.to);
                }
            }
            row = next;
        }
        let mut edges = vec![reached[usize::from(start)]?];
        while edges[0].from != start {
            edges.insert(0, reached[usize::from(edges[0].from)]?);
        }
        Some(edges)
    }

    /// The first LR and SC that a write parts.
    pub fn parted(&self) -> Option<Parted> {
        let scs = (0..self.case.table.count).filter(|&event| self.event(event).kind == SC);
        scs.filter_map(|sc| self.parted_by(self.lr_of(sc)?, sc)).next()
    }

    fn lr_of(&self, sc: u8) -> Option<u8> {
        (0..sc).rev().find(|&event| self.is_earlier(event, sc) && self.event(event).kind == LR)
    }

    fn parted_by(&self, lr: u8, sc: u8) -> Option<Parted> {
        let order = &self.way.orders[usize::from(self.event(sc).location)];
        let place = |event: u8| order.iter().position(|&writer| writer == event);
        let end = place(sc)?;
        let returned = place(self.way.returned[usize::from(lr)]);
        if let Some(late) = returned.filter(|&returned| returned > end) {
            return Some(Parted { lr, sc, writer: order[late], is_late: true });
        }
        let between = &order[returned.map_or(0, |place| place + 1)..end];
        let writer = between.iter().copied().find(|&writer| self.event(writer).hart != self.event(sc).hart)?;
        Some(Parted { lr, sc, writer, is_late: false })
    }
}

/// The way that an order shows, with the returns that it determines.
pub fn way_of(case: &Case, order: &[u8], returned: &[u8]) -> Way {
    let writes_to = |location: u8| {
        let is_one = move |event: &&u8| {
            let event = &case.table.events[usize::from(**event)];
            writes(event) && event.location == location
        };
        order.iter().filter(is_one).copied().collect()
    };
    Way { returned: returned.to_vec(), orders: (0..case.table.locations).map(writes_to).collect() }
}

/// Whether an event returns from an earlier write of its own hart that comes behind it in the order.
pub fn is_forwarded(case: &Case, order: &[u8], returned: &[u8], reader: u8) -> bool {
    let place = |event: u8| order.iter().position(|&other| other == event);
    reads(&case.table.events[usize::from(reader)]) && place(returned[usize::from(reader)]) > place(reader)
}
