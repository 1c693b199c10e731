//! The step machine for RVTSO, by the request's words: each hart has its events in program order and
//! a buffer of stores, and memory has the writes of each location.

use crate::candidate::encode_entry;
use crate::layout::MAX_HARTS;
use crate::rules::{steady_rules, Write};
use crate::table::{names, read, refuse_if, Event, Kind, Line, Model, Refusal, Table};
use std::collections::{BTreeSet, VecDeque};

/// "a hart issues its next event, or drains its oldest buffered store"
#[derive(Clone, Copy, PartialEq, Eq, Debug)]
pub enum Step {
    Issue(usize),
    Drain(usize),
}

impl Step {
    /// "each one byte: the hart to issue, or the hart plus 4 to drain"
    pub fn of_number(number: u64) -> Option<Step> {
        Step::all().find(|step| u64::from(step.byte()) == number)
    }

    pub fn all() -> impl Iterator<Item = Step> {
        (0..MAX_HARTS).flat_map(|hart| [Step::Issue(hart), Step::Drain(hart)])
    }

    pub fn byte(self) -> u8 {
        match self {
            Step::Issue(hart) => hart as u8,
            Step::Drain(hart) => (hart + MAX_HARTS) as u8,
        }
    }
}

/// "An accepted step answers its event and what a returned list holds for that event".
#[derive(Clone, Copy, PartialEq, Eq, Debug)]
pub struct Taken {
    pub event: usize,
    pub returned: Option<Write>,
}

impl Taken {
    /// "(254 for a store or fence)"
    pub fn entry(self) -> u8 {
        encode_entry(self.returned)
    }
}

/// What a hart still has to issue, and its buffer, oldest first.
#[derive(Clone, PartialEq, Eq, PartialOrd, Ord, Default, Debug)]
struct Hart {
    next: VecDeque<usize>,
    buffer: VecDeque<usize>,
}

#[derive(Clone, Debug)]
pub struct Machine<'a> {
    table: &'a Table,
    harts: Vec<Hart>,
    /// For each location the writes to memory, the last one last.
    memory: Vec<Vec<usize>>,
    /// What each event returned from so far.
    pub returns: Vec<Option<Write>>,
    /// "The order of drains, loads, LRs and AMOs"
    pub order: Vec<usize>,
}

impl Machine<'_> {
    /// No step taken yet.
    pub fn of(table: &Table) -> Machine<'_> {
        let mut harts = vec![Hart::default(); table.harts];
        for (number, event) in table.events.iter().enumerate() {
            harts[event.hart].next.push_back(number);
        }
        let memory = vec![Vec::new(); table.locations];
        Machine { table, harts, memory, returns: vec![None; table.events.len()], order: Vec::new() }
    }

    /// Takes a step, unless the machine doesn't accept it; then nothing changes.
    pub fn take(&mut self, step: Step) -> Option<Taken> {
        let event = match step {
            Step::Issue(hart) => self.issue(hart)?,
            Step::Drain(hart) => self.drain(hart)?,
        };
        Some(Taken { event, returned: self.returns[event] })
    }

    /// Whether every event is issued, and every buffer is empty.
    pub fn is_complete(&self) -> bool {
        self.harts.iter().all(|hart| hart.next.is_empty() && hart.buffer.is_empty())
    }

    /// The steps that the machine accepts now.
    pub fn accepted(&self) -> Vec<Step> {
        Step::all().filter(|&step| self.clone().take(step).is_some()).collect()
    }

    /// "a hart issues its next event"
    fn issue(&mut self, hart: usize) -> Option<usize> {
        let number = *self.harts.get(hart)?.next.front()?;
        let event = &self.table.events[number];
        match event.kind {
            Kind::Store | Kind::Sc => self.harts[hart].buffer.push_back(number),
            Kind::Fence | Kind::FenceTso => {}
            Kind::Load | Kind::Lr | Kind::Amo => {
                if !self.may_read(hart, number) {
                    return None;
                }
                self.perform(hart, number);
            }
        }
        self.harts[hart].next.pop_front();
        Some(number)
    }

    /// "A reader issues only if no store in its hart's buffer precedes it by a steady rule, and the
    /// newest buffered store to its location neither is an SC nor has an address or data dependency
    /// on a buffered SC"
    fn may_read(&self, hart: usize, reader: usize) -> bool {
        let buffer = &self.harts[hart].buffer;
        let precedes = |&store: &usize| !steady_rules(self.table, store, reader).is_empty();
        let is_sc = |store: usize| self.table.events[store].kind == Kind::Sc;
        let depends = |store: &Event, sc: usize| names(store.address, sc) || names(store.data, sc);
        let is_unsure = |store: usize| {
            let event = &self.table.events[store];
            is_sc(store) || buffer.iter().any(|&other| is_sc(other) && depends(event, other))
        };
        !buffer.iter().any(precedes) && !self.newest(hart, reader).is_some_and(is_unsure)
    }

    /// "the newest buffered store to its location"
    fn newest(&self, hart: usize, reader: usize) -> Option<usize> {
        let location = self.table.events[reader].location;
        let is_here = |&&store: &&usize| self.table.events[store].location == location;
        self.harts[hart].buffer.iter().rev().find(is_here).copied()
    }

    /// "a load or LR returns from that buffered store, else from the last write to memory. An AMO
    /// reads and writes memory at once."
    fn perform(&mut self, hart: usize, reader: usize) {
        let Event { kind, location, .. } = self.table.events[reader];
        let forwarded = self.newest(hart, reader).filter(|_| kind != Kind::Amo);
        let write = forwarded.or(self.memory[location].last().copied());
        self.returns[reader] = Some(write.map_or(Write::Initial, Write::Of));
        self.order.push(reader);
        if kind == Kind::Amo {
            self.memory[location].push(reader);
        }
    }

    /// "or drains its oldest buffered store"; "An SC drains only if atomicity allows it."
    fn drain(&mut self, hart: usize) -> Option<usize> {
        let store = *self.harts.get(hart)?.buffer.front()?;
        let event = &self.table.events[store];
        if event.kind == Kind::Sc && !self.atomicity_allows(store) {
            return None;
        }
        self.harts[hart].buffer.pop_front();
        self.memory[event.location].push(store);
        self.order.push(store);
        Some(store)
    }

    /// "for paired LR and SC, the write that the LR returned from precedes the SC in the order, and no
    /// other hart's write to the location stands after it and before the SC": what is in memory stands
    /// before the SC.
    fn atomicity_allows(&self, sc: usize) -> bool {
        let Event { hart, location, .. } = self.table.events[sc];
        let writes = &self.memory[location];
        let returned = self.table.paired_lr(sc).and_then(|lr| self.returns[lr]);
        let later = match returned.expect("line 10 pairs each SC, and its LR was issued") {
            Write::Initial => Some(0),
            Write::Of(write) => writes.iter().position(|&other| other == write).map(|at| at + 1),
        };
        later.is_some_and(|at| writes[at..].iter().all(|&w| self.table.events[w].hart == hart))
    }
}

/// "A state is the list of steps so far"; none if that isn't a run.
pub fn after<'a>(table: &'a Table, steps: &[u8]) -> Option<Machine<'a>> {
    let mut machine = Machine::of(table);
    for &byte in steps {
        machine.take(Step::of_number(byte.into())?)?;
    }
    Some(machine)
}

/// One step behind a list of steps. 24: "A list that isn't a run, a model 0 table or any other step".
pub fn step(block: &[u8], steps: &[u8], number: u64) -> Result<Taken, Refusal> {
    let table = read(block)?;
    refuse_if(table.model != Model::Rvtso, Line::Step)?;
    let taken = after(&table, steps).and_then(|mut machine| {
        let step = Step::of_number(number)?;
        machine.take(step)
    });
    taken.ok_or(Refusal { line: Line::Step, record: None })
}

/// An order, and what its readers return from.
pub type Ordered = (Vec<usize>, Vec<Option<Write>>);

/// The orders of all complete runs, with their returns, ascending by order.
pub fn orders_of_runs(table: &Table) -> Vec<Ordered> {
    let mut found = Vec::new();
    visit_states(table, &mut |_, machine| {
        if machine.is_complete() {
            found.push((machine.order.clone(), machine.returns.clone()));
        }
    });
    found.sort_by(|a, b| a.0.cmp(&b.0));
    found
}

/// Visits every state that runs lead to, once, with a run that leads there.
pub fn visit_states(table: &Table, visit: &mut dyn FnMut(&[u8], &Machine)) {
    let mut seen = BTreeSet::new();
    let mut open = vec![(Vec::new(), Machine::of(table))];
    while let Some((steps, machine)) = open.pop() {
        let returned: Vec<u8> = machine.returns.iter().copied().map(encode_entry).collect();
        if !seen.insert((machine.harts.clone(), machine.order.clone(), returned)) {
            continue;
        }
        visit(&steps, &machine);
        for step in machine.accepted().into_iter().rev() {
            let mut next = machine.clone();
            next.take(step).expect("it is accepted");
            open.push(([&steps[..], &[step.byte()]].concat(), next));
        }
    }
}
