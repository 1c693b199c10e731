//! A test as a text of numbers: its table, its condition, and the tables that state values which meet it.

use crate::case::Case;
use crate::error::Error;
use crate::record::{operation, reads, writes, AMO};
use crate::text_condition::Condition;
use cogthunder::{read_text, returns, Event, Refusal, Table, EVENTS, INITIALLY, NOTHING};
use std::collections::BTreeSet;

/// At most as many choices of values are looked at.
const MOST_CHOICES: u64 = 1_000_000;

/// A text that the library has read.
pub struct Text {
    pub bytes: Vec<u8>,
    /// Without values read, as the library gives it.
    pub table: Table,
    pub condition: Condition,
}

/// Reads a text. A refusal is said with its line.
pub fn read(bytes: Vec<u8>) -> Result<Text, Error> {
    let table = read_text(&bytes).map_err(|refusal| of_line(&bytes, refusal))?;
    let text = String::from_utf8_lossy(&bytes);
    let condition = text.lines().last().and_then(Condition::read);
    let condition =
        condition.ok_or(Error::new("internal error: the library reads a condition that the command doesn't"))?;
    Ok(Text { bytes, table, condition })
}

fn of_line(bytes: &[u8], refusal: Refusal) -> Error {
    let before = refusal.place.map(|place| &bytes[..(place as usize).min(bytes.len())]);
    let line = before.map(|before| before.iter().filter(|&&byte| byte == b'\n').count());
    match line.or(refusal.record.map(usize::from)) {
        Some(line) => Error::at(line + 1, refusal.to_string()),
        None => Error::new(refusal.to_string()),
    }
}

impl Text {
    /// The table without values.
    pub fn open(&self) -> Case {
        Case { is_open: true, ..case(self.table.clone()) }
    }

    /// The table as a block can state it: every value read is 0, whatever an order gives.
    pub fn stated(&self) -> Table {
        let mut table = without_reads(&self.table);
        state_untouched(&mut table);
        table
    }

    /// The table with the values that an order gives, and what each event returns from.
    pub fn along(&self, order: &[u8]) -> Result<(Case, Vec<u8>), Refusal> {
        let count = usize::from(self.table.count);
        let mut returned = [NOTHING; EVENTS];
        returns(&shape(&self.table).test()?, order, &mut returned)?;
        let mut table = self.table.clone();
        for &event in order {
            fill(&mut table, &returned, event.into());
        }
        // A load may return from a later write of the order.
        for event in 0..count {
            fill(&mut table, &returned, event);
        }
        for location in self.condition.locations() {
            let last = order.iter().rev().map(|&event| table.events[usize::from(event)]);
            let last =
                last.filter(|event| writes(event) && event.location == location).map(|event| event.written).next();
            table.final_value(location, last.unwrap_or(table.initial[usize::from(location)]));
        }
        state_untouched(&mut table);
        Ok((case(table), returned[..count].to_vec()))
    }

    /// Calls `each` with every table whose values meet the condition, until it answers false.
    pub fn visit(&self, each: &mut dyn FnMut(Case) -> Result<bool, Error>) -> Result<(), Error> {
        let mut table = self.table.clone();
        state_untouched(&mut table);
        let readers = (0..usize::from(table.count)).filter(|&event| reads(&table.events[event])).collect();
        let locations = self.condition.locations().into_iter().collect();
        let values = values(&table);
        Walk { condition: &self.condition, readers, locations, values, left: MOST_CHOICES, each }.go(&mut table, 0)?;
        Ok(())
    }
}

/// The text's own names: event k is `rk`, location k is `xk`.
fn case(table: Table) -> Case {
    let locations = (0..table.locations).map(|location| format!("x{location}")).collect();
    Case { locations, ..Case::of_table(table) }
}

/// A table with the events in their places, whatever their values.
fn shape(table: &Table) -> Table {
    let mut shape = table.clone();
    for event in &mut shape.events {
        (event.operation, event.operand) = (0, 0);
    }
    state_untouched(&mut shape);
    shape
}

/// A location that no event accesses ends as it began; that is said, since a table has no location that nothing is said of.
fn state_untouched(table: &mut Table) {
    for location in 0..table.locations {
        let events = &table.events[..table.count.into()];
        if !events.iter().any(|event| (reads(event) || writes(event)) && event.location == location) {
            table.final_value(location, table.initial[usize::from(location)]);
        }
    }
}

/// Fills in what an event reads, and what an AMO makes of it.
fn fill(table: &mut Table, returned: &[u8], event: usize) {
    let read = match returned[event] {
        NOTHING => return,
        INITIALLY => table.initial[usize::from(table.events[event].location)],
        writer => table.events[usize::from(writer)].written,
    };
    state_read(table, event, read);
}

/// A table with 0 for every value read.
pub fn without_reads(table: &Table) -> Table {
    let mut table = table.clone();
    for event in 0..usize::from(table.count) {
        if reads(&table.events[event]) {
            state_read(&mut table, event, 0);
        }
    }
    table
}

/// States a value read, and what an AMO with an operation makes of it.
fn state_read(table: &mut Table, event: usize, read: u16) {
    let event = &mut table.events[event];
    event.read = read;
    if let Some(operation) = operation(event.operation) {
        event.written = operation.apply(read, event.operand);
    }
}

/// The values that can be at each location: the initial one and those written, with what AMOs make of them.
fn values(table: &Table) -> Vec<BTreeSet<u16>> {
    let mut values: Vec<BTreeSet<u16>> = table.initial.iter().map(|&value| BTreeSet::from([value])).collect();
    let events = &table.events[..table.count.into()];
    for event in events.iter().filter(|event| writes(event) && event.operation == 0) {
        values[usize::from(event.location)].insert(event.written);
    }
    let amos = || events.iter().filter(|event| event.kind == AMO);
    for _ in amos() {
        let before = values.clone();
        for event in amos() {
            let Some(operation) = operation(event.operation) else { continue };
            let location = usize::from(event.location);
            values[location].extend(before[location].iter().map(|&value| operation.apply(value, event.operand)));
        }
    }
    values
}

/// Whether each value read is an initial one or written by another event, and each final value by some event if one writes
/// there: else no order gives the values.
fn is_supplied(table: &Table) -> bool {
    let events = &table.events[..table.count.into()];
    let writers =
        |location: u8| (0..).zip(events).filter(move |(_, event)| writes(event) && event.location == location);
    let is_read = |(number, event): (usize, &Event)| {
        event.read == table.initial[usize::from(event.location)]
            || writers(event.location).any(|(other, writer)| other != number && writer.written == event.read)
    };
    let is_end = |location: u8| {
        let end = table.finals[usize::from(location)];
        match writers(location).next() {
            None => end == table.initial[usize::from(location)],
            Some(_) => writers(location).any(|(_, writer)| writer.written == end),
        }
    };
    let stated = (0..table.locations).filter(|&location| table.stated >> location & 1 == 1);
    (0..).zip(events).filter(|(_, event)| reads(event)).all(is_read) && stated.into_iter().all(is_end)
}

/// A walk over the choices of values: first what the readers return, then where the locations of the condition end.
struct Walk<'a> {
    condition: &'a Condition,
    readers: Vec<usize>,
    locations: Vec<u8>,
    values: Vec<BTreeSet<u16>>,
    left: u64,
    each: &'a mut dyn FnMut(Case) -> Result<bool, Error>,
}

impl Walk<'_> {
    /// Chooses the value number `place` and those behind it. False if `each` has answered so.
    fn go(&mut self, table: &mut Table, place: usize) -> Result<bool, Error> {
        self.left = self
            .left
            .checked_sub(1)
            .ok_or_else(|| Error::new(format!("there are more than {MOST_CHOICES} choices of values to look at")))?;
        let finals = place.saturating_sub(self.readers.len());
        let (readers, locations) = (&self.readers[..place - finals], &self.locations[..finals]);
        let reads = |event: u8| readers.contains(&event.into()).then(|| table.events[usize::from(event)].read);
        let ends = |location: u8| locations.contains(&location).then(|| table.finals[usize::from(location)]);
        let holds = self.condition.holds(&reads, &ends);
        if holds == Some(false) {
            return Ok(true);
        }
        if let Some(&event) = self.readers.get(place) {
            let location = usize::from(table.events[event].location);
            return self.each_value(table, location, &mut |walk, table, value| {
                state_read(table, event, value);
                walk.go(table, place + 1)
            });
        }
        // Where it holds already, no more ends are stated.
        if let Some(&location) = self.locations.get(finals).filter(|_| holds.is_none()) {
            let before = (table.stated, table.finals);
            let goes_on = self.each_value(table, location.into(), &mut |walk, table, value| {
                table.final_value(location, value);
                walk.go(table, place + 1)
            });
            (table.stated, table.finals) = before;
            return goes_on;
        }
        if !is_supplied(table) {
            return Ok(true);
        }
        (self.each)(case(table.clone()))
    }

    fn each_value(
        &mut self,
        table: &mut Table,
        location: usize,
        then: &mut dyn FnMut(&mut Self, &mut Table, u16) -> Result<bool, Error>,
    ) -> Result<bool, Error> {
        for value in self.values[location].clone() {
            if !then(self, table, value)? {
                return Ok(false);
            }
        }
        Ok(true)
    }
}

#[cfg(test)]
mod tests {
    use super::*;

    fn text(text: &str) -> Text {
        read(text.as_bytes().to_vec()).unwrap_or_else(|error| panic!("{error:?}"))
    }

    #[test]
    fn values_follow_from_an_order() {
        let counter = text("3 0 0 0 0 0 0 0 0 1 1\n3 1 0 0 0 0 0 0 0 1 1\n\n7\nx0=9\n");
        let (case, returned) = counter.along(&[1, 0]).unwrap();
        assert_eq!(returned, [1, INITIALLY]);
        let values: Vec<(u16, u16)> = case.table.events[..2].iter().map(|event| (event.read, event.written)).collect();
        assert_eq!((values, case.table.finals[0]), (vec![(8, 9), (7, 8)], 9));
        assert!(case.table.test().is_ok());
    }

    #[test]
    fn a_load_returns_from_a_later_write_of_the_order() {
        let forwarded = text("2 0 0 0 0 0 0 0 5 0 0\n1 0 0 0 0 0 0 0 0 0 0\n\n0\nr1=5\n");
        let (case, returned) = forwarded.along(&[1, 0]).unwrap();
        assert_eq!((case.table.events[1].read, returned), (5, vec![NOTHING, 0]));
    }

    #[test]
    fn tables_state_the_values_that_meet_the_condition() {
        let counter = text("3 0 0 0 0 0 0 0 0 1 1\n3 1 0 0 0 0 0 0 0 1 1\n\n7 3\n( r0=8 and ( not x0=8 and x1=3 ) )\n");
        let mut found = Vec::new();
        counter
            .visit(&mut |case| {
                assert!(case.table.test().is_ok());
                found.push((case.table.events[0].read, case.table.events[1].read, case.table.finals[0]));
                Ok(true)
            })
            .unwrap();
        assert_eq!(found, [(8, 7, 9)]);
    }

    #[test]
    fn a_refusal_has_its_line() {
        let error = |text: &str| read(text.as_bytes().to_vec()).err().unwrap();
        assert_eq!(error("1 0 0 0 0 0 0 0 0 0 0\n1 0 0 07 0 0 0 0 0 0 0\n\n0\nr0=0\n").line, Some(2));
        assert_eq!(error("1 0 0 0 0 0 0 0 0 0 0\n9 0 0 0 0 0 0 0 0 0 0\n\n0\nr0=0\n").line, Some(2));
        assert_eq!(error("2 0 0 0 0 0 0 0 0 0 0\n\n0\nr0=0\n").line, None);
    }
}
