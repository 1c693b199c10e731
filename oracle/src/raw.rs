//! A table as the writer is handed it: plain numbers, which can hold what the lines 5 to 11
//! and 21 refuse; and writing one.

use crate::encode::encode;
use crate::layout::*;
use crate::record::RawEvent;
use crate::stream::{Malformed, Stream};
use crate::table::{
    fields_broken, names_location, refuse_if, refuse_stating_table, Line, Model, Refusal, Table,
};

/// How many events such a table has room for.
pub const SLOTS: usize = 32;

#[derive(Clone, PartialEq, Eq, Debug)]
pub struct RawTable {
    pub harts: u8,
    pub locations: u8,
    pub count: u8,
    pub stated: u8,
    pub model: u8,
    pub initial: [u16; MAX_LOCATIONS],
    pub events: [RawEvent; SLOTS],
    pub finals: [u16; MAX_LOCATIONS],
}

impl RawTable {
    /// The fields of a test that is as long as those of an edition, whatever they are.
    pub fn of_test(edition: Edition, test: &[u8]) -> RawTable {
        let values = |at: fn(usize) -> usize| std::array::from_fn(|l| word(test, at(l)));
        let mut events = [RawEvent::default(); SLOTS];
        for (number, event) in events[..edition.max_events()].iter_mut().enumerate() {
            *event = RawEvent::of_record(edition, &test[edition.record(number)]);
        }
        RawTable {
            harts: test[HARTS_AT],
            locations: test[LOCATIONS_AT],
            count: test[EVENTS_AT],
            stated: test[STATED_AT],
            model: test[MODEL_AT],
            initial: values(initial_at),
            events,
            finals: values(final_at),
        }
    }

    /// The fields of a block of edition 1.
    pub fn of_block(block: &[u8]) -> RawTable {
        RawTable::of_test(Edition::One, block)
    }

    /// The fields in their order, without the padding that a struct of C has; of an event those of
    /// edition 2, whose masks have as many bits.
    pub fn push_to(&self, stream: &mut Vec<u8>) {
        stream.extend([self.harts, self.locations, self.count, self.stated, self.model]);
        stream.extend(self.initial.iter().flat_map(|value| value.to_le_bytes()));
        for event in &self.events {
            event.push_to(Edition::Two, stream);
        }
        stream.extend(self.finals.iter().flat_map(|value| value.to_le_bytes()));
    }

    /// What `push_to` writes.
    pub fn take_from(stream: &mut Stream) -> Result<RawTable, Malformed> {
        let [harts, locations, count, stated, model] =
            [stream.byte()?, stream.byte()?, stream.byte()?, stream.byte()?, stream.byte()?];
        let initial = take_values(stream)?;
        let mut events = [RawEvent::default(); SLOTS];
        for event in &mut events {
            *event = RawEvent::take_from(Edition::Two, stream)?;
        }
        let finals = take_values(stream)?;
        Ok(RawTable { harts, locations, count, stated, model, initial, events, finals })
    }
}

impl From<&Table> for RawTable {
    fn from(table: &Table) -> RawTable {
        let mut events = [RawEvent::default(); SLOTS];
        for (raw, event) in events.iter_mut().zip(&table.events) {
            *raw = event.into();
        }
        RawTable {
            harts: table.harts as u8,
            locations: table.locations as u8,
            count: table.events.len() as u8,
            stated: table.stated,
            model: table.model as u8,
            initial: table.initial,
            events,
            finals: table.finals,
        }
    }
}

fn take_values(stream: &mut Stream) -> Result<[u16; MAX_LOCATIONS], Malformed> {
    let mut values = [0; MAX_LOCATIONS];
    for value in &mut values {
        *value = stream.word()?;
    }
    Ok(values)
}

/// "from a table, the 512 bytes into a lent buffer. .. A table that reading would refuse by 5
/// to 11 is refused by the same number; a buffer that isn't 512 bytes by 1; refusals leave the
/// buffer alone." "The writer writes edition 1 only (more than 16 events is 5)". 21 is "checked after
/// 11, .. and in the writer".
pub fn write(raw: &RawTable, buffer: &mut [u8]) -> Result<(), Refusal> {
    refuse_if(buffer.len() != BLOCK_LENGTH, Line::Length)?;
    refuse_if(ranges_broken(raw), Line::Ranges)?;
    refuse_if(zeros_broken(raw), Line::Zeros)?;
    let table = typed(raw)?;
    refuse_stating_table(&table)?;
    buffer.copy_from_slice(&encode(&table));
    Ok(())
}

/// 5: "harts, locations or events out of range, or the final mask names a location not in
/// the test"; a model other than 0 and 1
fn ranges_broken(raw: &RawTable) -> bool {
    let in_range = |number: u8, most: usize| (1..=most).contains(&number.into());
    !in_range(raw.harts, MAX_HARTS)
        || !in_range(raw.locations, MAX_LOCATIONS)
        || !in_range(raw.count, Edition::One.max_events())
        || (raw.locations.into()..MAX_LOCATIONS).any(|l| names_location(raw.stated, l))
        || Model::from_number(raw.model).is_none()
}

/// 6, of a table: "initial values of locations not in the test, final values not stated,
/// records past the events"
fn zeros_broken(raw: &RawTable) -> bool {
    let unstated = |l: &usize| !names_location(raw.stated, *l);
    raw.initial[raw.locations.into()..].iter().any(|&value| value != 0)
        || (0..MAX_LOCATIONS).filter(unstated).any(|l| raw.finals[l] != 0)
        || raw.events[raw.count.into()..].iter().any(|&event| event != RawEvent::default())
}

/// The events of a table that the lines 5 and 6 don't refuse; refuses by 7.
fn typed(raw: &RawTable) -> Result<Table, Refusal> {
    let mut table = Table {
        harts: raw.harts.into(),
        locations: raw.locations.into(),
        stated: raw.stated,
        model: Model::from_number(raw.model).expect("line 5 refuses other models"),
        initial: raw.initial,
        finals: raw.finals,
        events: Vec::new(),
    };
    for (number, event) in raw.events[..raw.count.into()].iter().enumerate() {
        let in_range = event.typed().filter(|event| !fields_broken(&table, event));
        table.events.push(in_range.ok_or(Refusal { line: Line::Fields, record: Some(number) })?);
    }
    Ok(table)
}

#[cfg(test)]
mod tests {
    use super::*;
    use crate::litmus;
    use crate::table::read;

    #[test]
    fn what_was_written_is_read_back() {
        for (_, test) in [litmus::all(), litmus::counters()].concat() {
            let mut block = [0xEE; BLOCK_LENGTH];
            assert_eq!(write(&RawTable::of_block(&encode(&test)), &mut block), Ok(()));
            assert_eq!(read(&block), Ok(test));
        }
    }

    #[test]
    fn a_table_is_streamed_in_741_bytes() {
        let table = RawTable::of_block(&encode(&litmus::counter()));
        let mut stream = Vec::new();
        table.push_to(&mut stream);
        assert_eq!(stream.len(), 741);
        assert_eq!(RawTable::take_from(&mut Stream::new(&stream)).unwrap(), table);
    }
}
