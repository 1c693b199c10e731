//! An event as plain numbers, which can hold what line 7 refuses; and where the records of each
//! edition have these numbers.

use crate::layout::Edition;
use crate::operation::Operation;
use crate::stream::{Malformed, Stream};
use crate::table::{Event, Kind};

#[derive(Clone, Copy, Default, PartialEq, Eq, Debug)]
pub struct RawEvent {
    pub kind: u8,
    pub hart: u8,
    pub location: u8,
    pub flags: u8,
    pub address: u32,
    pub data: u32,
    pub control: u32,
    pub read: u16,
    pub written: u16,
    pub operation: u8,
    pub operand: u8,
}

impl RawEvent {
    pub fn of_record(edition: Edition, record: &[u8]) -> RawEvent {
        RawEvent::take_from(edition, &mut Stream::new(record)).expect("a record has every number")
    }

    /// The record. What edition 1 has no room for, bits 16 and up of a mask, is left out there.
    pub fn put(&self, edition: Edition, record: &mut [u8]) {
        let mut numbers = Vec::new();
        self.push_to(edition, &mut numbers);
        record[..numbers.len()].copy_from_slice(&numbers);
    }

    /// The numbers in their order, as a record has them from its first byte on.
    pub fn take_from(edition: Edition, stream: &mut Stream) -> Result<RawEvent, Malformed> {
        let mask = |stream: &mut Stream| match edition {
            Edition::One => stream.word().map(u32::from),
            Edition::Two => stream.mask(),
        };
        Ok(RawEvent {
            kind: stream.byte()?,
            hart: stream.byte()?,
            location: stream.byte()?,
            flags: stream.byte()?,
            address: mask(stream)?,
            data: mask(stream)?,
            control: mask(stream)?,
            read: stream.word()?,
            written: stream.word()?,
            operation: stream.byte()?,
            operand: stream.byte()?,
        })
    }

    /// What `take_from` reads.
    pub fn push_to(&self, edition: Edition, stream: &mut Vec<u8>) {
        stream.extend([self.kind, self.hart, self.location, self.flags]);
        for mask in [self.address, self.data, self.control] {
            match edition {
                Edition::One => stream.extend((mask as u16).to_le_bytes()),
                Edition::Two => stream.extend(mask.to_le_bytes()),
            }
        }
        stream.extend([self.read, self.written].iter().flat_map(|value| value.to_le_bytes()));
        stream.extend([self.operation, self.operand]);
    }

    /// The event, or none if its kind or its operation is out of range.
    pub fn typed(&self) -> Option<Event> {
        Some(Event {
            kind: Kind::from_number(self.kind)?,
            hart: self.hart.into(),
            location: self.location.into(),
            flags: self.flags,
            address: self.address,
            data: self.data,
            control: self.control,
            read: self.read,
            written: self.written,
            operation: Operation::from_number(self.operation)?,
            operand: self.operand,
        })
    }
}

impl From<&Event> for RawEvent {
    fn from(event: &Event) -> RawEvent {
        RawEvent {
            kind: event.kind as u8,
            hart: event.hart as u8,
            location: event.location as u8,
            flags: event.flags,
            address: event.address,
            data: event.data,
            control: event.control,
            read: event.read,
            written: event.written,
            operation: event.operation as u8,
            operand: event.operand,
        }
    }
}

#[cfg(test)]
mod tests {
    use super::*;
    use crate::layout::{one, two};

    /// An event whose numbers have bytes that tell them apart.
    const NUMBERED: RawEvent = RawEvent {
        kind: 1,
        hart: 2,
        location: 3,
        flags: 4,
        address: 5,
        data: 6,
        control: 7,
        read: 8,
        written: 9,
        operation: 10,
        operand: 11,
    };

    /// Each number begins at its place, and they are read back.
    fn assert_places(edition: Edition, places: [usize; 11]) {
        let mut record = vec![0; edition.record(0).len()];
        NUMBERED.put(edition, &mut record);
        assert_eq!(places.map(|at| record[at]), [1, 2, 3, 4, 5, 6, 7, 8, 9, 10, 11]);
        assert_eq!(RawEvent::of_record(edition, &record), NUMBERED);
    }

    #[test]
    fn records_of_edition_1_have_the_numbers_at_their_places() {
        use one::field::*;
        assert_places(
            Edition::One,
            [
                KIND, HART, LOCATION, FLAGS, ADDRESS, DATA, CONTROL, READ, WRITTEN, OPERATION,
                OPERAND,
            ],
        );
    }

    #[test]
    fn records_of_edition_2_have_the_numbers_at_their_places() {
        use two::field::*;
        assert_places(
            Edition::Two,
            [
                KIND, HART, LOCATION, FLAGS, ADDRESS, DATA, CONTROL, READ, WRITTEN, OPERATION,
                OPERAND,
            ],
        );
    }
}
