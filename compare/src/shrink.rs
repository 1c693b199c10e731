//! Makes a call smaller while a property of it stays.

use crate::call::{Call, Entry, OfSuite};
use oracle::candidate::{INITIAL, NON_READER};
use oracle::encode::seal;
use oracle::layout::*;
use oracle::raw::RawTable;
use oracle::record::RawEvent;
use oracle::stream::Stream;
use oracle::table::{names_location, Event, Kind};

/// Takes smaller calls as long as one has the property. Each has fewer events, shorter lists, a smaller number or a
/// smaller byte, so that this ends.
pub fn shrink(mut call: Call, mut has_property: impl FnMut(&Call) -> bool) -> Call {
    loop {
        let smaller = smaller_calls(&call).find(&mut has_property);
        match smaller {
            Some(smaller) => call = smaller,
            None => return call,
        }
    }
}

fn smaller_calls(call: &Call) -> Box<dyn Iterator<Item = Call> + '_> {
    let entries = smaller_entries(&call.entry).map(|entry| Call { entry, ..call.clone() });
    let with = |bytes| Call { bytes, ..call.clone() };
    if call.entry.takes_text() {
        return Box::new(smaller_texts(&call.bytes).map(with).chain(entries));
    }
    let (edition, events) = records(&call.bytes).unwrap_or((Edition::One, 0));
    let without_events = (0..events).filter(move |_| events > 1).map(move |k| without_event(edition, call, k));
    Box::new(without_events.chain(entries).chain(smaller_tests(call).map(with)))
}

/// Texts without one of their lines, without their last half, and without one of their bytes.
fn smaller_texts(text: &[u8]) -> impl Iterator<Item = Vec<u8>> + '_ {
    let lines: Vec<&[u8]> = text.split_inclusive(|&byte| byte == b'\n').collect();
    let without_line = |k: usize| [&lines[..k], &lines[k + 1..]].concat().concat();
    let without_lines: Vec<Vec<u8>> = (0..lines.len()).map(without_line).collect();
    let half = (text.len() > 1).then(|| text[..text.len() / 2].to_vec());
    let without_byte = |at: usize| [&text[..at], &text[at + 1..]].concat();
    without_lines.into_iter().chain(half).chain((0..text.len()).map(without_byte))
}

/// The edition that has tests of this length.
fn edition_of(bytes: &[u8]) -> Option<Edition> {
    Edition::ALL.into_iter().find(|edition| edition.test_length() == bytes.len())
}

/// How many records a test has, if its length and the number are in range.
fn records(test: &[u8]) -> Option<(Edition, usize)> {
    let edition = edition_of(test)?;
    let count = usize::from(test[EVENTS_AT]);
    (count <= edition.max_events()).then_some((edition, count))
}

/// A change of some bytes; each check that was good is made good again.
fn changed(bytes: &[u8], change: impl FnOnce(&mut [u8])) -> Vec<u8> {
    let mut changed = bytes.to_vec();
    change(&mut changed);
    for (before, block) in bytes.chunks_exact(BLOCK_LENGTH).zip(changed.chunks_exact_mut(BLOCK_LENGTH)) {
        if is_sealed(before) {
            seal(block);
        }
    }
    changed
}

/// The number of an event once event k is gone.
fn renumbered(event: u64, k: usize) -> u64 {
    if event > k as u64 && event < MOST_EVENTS as u64 {
        event - 1
    } else {
        event
    }
}

fn renumbered_byte(event: u8, k: usize) -> u8 {
    renumbered(event.into(), k) as u8
}

/// The call without event k, in the test and in the lists.
fn without_event(edition: Edition, call: &Call, k: usize) -> Call {
    let mut entry = call.entry.clone();
    drop_event(edition, &call.bytes, &mut entry, k);
    Call { bytes: test_without(edition, &call.bytes, k), entry }
}

fn test_without(edition: Edition, test: &[u8], k: usize) -> Vec<u8> {
    let location = RawEvent::of_record(edition, &test[edition.record(k)]).location;
    changed(test, |test| {
        for record in k + 1..edition.max_events() {
            test.copy_within(edition.record(record), edition.record(record - 1).start);
        }
        test[edition.record(edition.max_events() - 1)].fill(0);
        test[EVENTS_AT] -= 1;
        for record in 0..edition.max_events() {
            drop_bits(edition, &mut test[edition.record(record)], k);
        }
        drop_unused(edition, test, location);
    })
}

/// Takes event k of the test out of an entry's lists and numbers.
fn drop_event(edition: Edition, test: &[u8], entry: &mut Entry, k: usize) {
    match entry {
        Entry::Verdict { returned, order } => {
            *returned = returned_without(returned, k);
            *order = list_without(order, k);
        }
        Entry::Rules { returned, a, b } => {
            *returned = returned_without(returned, k);
            (*a, *b) = (renumbered(*a, k), renumbered(*b, k));
        }
        Entry::Returns { order: list, .. }
        | Entry::Search { start: list, .. }
        | Entry::Witnesses { start: list, .. }
        | Entry::Decide { start: list, .. }
        | Entry::AllDecided { start: list, .. } => *list = list_without(list, k),
        Entry::Step { steps, .. } => *steps = steps_without(edition, test, steps, k),
        Entry::Outcomes { previous, .. } | Entry::AllOutcomes { previous, .. } => {
            *previous = values_without(edition, test, previous, k)
        }
        Entry::Read | Entry::ReadText | Entry::TableOfText | Entry::Write { .. } | Entry::Suite(_) => {}
        Entry::BothEngines { .. } | Entry::Runs | Entry::Advise { .. } => {}
    }
}

/// A list of events without event k.
fn list_without(list: &[u8], k: usize) -> Vec<u8> {
    list.iter().filter(|&&event| usize::from(event) != k).map(|&event| renumbered_byte(event, k)).collect()
}

/// Takes a location out of a test if no memory event is left there and its final value isn't stated, for that is refused by 21.
fn drop_unused(edition: Edition, test: &mut [u8], location: u8) {
    let table = RawTable::of_test(edition, test);
    let is_there = |event: &Event| event.is_memory() && event.location == usize::from(location);
    let is_touched = table.events.iter().filter_map(RawEvent::typed).any(|event| is_there(&event));
    let is_of_test = location < table.locations && usize::from(table.locations) <= MAX_LOCATIONS;
    if is_touched || !is_of_test || table.locations == 1 || names_location(table.stated, location.into()) {
        return;
    }
    test[LOCATIONS_AT] -= 1;
    test[STATED_AT] = without_bit(table.stated.into(), location.into()) as u8;
    for at in [initial_at, final_at] {
        test.copy_within(at(usize::from(location) + 1)..at(MAX_LOCATIONS), at(location.into()));
        test[at(MAX_LOCATIONS - 1)..at(MAX_LOCATIONS)].fill(0);
    }
    for (number, event) in table.events[..edition.max_events()].iter().enumerate() {
        let lower = u8::from(event.location > location);
        let event = RawEvent { location: event.location - lower, ..*event };
        event.put(edition, &mut test[edition.record(number)]);
    }
}

/// Takes bit k out of each mask of a record.
fn drop_bits(edition: Edition, record: &mut [u8], k: usize) {
    let mut event = RawEvent::of_record(edition, record);
    for mask in [&mut event.address, &mut event.data, &mut event.control] {
        *mask = without_bit(*mask, k);
    }
    event.put(edition, record);
}

/// Higher bits move down.
fn without_bit(mask: u32, k: usize) -> u32 {
    let low = mask & ((1 << k) - 1);
    let high = mask.checked_shr(k as u32 + 1).unwrap_or(0) << k;
    low | high
}

/// The entry of event k is gone, and a reader that returned from it returns the initial value.
fn returned_without(returned: &[u8], k: usize) -> Vec<u8> {
    let entry = |entry: u8| match entry {
        NON_READER | INITIAL => entry,
        _ if usize::from(entry) == k => INITIAL,
        _ => renumbered_byte(entry, k),
    };
    let others = returned.iter().enumerate().filter(|&(event, _)| event != k);
    others.map(|(_, &writer)| entry(writer)).collect()
}

/// A list of steps without those that issue and drain event k.
fn steps_without(edition: Edition, test: &[u8], steps: &[u8], k: usize) -> Vec<u8> {
    let event = |k: usize| RawEvent::of_record(edition, &test[edition.record(k)]);
    let is_store = |event: &RawEvent| [Kind::Store as u8, Kind::Sc as u8].contains(&event.kind);
    let own: Vec<RawEvent> = (0..=k).map(event).filter(|other| other.hart == event(k).hart).collect();
    let place = |step: u8, number: usize| (0..steps.len()).filter(|&at| steps[at] == step).nth(number);
    let stores = own.iter().filter(|event| is_store(event)).count();
    let issue = place(event(k).hart, own.len() - 1);
    let drain = is_store(&event(k)).then(|| place(event(k).hart.wrapping_add(MAX_HARTS as u8), stores - 1)).flatten();
    (0..steps.len()).filter(|at| ![issue, drain].contains(&Some(*at))).map(|at| steps[at]).collect()
}

/// Values without that of event k, if it reads.
fn values_without(edition: Edition, test: &[u8], values: &[u16], k: usize) -> Vec<u16> {
    let reads = |event: usize| {
        let event = RawEvent::of_record(edition, &test[edition.record(event)]).typed();
        event.is_some_and(|event| event.reads())
    };
    let mut values = values.to_vec();
    let place = (0..k).filter(|&event| reads(event)).count();
    if reads(k) && place < values.len() {
        values.remove(place);
    }
    values
}

fn smaller_entries(entry: &Entry) -> impl Iterator<Item = Entry> + '_ {
    let with = move |part: usize, way: usize| {
        let mut entry = entry.clone();
        let is_smaller = parts(&mut entry)[part].shrink(way);
        is_smaller.then_some(entry)
    };
    let count = parts(&mut entry.clone()).len();
    (0..count).flat_map(move |part| (0..).map_while(move |way| with(part, way)))
}

/// Those of an entry's arguments that can be made smaller.
fn parts(entry: &mut Entry) -> Vec<&mut dyn Part> {
    match entry {
        Entry::Read | Entry::ReadText | Entry::TableOfText | Entry::Runs => vec![],
        Entry::Write { table, out } => vec![table, out],
        Entry::Verdict { returned, order } => vec![returned, order],
        Entry::Rules { returned, a, b } => vec![returned, a, b],
        Entry::Returns { order, out } => vec![order, out],
        Entry::Search { start, out, allowance, .. } => vec![start, out, allowance],
        Entry::Suite(OfSuite::Blocks | OfSuite::Tests) => vec![],
        Entry::Suite(OfSuite::Part { k } | OfSuite::Test { k }) => vec![k],
        Entry::Witnesses { start, allowance, steps, .. } => vec![start, allowance, steps],
        Entry::BothEngines { allowance } | Entry::Advise { allowance } => vec![allowance],
        Entry::Step { steps, step } => vec![steps, step],
        Entry::Outcomes { previous, out, allowance, .. } => vec![previous, out, allowance],
        Entry::AllOutcomes { previous, allowance, resumed_after, .. } => vec![previous, allowance, resumed_after],
        Entry::Decide { start, out } => vec![start, out],
        Entry::AllDecided { start, steps } => vec![start, steps],
    }
}

/// An argument that can be made smaller in some ways, numbered from 0.
trait Part {
    /// Makes it smaller in this way, and says whether there is such a way.
    fn shrink(&mut self, way: usize) -> bool;
}

/// To 0, to half of it, and by 1.
impl Part for u64 {
    fn shrink(&mut self, way: usize) -> bool {
        let ways = [0, *self / 2, self.saturating_sub(1)];
        let Some(&smaller) = ways.get(way).filter(|smaller| **smaller < *self) else { return false };
        *self = smaller;
        true
    }
}

impl Part for usize {
    fn shrink(&mut self, way: usize) -> bool {
        let mut number = *self as u64;
        let is_smaller = number.shrink(way);
        *self = number as usize;
        is_smaller
    }
}

/// To no entries, and by any one of them, the last first.
impl<T> Part for Vec<T> {
    fn shrink(&mut self, way: usize) -> bool {
        if self.is_empty() || way > self.len() {
            return false;
        }
        match way {
            0 => self.clear(),
            _ => drop(self.remove(self.len() - way)),
        }
        true
    }
}

impl Part for Box<RawTable> {
    fn shrink(&mut self, way: usize) -> bool {
        let Some(smaller) = smaller_tables(self).nth(way) else { return false };
        **self = smaller;
        true
    }
}

/// Tables without their last event, and with one byte of a field made smaller.
fn smaller_tables(table: &RawTable) -> impl Iterator<Item = RawTable> {
    let mut fields = Vec::new();
    table.push_to(&mut fields);
    let changes: Vec<(usize, u8)> = smaller_bytes(&fields).collect();
    let changed = changes.into_iter().map(move |(at, value)| {
        let mut fields = fields.clone();
        fields[at] = value;
        RawTable::take_from(&mut Stream::new(&fields)).expect("there are as many bytes")
    });
    without_last(table).into_iter().chain(changed)
}

fn without_last(table: &RawTable) -> Option<RawTable> {
    let count = table.count.checked_sub(1)?;
    let mut table = RawTable { count, ..table.clone() };
    *table.events.get_mut(usize::from(count))? = RawEvent::default();
    Some(table)
}

/// Places of bytes that aren't 0, each with 0, half of it, and 1 less.
fn smaller_bytes(bytes: &[u8]) -> impl Iterator<Item = (usize, u8)> + '_ {
    let others = bytes.iter().enumerate().filter(|&(_, &byte)| byte != 0);
    others.flat_map(|(at, &byte)| [(at, 0), (at, byte / 2), (at, byte - 1)])
}

/// Tests with one byte made smaller, but for their checks; and, of suites and of other bytes than a test, the first half of
/// them, all but the first block, and all but the last byte.
fn smaller_tests(call: &Call) -> impl Iterator<Item = Vec<u8>> + '_ {
    let bytes = &call.bytes[..];
    let is_test = edition_of(bytes).is_some() && !matches!(call.entry, Entry::Suite(_));
    let is_check = move |at: usize| is_test && at % BLOCK_LENGTH >= CHECK_AT;
    let changes = smaller_bytes(bytes).filter(move |&(at, _)| !is_check(at));
    let half = &bytes[..bytes.len() / 2];
    let past_first = bytes.get(BLOCK_LENGTH..).unwrap_or(bytes);
    let all_but_last = &bytes[..bytes.len().saturating_sub(1)];
    let parts = [half, past_first, all_but_last].into_iter();
    let shorter = parts.filter(move |part| !is_test && part.len() < bytes.len());
    shorter.map(<[u8]>::to_vec).chain(changes.map(|(at, value)| changed(bytes, |bytes| bytes[at] = value)))
}
