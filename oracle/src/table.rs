//! A test read from its bytes, and the lines 1 to 11 and 21 by which reading refuses them.

use crate::layout::*;
use crate::operation::Operation;
use crate::record::RawEvent;
use std::fmt;

/// "Kinds: 1 load, 2 store, 3 AMO, 4 LR, 5 SC, 6 fence, 7 fence.tso."
#[derive(Clone, Copy, PartialEq, Eq, Debug)]
pub enum Kind {
    Load = 1,
    Store = 2,
    Amo = 3,
    Lr = 4,
    Sc = 5,
    Fence = 6,
    FenceTso = 7,
}

impl Kind {
    pub const ALL: [Kind; 7] =
        [Kind::Load, Kind::Store, Kind::Amo, Kind::Lr, Kind::Sc, Kind::Fence, Kind::FenceTso];

    pub fn from_number(number: u8) -> Option<Kind> {
        Kind::ALL.into_iter().find(|&kind| kind as u8 == number)
    }
}

/// "Header byte 9 becomes the model, 0 or 1": RVWMO, RVTSO.
#[derive(Clone, Copy, PartialEq, Eq, Debug)]
pub enum Model {
    Rvwmo = 0,
    Rvtso = 1,
}

impl Model {
    pub const ALL: [Model; 2] = [Model::Rvwmo, Model::Rvtso];

    pub fn from_number(number: u8) -> Option<Model> {
        Model::ALL.into_iter().find(|&model| model as u8 == number)
    }
}

/// "Memory flags from bit 0: acquire-RCpc, acquire-RCsc, release-RCpc, release-RCsc."
pub const ACQUIRE_RCPC: u8 = 1;
pub const ACQUIRE_RCSC: u8 = 2;
pub const RELEASE_RCPC: u8 = 4;
pub const RELEASE_RCSC: u8 = 8;
pub const ACQUIRES: u8 = ACQUIRE_RCPC | ACQUIRE_RCSC;
pub const RELEASES: u8 = RELEASE_RCPC | RELEASE_RCSC;

/// "Fence flags from bit 0: pr, pw, sr, sw"
pub const PR: u8 = 1;
pub const PW: u8 = 2;
pub const SR: u8 = 4;
pub const SW: u8 = 8;

/// The largest flags, for memory events and fences alike.
pub const ALL_FLAGS: u8 = 15;

/// The masks of edition 1 have two bytes; those of edition 2, and of a table that is to be written,
/// four.
#[derive(Clone, PartialEq, Eq, Debug)]
pub struct Event {
    pub kind: Kind,
    pub hart: usize,
    pub location: usize,
    pub flags: u8,
    pub address: u32,
    pub data: u32,
    pub control: u32,
    pub read: u16,
    pub written: u16,
    pub operation: Operation,
    pub operand: u8,
}

impl Event {
    /// "Kinds 1, 3, 4 read"
    pub fn reads(&self) -> bool {
        matches!(self.kind, Kind::Load | Kind::Amo | Kind::Lr)
    }

    /// "kinds 2, 3, 5 write"
    pub fn writes(&self) -> bool {
        matches!(self.kind, Kind::Store | Kind::Amo | Kind::Sc)
    }

    pub fn has_operation(&self) -> bool {
        self.operation != Operation::None
    }

    pub fn is_fence(&self) -> bool {
        matches!(self.kind, Kind::Fence | Kind::FenceTso)
    }

    pub fn is_memory(&self) -> bool {
        !self.is_fence()
    }

    /// Carried ones, whatever the model. Flags of a fence mean other things, so only memory events
    /// have annotations.
    pub fn has_acquire(&self) -> bool {
        self.is_memory() && self.flags & ACQUIRES != 0
    }

    pub fn has_release(&self) -> bool {
        self.is_memory() && self.flags & RELEASES != 0
    }
}

#[derive(Clone, PartialEq, Eq, Debug)]
pub struct Table {
    pub harts: usize,
    pub locations: usize,
    pub stated: u8,
    pub model: Model,
    pub initial: [u16; MAX_LOCATIONS],
    pub finals: [u16; MAX_LOCATIONS],
    pub events: Vec<Event>,
}

/// How many events a mask could name.
pub const MASK_BITS: usize = u32::BITS as usize;

/// "Bit k of a record's mask (bit 0 lowest) names event k"
pub fn names(mask: u32, event: usize) -> bool {
    mask >> event & 1 == 1
}

/// "bit k of byte 8 names location k"
pub fn names_location(stated: u8, location: usize) -> bool {
    stated >> location & 1 == 1
}

impl Table {
    /// "Program order is table order within a hart."
    pub fn in_program_order(&self, a: usize, b: usize) -> bool {
        a < b && self.events[a].hart == self.events[b].hart
    }

    /// The annotations of a memory event as the rules read them: in RVTSO "every load or LR behaves
    /// as if it had acquire-RCpc, every store or SC release-RCpc, and every AMO acquire-RCsc and
    /// release-RCsc, besides what it carries".
    pub fn annotations(&self, event: usize) -> u8 {
        let event = &self.events[event];
        let added = match (self.model, event.kind) {
            (Model::Rvwmo, _) | (_, Kind::Fence | Kind::FenceTso) => 0,
            (Model::Rvtso, Kind::Load | Kind::Lr) => ACQUIRE_RCPC,
            (Model::Rvtso, Kind::Store | Kind::Sc) => RELEASE_RCPC,
            (Model::Rvtso, Kind::Amo) => ACQUIRE_RCSC | RELEASE_RCSC,
        };
        event.flags | added
    }

    pub fn memory_events(&self) -> Vec<usize> {
        (0..self.events.len()).filter(|&e| self.events[e].is_memory()).collect()
    }

    /// The locations that "no memory event touches". The location byte of a fence is 0 and touches
    /// nothing.
    pub fn untouched(&self) -> impl Iterator<Item = usize> + '_ {
        let touches =
            |location: usize| move |event: &Event| event.is_memory() && event.location == location;
        (0..self.locations).filter(move |&location| !self.events.iter().any(touches(location)))
    }

    /// The LR that an SC is paired with: the SC's "nearest earlier LR or SC on its hart",
    /// if that is "an LR to the same location".
    pub fn paired_lr(&self, sc: usize) -> Option<usize> {
        let nearest = (0..sc).rev().find(|&e| {
            self.in_program_order(e, sc) && matches!(self.events[e].kind, Kind::Lr | Kind::Sc)
        })?;
        let pairs = self.events[nearest].kind == Kind::Lr
            && self.events[nearest].location == self.events[sc].location;
        pairs.then_some(nearest)
    }
}

/// The lines of the paper's table of refusals; a line's value is its number.
#[derive(Clone, Copy, PartialEq, Eq, Debug)]
pub enum Line {
    Length = 1,
    Check = 2,
    Marker = 3,
    Edition = 4,
    Ranges = 5,
    Zeros = 6,
    Fields = 7,
    Annotations = 8,
    Dependencies = 9,
    Pairing = 10,
    NoMemoryEvent = 11,
    ListLength = 12,
    OrderEvents = 13,
    ReturnedEntries = 14,
    Start = 15,
    Buffer = 16,
    Allowance = 17,
    Grammar = 19,
    Levels = 20,
    UnusedLocation = 21,
    EmptyFences = 22,
    Names = 23,
    Step = 24,
}

#[derive(Clone, Copy, PartialEq, Eq, Debug)]
pub struct Refusal {
    pub line: Line,
    /// "within 7 to 10, its lowest record is named"
    pub record: Option<usize>,
}

impl fmt::Display for Refusal {
    fn fmt(&self, out: &mut fmt::Formatter) -> fmt::Result {
        write!(out, "refused {}", self.line as u8)?;
        match self.record {
            Some(record) => write!(out, ", record {record}"),
            None => Ok(()),
        }
    }
}

/// Refuses by a line that names no record.
pub fn refuse_if(broken: bool, line: Line) -> Result<(), Refusal> {
    if broken {
        return Err(Refusal { line, record: None });
    }
    Ok(())
}

/// Refuses by a line that names the lowest record that breaks it.
fn refuse_records(
    table: &Table,
    line: Line,
    is_broken: fn(&Table, usize) -> bool,
) -> Result<(), Refusal> {
    match (0..table.events.len()).find(|&record| is_broken(table, record)) {
        Some(record) => Err(Refusal { line, record: Some(record) }),
        None => Ok(()),
    }
}

/// "Where the first 512 bytes are short or fail 2, 3 or 4, that is the answer; otherwise length is
/// checked by edition before the later blocks." Then 5 to 11, of which "exactly the lowest number
/// whose line holds is given", and 21, which is "checked after 11".
pub fn read(test: &[u8]) -> Result<Table, Refusal> {
    let edition = stated_edition(test)?;
    refuse_if(test.len() != edition.test_length(), Line::Length)?;
    refuse_if(!test.chunks(BLOCK_LENGTH).all(is_sealed), Line::Check)?;
    refuse_if(ranges_broken(edition, test), Line::Ranges)?;
    refuse_if(zero_bytes(edition, test).any(|at| test[at] != 0), Line::Zeros)?;
    let table = decode(edition, test)?;
    refuse_stating_table(&table)?;
    Ok(table)
}

/// The edition of a test whose first 512 bytes are neither short nor fail 2, 3 or 4.
pub fn stated_edition(test: &[u8]) -> Result<Edition, Refusal> {
    refuse_if(test.len() < BLOCK_LENGTH, Line::Length)?;
    refuse_if(!is_sealed(test), Line::Check)?;
    refuse_if(!test.starts_with(&MARKER), Line::Marker)?;
    let edition = Edition::from_number(test[EDITION_AT]);
    edition.ok_or(Refusal { line: Line::Edition, record: None })
}

/// Lines 8 to 11 and 21, of a table that states final values by its mask.
pub fn refuse_stating_table(table: &Table) -> Result<(), Refusal> {
    refuse_table(table)?;
    refuse_unused(table, |location| names_location(table.stated, location))
}

/// Lines 8 to 11.
pub fn refuse_table(table: &Table) -> Result<(), Refusal> {
    refuse_records(table, Line::Annotations, annotations_broken)?;
    refuse_records(table, Line::Dependencies, dependencies_broken)?;
    refuse_records(table, Line::Pairing, pairing_broken)?;
    refuse_if(table.memory_events().is_empty(), Line::NoMemoryEvent)
}

/// 21: "a location no memory event touches and whose final value isn't stated"
pub fn refuse_unused(table: &Table, is_stated: impl Fn(usize) -> bool) -> Result<(), Refusal> {
    refuse_if(table.untouched().any(|location| !is_stated(location)), Line::UnusedLocation)
}

/// 5: "harts, locations or events out of range, or the final mask names a location not in
/// the test"; a model other than 0 and 1
fn ranges_broken(edition: Edition, test: &[u8]) -> bool {
    let (harts, locations, events) = counts(test);
    !(1..=MAX_HARTS).contains(&harts)
        || !(1..=MAX_LOCATIONS).contains(&locations)
        || !(1..=edition.max_events()).contains(&events)
        || (locations..MAX_LOCATIONS).any(|l| names_location(test[STATED_AT], l))
        || Model::from_number(test[MODEL_AT]).is_none()
}

fn counts(test: &[u8]) -> (usize, usize, usize) {
    (test[HARTS_AT].into(), test[LOCATIONS_AT].into(), test[EVENTS_AT].into())
}

/// 6: "a byte named zero isn't zero, also: initial values of locations not in the test,
/// final values not stated, records past the events". The places of these bytes.
fn zero_bytes(edition: Edition, test: &[u8]) -> impl Iterator<Item = usize> + '_ {
    let (_, locations, events) = counts(test);
    let unstated = |l: &usize| !names_location(test[STATED_AT], *l);
    let values = initial_at(locations)..initial_at(MAX_LOCATIONS);
    let finals = (0..MAX_LOCATIONS).filter(unstated).flat_map(|l| final_at(l)..final_at(l + 1));
    let records = (events..edition.max_events()).flat_map(move |e| edition.record(e));
    let unused = match edition {
        Edition::One => Vec::new(),
        Edition::Two => unused_in_two(),
    };
    HEADER_ZEROS.chain(TAIL_ZEROS).chain(values).chain(finals).chain(records).chain(unused)
}

/// Of edition 2: "records area zero", "zero from 480" in the later blocks, and the "ten zeros" of
/// each record.
fn unused_in_two() -> Vec<usize> {
    let blocks = (1..two::BLOCKS).map(|block| BLOCK_LENGTH * block);
    let tails = blocks.flat_map(|at| two::BLOCK_ZEROS.map(move |zero| at + zero));
    let records = (0..two::MAX_EVENTS).map(two::record_at);
    let tens = records.flat_map(|at| two::field::ZEROS.map(move |zero| at + zero));
    RECORDS_AREA.chain(tails).chain(tens).collect()
}

/// Decodes a test that lines 1 to 6 don't refuse; refuses by 7. "Editions 1 and 2 give one kind of
/// table".
fn decode(edition: Edition, test: &[u8]) -> Result<Table, Refusal> {
    let (harts, locations, events) = counts(test);
    let mut table = Table {
        harts,
        locations,
        stated: test[STATED_AT],
        model: Model::from_number(test[MODEL_AT]).expect("line 5 refuses other models"),
        initial: std::array::from_fn(|l| word(test, initial_at(l))),
        finals: std::array::from_fn(|l| word(test, final_at(l))),
        events: Vec::new(),
    };
    for e in 0..events {
        let decoded = RawEvent::of_record(edition, &test[edition.record(e)]).typed();
        let in_range = decoded.filter(|event| !fields_broken(&table, event));
        table.events.push(in_range.ok_or(Refusal { line: Line::Fields, record: Some(e) })?);
    }
    Ok(table)
}

/// 7, but for a kind out of range and "an operation above 6": the lines of a block and of a text
/// have `form_broken` in common; "with [an operation], the written value must be the operation
/// applied to the value read".
pub fn fields_broken(table: &Table, event: &Event) -> bool {
    let applied = event.operation.applied(event.read, event.operand);
    form_broken(table, event) || applied.is_some_and(|written| event.written != written)
}

/// 7: "hart, location or flags out of range; a non-reader with a value read or a non-writer with
/// a value written that isn't zero; a fence with location or mask not zero; flags on fence.tso".
/// Of operations: "Only an AMO may have an operation", and without one the operand is 0.
pub fn form_broken(table: &Table, event: &Event) -> bool {
    let out_of_range =
        event.hart >= table.harts || event.location >= table.locations || event.flags > ALL_FLAGS;
    let has_masks = event.address | event.data | event.control != 0;
    out_of_range
        || !event.reads() && event.read != 0
        || !event.writes() && event.written != 0
        || event.is_fence() && (event.location != 0 || has_masks)
        || event.kind == Kind::FenceTso && event.flags != 0
        || event.has_operation() && event.kind != Kind::Amo
        || !event.has_operation() && event.operand != 0
}

/// 8: "both acquires or both releases at once"; a load or LR "with release and no acquire"; "a
/// plain store or SC with acquire and no release". "An AMO may carry either annotation alone."
pub fn annotations_broken(table: &Table, record: usize) -> bool {
    let event = &table.events[record];
    let both_of = |flags: u8| event.is_memory() && event.flags & flags == flags;
    let only_reads = matches!(event.kind, Kind::Load | Kind::Lr);
    let only_writes = matches!(event.kind, Kind::Store | Kind::Sc);
    both_of(ACQUIRES)
        || both_of(RELEASES)
        || only_reads && event.has_release() && !event.has_acquire()
        || only_writes && event.has_acquire() && !event.has_release()
}

/// 9: "a mask names an event that isn't earlier on the same hart, or is a plain store or a
/// fence; a data mask on a non-writer; a control mask with a bit that some later memory event
/// of that hart lacks"
fn dependencies_broken(table: &Table, record: usize) -> bool {
    let event = &table.events[record];
    let masks = event.address | event.data | event.control;
    let names_wrong_event =
        (0..MASK_BITS).any(|e| names(masks, e) && !may_be_depended_on(table, e, record));
    let lacks_control = |later: usize| {
        let other = &table.events[later];
        table.in_program_order(record, later)
            && other.is_memory()
            && event.control & !other.control != 0
    };
    names_wrong_event
        || event.data != 0 && !event.writes()
        || (0..table.events.len()).any(lacks_control)
}

/// Whether a mask of `record` may name `source`: it is "an earlier event" on the same hart
/// with a result, which plain stores and fences don't have.
pub fn may_be_depended_on(table: &Table, source: usize, record: usize) -> bool {
    source < table.events.len()
        && table.in_program_order(source, record)
        && matches!(table.events[source].kind, Kind::Load | Kind::Amo | Kind::Lr | Kind::Sc)
}

/// 10: "an SC whose nearest earlier LR or SC on its hart isn't an LR to the same location"
fn pairing_broken(table: &Table, record: usize) -> bool {
    table.events[record].kind == Kind::Sc && table.paired_lr(record).is_none()
}

#[cfg(test)]
mod tests {
    use super::*;
    use crate::encode::{encode, seal};
    use crate::layout::one::{field, record_at, MAX_EVENTS};
    use crate::litmus::*;

    fn refused(line: Line) -> Result<Table, Refusal> {
        Err(Refusal { line, record: None })
    }

    fn refused_at(line: Line, record: usize) -> Result<Table, Refusal> {
        Err(Refusal { line, record: Some(record) })
    }

    fn read_events(events: Vec<Event>) -> Result<Table, Refusal> {
        read(&encode(&table(events)))
    }

    /// C1's block with one byte changed and a good check.
    fn c1_with(at: usize, value: u8) -> Vec<u8> {
        let mut block = encode(&c1());
        block[at] = value;
        seal(&mut block);
        block
    }

    #[test]
    fn litmus_tests_are_read_as_they_were_written() {
        for (_, test) in all() {
            assert_eq!(read(&encode(&test)), Ok(test));
        }
    }

    #[test]
    fn the_check_is_at_most_32967930() {
        let mut block = vec![255; BLOCK_LENGTH];
        seal(&mut block);
        assert_eq!(check(&block), 32_967_930);
        assert_eq!(read(&block), refused(Line::Marker));
    }

    #[test]
    fn sixteen_events_pass_and_seventeen_refuse_by_5() {
        let mut block = encode(&table(vec![load(0, X, 0); MAX_EVENTS]));
        assert!(read(&block).is_ok());
        block[EVENTS_AT] = 17;
        seal(&mut block);
        assert_eq!(read(&block), refused(Line::Ranges));
    }

    #[test]
    fn lengths_other_than_512_refuse_by_1() {
        let block = encode(&c1()).repeat(2);
        for length in [0, 1, 511, 513, 1024] {
            assert_eq!(read(&block[..length]), refused(Line::Length));
        }
    }

    #[test]
    fn edition_9_with_a_good_check_refuses_by_4_and_with_a_bad_one_by_2() {
        let mut block = c1_with(EDITION_AT, 9);
        assert_eq!(read(&block), refused(Line::Edition));
        block[CHECK_AT] ^= 1;
        assert_eq!(read(&block), refused(Line::Check));
    }

    #[test]
    fn the_final_mask_names_locations_of_the_test() {
        assert!(read(&c1_with(STATED_AT, 0b11)).is_ok());
        assert_eq!(read(&c1_with(STATED_AT, 0b100)), refused(Line::Ranges));
    }

    #[test]
    fn byte_9_is_the_model_and_others_refuse_by_5() {
        for model in Model::ALL {
            assert_eq!(read(&c1_with(MODEL_AT, model as u8)), Ok(c1().in_model(model)));
        }
        for number in [2, 3, 128, 255] {
            assert_eq!(read(&c1_with(MODEL_AT, number)), refused(Line::Ranges));
        }
    }

    #[test]
    fn line_8_looks_at_what_is_carried_in_both_models() {
        for model in Model::ALL {
            let alone = |event: Event| read(&encode(&table(vec![event]).in_model(model))).is_ok();
            assert!(!alone(load(0, X, 0).flags(RELEASE_RCPC)));
            assert!(!alone(store(0, X, 1).flags(ACQUIRE_RCPC)));
            assert!(alone(load(0, X, 0).flags(ACQUIRE_RCSC)));
            assert!(alone(store(0, X, 1).flags(RELEASE_RCSC)));
            assert!(alone(amo(0, X, 0, 1).flags(ACQUIRE_RCPC | RELEASE_RCPC)));
        }
    }

    #[test]
    fn bytes_named_zero_are_zero() {
        let past = record_at(4);
        let values = [initial_at(2), final_at(0)];
        let records = [past, past + field::OPERATION, past + field::OPERAND];
        for at in [&[10, 15, 304, 507], &values[..], &records].concat() {
            assert_eq!(read(&c1_with(at, 1)), refused(Line::Zeros), "{at}");
        }
    }

    #[test]
    fn an_operation_goes_from_0_to_6() {
        for operation in Operation::SOME {
            assert!(read_events(vec![amo_with(0, X, 7, operation, 9)]).is_ok());
        }
        let mut block = encode(&table(vec![load(0, X, 0), amo(0, X, 0, 0)]));
        for above in [7, 8, 128, 255] {
            block[record_at(1) + field::OPERATION] = above;
            seal(&mut block);
            assert_eq!(read(&block), refused_at(Line::Fields, 1), "{above}");
        }
    }

    /// One event of each kind; an SC follows its LR.
    fn each_kind() -> Vec<Event> {
        let accesses = vec![load(0, X, 0), store(0, X, 0), amo(0, X, 0, 0), lr(0, X, 0)];
        [accesses, vec![sc(0, X, 0), fence(0, FULL), fence_tso(0)]].concat()
    }

    #[test]
    fn only_an_amo_may_have_an_operation() {
        assert!(read_events(each_kind()).is_ok());
        for record in 0..each_kind().len() {
            let mut events = each_kind();
            events[record].operation = Operation::Add;
            let is_amo = events[record].kind == Kind::Amo;
            let expected =
                if is_amo { Ok(table(events.clone())) } else { refused_at(Line::Fields, record) };
            assert_eq!(read_events(events), expected);
        }
    }

    #[test]
    fn an_operand_needs_an_operation_whatever_the_kind() {
        for record in 0..each_kind().len() {
            for operand in [1, 128, 255] {
                let mut events = each_kind();
                events[record].operand = operand;
                assert_eq!(read_events(events), refused_at(Line::Fields, record));
            }
        }
    }

    #[test]
    fn the_written_value_is_the_operation_applied_to_the_value_read() {
        for operation in Operation::SOME {
            for (read, operand) in [(0, 0), (65535, 1), (0x1234, 255), (255, 255)] {
                let right = amo_with(0, X, read, operation, operand);
                for wrong in [right.written ^ 1, right.written ^ 256, right.written ^ 65535] {
                    let amo = amo(0, X, read, wrong).operation(operation, operand);
                    let events = vec![load(0, X, 0), amo];
                    assert_eq!(read_events(events), refused_at(Line::Fields, 1));
                }
                assert!(read_events(vec![load(0, X, 0), right]).is_ok());
            }
        }
    }

    #[test]
    fn without_an_operation_an_amo_writes_any_value() {
        for written in [0, 1, 65535] {
            assert!(read_events(vec![amo(0, X, 7, written)]).is_ok());
        }
    }

    #[test]
    fn a_fence_may_have_no_bits_and_fence_tso_has_none() {
        assert!(read_events(vec![fence(0, 0), load(0, X, 0)]).is_ok());
        let tso_with_bits = vec![load(0, X, 0), fence_tso(0).flags(PR)];
        assert_eq!(read_events(tso_with_bits), refused_at(Line::Fields, 1));
    }

    #[test]
    fn line_7_of_a_late_record_wins_over_line_8_of_an_early_one() {
        let early = load(0, X, 0).flags(RELEASE_RCPC);
        let late = load(0, X, 0).flags(ALL_FLAGS + 1);
        assert_eq!(read_events(vec![early.clone()]), refused_at(Line::Annotations, 0));
        assert_eq!(read_events(vec![early, late]), refused_at(Line::Fields, 1));
    }

    #[test]
    fn an_amo_may_have_either_annotation_alone_and_no_other_event_may() {
        let paired = |flags: u8| read_events(vec![lr(0, X, 0), sc(0, X, 1).flags(flags)]);
        for acquire in [ACQUIRE_RCPC, ACQUIRE_RCSC] {
            assert!(read_events(vec![amo(0, X, 0, 1).flags(acquire)]).is_ok());
            let refused = refused_at(Line::Annotations, 0);
            assert_eq!(read_events(vec![store(0, X, 1).flags(acquire)]), refused);
            assert_eq!(paired(acquire), refused_at(Line::Annotations, 1));
        }
        for release in [RELEASE_RCPC, RELEASE_RCSC] {
            assert!(read_events(vec![amo(0, X, 0, 1).flags(release)]).is_ok());
            for reader in [load(0, X, 0), lr(0, X, 0)] {
                let refused = refused_at(Line::Annotations, 0);
                assert_eq!(read_events(vec![reader.flags(release)]), refused);
            }
        }
    }

    #[test]
    fn an_amo_has_neither_both_acquires_nor_both_releases() {
        for both in [ACQUIRES, RELEASES, ACQUIRES | RELEASE_RCPC, RELEASES | ACQUIRE_RCSC] {
            let read = read_events(vec![amo(0, X, 0, 1).flags(both)]);
            assert_eq!(read, refused_at(Line::Annotations, 0));
        }
    }

    #[test]
    fn a_control_bit_is_kept_by_later_memory_events_but_not_by_fences() {
        let first = vec![load(0, X, 0), load(0, Y, 0).control_from(0), fence(0, FULL)];
        let without = [first.as_slice(), &[store(0, Y, 1)]].concat();
        let with = [first.as_slice(), &[store(0, Y, 1).control_from(0)]].concat();
        assert_eq!(read_events(without), refused_at(Line::Dependencies, 1));
        assert!(read_events(with).is_ok());
    }

    #[test]
    fn an_sc_pairs_with_the_nearest_lr() {
        let (lr_x, sc_x) = (lr(0, X, 0), sc(0, X, 1));
        let pairs = table(vec![lr_x.clone(), lr_x.clone(), sc_x.clone()]);
        assert_eq!(pairs.paired_lr(2), Some(1));
        let twice = vec![lr_x, sc_x.clone(), sc_x.clone()];
        assert_eq!(read_events(twice), refused_at(Line::Pairing, 2));
        assert_eq!(read_events(vec![sc_x]), refused_at(Line::Pairing, 0));
    }

    #[test]
    fn fences_alone_refuse_by_11() {
        assert_eq!(read_events(vec![fence(0, FULL), fence_tso(0)]), refused(Line::NoMemoryEvent));
    }
}
