//! Reading a test in plain Rust: refusals 1 to 11 and 21, and the table.

use crate::table::*;

const HEADER_ZEROS: std::ops::Range<usize> = 10..16;
const TAIL_ZEROS: std::ops::Range<usize> = 304..508;
const ALL_FLAGS: u8 = 15;

/// The lowest line that refuses a block and, for lines 7 to 10, the lowest record that breaks it.
#[derive(Clone, Copy, Debug, PartialEq)]
pub struct Refusal {
    pub line: u8,
    pub record: Option<usize>,
}

const BY_LENGTH: Refusal = Refusal { line: 1, record: None };

pub fn refuse_if(broken: bool, line: u8) -> Result<(), Refusal> {
    if broken {
        return Err(Refusal { line, record: None });
    }
    Ok(())
}

fn refuse_at(record: Option<usize>, line: u8) -> Result<(), Refusal> {
    if record.is_some() {
        return Err(Refusal { line, record });
    }
    Ok(())
}

/// Why a test of either edition is refused.
pub fn refusal(test: &[u8]) -> Option<Refusal> {
    match test.get(EDITION_AT) {
        Some(&EDITION_TWO) => read_two(test).err(),
        _ => read(test).err(),
    }
}

/// Reads a test of edition 1.
pub fn read(test: &[u8]) -> Result<Table, Refusal> {
    let block: &[u8; BLOCK] = test.first_chunk().ok_or(BY_LENGTH)?;
    refuse_first(block, EDITION)?;
    refuse_if(test.len() != BLOCK, 1)?;
    refuse_if(!is_in_range(block, EVENTS), 5)?;
    refuse_if(!has_zeros(block) || !has_zero_records(block), 6)?;
    let t = decode(block);
    refuse_events(&t.events[..t.count], block)?;
    Ok(t)
}

/// Reads a test of edition 2.
pub fn read_two(test: &[u8]) -> Result<TableTwo, Refusal> {
    let block: &[u8; BLOCK] = test.first_chunk().ok_or(BY_LENGTH)?;
    refuse_first(block, EDITION_TWO)?;
    let test: &[u8; TEST_TWO] = test.try_into().map_err(|_| BY_LENGTH)?;
    refuse_if(test[BLOCK..].chunks(BLOCK).any(is_check_wrong), 2)?;
    refuse_if(!is_in_range(block, EVENTS_TWO), 5)?;
    refuse_if(!has_zeros(block) || !has_zeros_two(test), 6)?;
    let t = decode_two(test);
    refuse_events(&t.events[..t.count], block)?;
    Ok(t)
}

/// Lines 2 to 4, of the first block of a test that is to be of the edition given.
fn refuse_first(block: &[u8; BLOCK], edition: u8) -> Result<(), Refusal> {
    refuse_if(is_check_wrong(block), 2)?;
    refuse_if(!block.starts_with(&MARKER), 3)?;
    refuse_if(block[EDITION_AT] != edition, 4)
}

fn is_check_wrong(block: &[u8]) -> bool {
    block[CHECK_AT..] != check(block).to_le_bytes()
}

/// Lines 7 to 11 and 21.
fn refuse_events<M: Mask>(events: &[Event<M>], block: &[u8; BLOCK]) -> Result<(), Refusal> {
    let (harts, locations) = (block[HARTS_AT], block[LOCATIONS_AT]);
    refuse_last(events, events.iter().position(|e| form_broken(e, harts, locations) || operation_broken(e)))?;
    refuse_unused(events, locations, block[STATED_AT])
}

/// Line 21: a location that no memory event touches, and that isn't among the stated ones. All of these are in the test.
pub fn refuse_unused<M: Mask>(events: &[Event<M>], locations: u8, stated: u8) -> Result<(), Refusal> {
    let memory = events.iter().filter(|e| e.is_memory());
    let used = memory.fold(u16::from(stated), |used, e| used | 1 << e.location);
    refuse_if(used + 1 != 1 << locations, 21)
}

/// Lines 7 to 11, where line 7 is broken by the record given.
pub fn refuse_last<M: Mask>(events: &[Event<M>], record: Option<usize>) -> Result<(), Refusal> {
    refuse_at(record, 7)?;
    refuse_at(events.iter().position(annotations_broken), 8)?;
    refuse_at(dependencies_broken(events), 9)?;
    refuse_at(pairing_broken(events), 10)?;
    refuse_if(!events.iter().any(Event::is_memory), 11)
}

fn is_in_range(block: &[u8; BLOCK], events: usize) -> bool {
    let within = |at: usize, most: usize| (1..=most).contains(&usize::from(block[at]));
    within(HARTS_AT, HARTS)
        && within(LOCATIONS_AT, LOCATIONS)
        && within(EVENTS_AT, events)
        && u32::from(block[STATED_AT]) >> block[LOCATIONS_AT] == 0
        && block[MODEL_AT] <= RVTSO
}

/// All bytes are looked at, which is faster than to stop at the first that isn't zero.
fn is_zero(bytes: &[u8]) -> bool {
    bytes.iter().fold(0, |seen, byte| seen | byte) == 0
}

/// Of the first block, whatever the edition: unused bytes, and values of no location or not stated.
fn has_zeros(block: &[u8; BLOCK]) -> bool {
    let locations = usize::from(block[LOCATIONS_AT]);
    let is_stated = |x: usize| block[STATED_AT] >> x & 1 == 1;
    is_zero(&block[HEADER_ZEROS])
        && is_zero(&block[TAIL_ZEROS])
        && is_zero(&block[INITIAL_AT + 2 * locations..RECORDS_AT])
        && (0..LOCATIONS).all(|x| is_stated(x) || number(block, FINALS_AT + 2 * x) == 0)
}

/// The records past the events of edition 1.
fn has_zero_records(block: &[u8; BLOCK]) -> bool {
    is_zero(&block[RECORDS_AT + RECORD * usize::from(block[EVENTS_AT])..FINALS_AT])
}

/// Of edition 2: where edition 1 has its records; the end of each record, whole ones past the events, and what follows them.
fn has_zeros_two(test: &[u8; TEST_TWO]) -> bool {
    let count = usize::from(test[EVENTS_AT]);
    let is_used = |k: usize| k < count;
    let ends = records_two(test).enumerate().all(|(k, record)| {
        let zeros = if is_used(k) { &record[RECORD_END..] } else { record };
        is_zero(zeros)
    });
    let mut tails = test[BLOCK..].chunks(BLOCK).map(|block| &block[RECORDS_A_BLOCK * RECORD_TWO..CHECK_AT]);
    is_zero(&test[RECORDS_AT..FINALS_AT]) && ends && tails.all(is_zero)
}

fn records_two(test: &[u8; TEST_TWO]) -> impl Iterator<Item = &[u8]> {
    test[BLOCK..].chunks(BLOCK).flat_map(|block| block.chunks(RECORD_TWO).take(RECORDS_A_BLOCK))
}

fn number(bytes: &[u8], at: usize) -> u16 {
    u16::from_le_bytes([bytes[at], bytes[at + 1]])
}

fn long(bytes: &[u8], at: usize) -> u32 {
    u32::from(number(bytes, at)) | u32::from(number(bytes, at + 2)) << u16::BITS
}

fn decode_event(record: &[u8]) -> Event {
    let value = |k: usize| number(record, 4 + 2 * k);
    Event {
        kind: record[0],
        hart: record[1],
        location: record[2],
        flags: record[3],
        addr: value(0),
        data: value(1),
        ctrl: value(2),
        read: value(3),
        written: value(4),
        operation: record[OPERATION_AT],
        operand: record[OPERAND_AT],
    }
}

fn decode_event_two(record: &[u8]) -> Event<u32> {
    Event {
        kind: record[0],
        hart: record[1],
        location: record[2],
        flags: record[3],
        addr: long(record, 4),
        data: long(record, 8),
        ctrl: long(record, 12),
        read: number(record, 16),
        written: number(record, 18),
        operation: record[20],
        operand: record[21],
    }
}

/// The table without its events.
fn decode_header<M: Mask, const N: usize>(block: &[u8]) -> Table<M, N> {
    Table {
        count: block[EVENTS_AT].into(),
        locations: block[LOCATIONS_AT].into(),
        stated: block[STATED_AT],
        model: block[MODEL_AT],
        initial: std::array::from_fn(|x| number(block, INITIAL_AT + 2 * x)),
        finals: std::array::from_fn(|x| number(block, FINALS_AT + 2 * x)),
        ..Table::default()
    }
}

fn decode(block: &[u8; BLOCK]) -> Table {
    let mut t: Table = decode_header(block);
    for (e, record) in t.events[..t.count].iter_mut().zip(block[RECORDS_AT..].chunks(RECORD)) {
        *e = decode_event(record);
    }
    t
}

fn decode_two(test: &[u8; TEST_TWO]) -> TableTwo {
    let mut t: TableTwo = decode_header(test);
    for (e, record) in t.events[..t.count].iter_mut().zip(records_two(test)) {
        *e = decode_event_two(record);
    }
    t
}

/// What line 7 says of blocks and of texts.
pub fn form_broken<M: Mask>(e: &Event<M>, harts: u8, locations: u8) -> bool {
    let has_place = e.location != 0 || e.addr | e.data | e.ctrl != M::default();
    !(LOAD..=FENCE_TSO).contains(&e.kind)
        || e.hart >= harts
        || e.location >= locations
        || e.flags > ALL_FLAGS
        || !e.reads() && e.read != 0
        || !e.writes() && e.written != 0
        || !e.is_memory() && has_place
        || e.kind == FENCE_TSO && e.flags != 0
}

/// What an AMO's operation makes of the value read; nothing where there is no such operation.
pub fn applied(operation: u8, read: u16, operand: u8) -> Option<u16> {
    let operand = u16::from(operand);
    Some(match operation {
        ADD => read.wrapping_add(operand),
        AND => read & operand,
        OR => read | operand,
        XOR => read ^ operand,
        LARGER => read.max(operand),
        SMALLER => read.min(operand),
        _ => return None,
    })
}

fn operation_broken<M>(e: &Event<M>) -> bool {
    if e.operation == NO_OPERATION {
        return e.operand != 0;
    }
    e.kind != AMO || applied(e.operation, e.read, e.operand) != Some(e.written)
}

fn annotations_broken<M>(e: &Event<M>) -> bool {
    let (acquire, release) = (e.flags & ACQUIRE, e.flags & RELEASE);
    e.is_memory()
        && (acquire == ACQUIRE
            || release == RELEASE
            || !e.writes() && release != 0 && acquire == 0
            || !e.reads() && acquire != 0 && release == 0)
}

/// Whether what follows may depend on the event.
fn has_result<M>(e: &Event<M>) -> bool {
    e.reads() || e.kind == SC
}

fn dependencies_broken<M: Mask>(events: &[Event<M>]) -> Option<usize> {
    // For each hart, the control bits that all later memory events have; then the events that may be depended on.
    let mut kept = [!M::default(); HARTS];
    let mut lacking = 0;
    for (k, e) in events.iter().enumerate().rev() {
        let kept = &mut kept[usize::from(e.hart)];
        lacking |= u32::from(e.ctrl & !*kept != M::default()) << k;
        if e.is_memory() {
            *kept = *kept & e.ctrl;
        }
    }
    let mut sources = [M::default(); HARTS];
    events.iter().enumerate().position(|(k, e)| {
        let sources = &mut sources[usize::from(e.hart)];
        let names_wrongly = (e.addr | e.data | e.ctrl) & !*sources != M::default();
        if has_result(e) {
            *sources = *sources | M::of(k);
        }
        names_wrongly || e.data != M::default() && !e.writes() || lacking >> k & 1 == 1
    })
}

fn pairing_broken<M>(events: &[Event<M>]) -> Option<usize> {
    // For each hart, the location of its latest LR, unless an SC followed.
    let mut open = [None; HARTS];
    events.iter().position(|e| {
        let open = &mut open[usize::from(e.hart)];
        match e.kind {
            LR => {
                *open = Some(e.location);
                false
            }
            SC => open.take() != Some(e.location),
            _ => false,
        }
    })
}

/// A table has the fields of the independent program's.
#[cfg(test)]
pub fn assert_same<M: Mask + Into<u32>, const N: usize>(t: &Table<M, N>, other: &oracle::table::Table) {
    assert_eq!((t.count, t.locations, t.stated), (other.events.len(), other.locations, other.stated));
    assert_eq!(t.model, other.model as u8);
    assert_eq!((t.initial, t.finals), (other.initial, other.finals));
    for (e, f) in t.events.iter().zip(&other.events) {
        let bytes = (f.kind as u8, f.hart as u8, f.location as u8, f.flags);
        assert_eq!((e.kind, e.hart, e.location, e.flags), bytes);
        assert_eq!([e.addr, e.data, e.ctrl].map(M::into), [f.address, f.data, f.control]);
        assert_eq!([e.read, e.written], [f.read, f.written]);
        assert_eq!([e.operation, e.operand], [f.operation as u8, f.operand]);
    }
}

#[cfg(test)]
mod tests {
    use super::*;
    use crate::shapes;
    use oracle::generate::damage::{damaged, damaged_in};
    use oracle::generate::prng::Prng;
    use oracle::generate::random::{any_table, wide_table};
    use oracle::generate::readings::make_readings;
    use oracle::layout::Edition;
    use oracle::stream::Stream;

    const DAMAGED_BLOCKS: usize = 50_000;

    /// What both give: none if the table is good and the same, otherwise the refusal's line.
    fn agreed(test: &[u8]) -> Option<u8> {
        match test.get(EDITION_AT) {
            Some(&EDITION_TWO) => agreed_with(read_two(test), test),
            _ => agreed_with(read(test), test),
        }
    }

    fn agreed_with<M: Mask + Into<u32>, const N: usize>(
        reading: Result<Table<M, N>, Refusal>,
        test: &[u8],
    ) -> Option<u8> {
        assert_eq!(refusal(test), reading.as_ref().err().copied());
        match (reading, oracle::table::read(test)) {
            (Ok(t), Ok(other)) => {
                assert_same(&t, &other);
                None
            }
            (Err(refusal), Err(other)) => {
                assert_eq!(refusal, Refusal { line: other.line as u8, record: other.record });
                Some(refusal.line)
            }
            (one, other) => panic!("{:?}, but {other:?}", one.err()),
        }
    }

    #[test]
    fn the_stored_readings_are_those_of_the_independent_program() {
        let readings = make_readings();
        let mut stream = Stream::new(&readings);
        while !stream.is_empty() {
            agreed(stream.frame().expect("the stream is whole"));
        }
    }

    #[test]
    fn damaged_tables_are_read_as_by_the_independent_program() {
        let mut prng = Prng::new(1);
        let mut lines: Vec<u8> = Vec::new();
        for _ in 0..DAMAGED_BLOCKS {
            let table = any_table(&mut prng);
            lines.extend(agreed(&damaged(&mut prng, &table)));
        }
        lines.sort();
        lines.dedup();
        // By 1 where the edition becomes 2.
        assert_eq!(lines, [1, 2, 3, 4, 5, 6, 7, 8, 9, 10, 11, 21]);
    }

    #[test]
    fn damaged_tests_of_edition_2_are_read_as_by_the_independent_program() {
        let mut prng = Prng::new(2);
        let mut lines: Vec<u8> = Vec::new();
        for number in 0..DAMAGED_BLOCKS {
            let table = if number % 2 == 0 { any_table(&mut prng) } else { wide_table(&mut prng) };
            lines.extend(agreed(&damaged_in(Edition::Two, &mut prng, &table)));
        }
        lines.sort();
        lines.dedup();
        assert_eq!(lines, [1, 2, 3, 4, 5, 6, 7, 8, 9, 10, 11, 21]);
    }

    #[test]
    fn the_timed_tests_are_good() {
        let timed = shapes::timed().into_iter().map(|(_, table)| table);
        for table in timed.chain(shapes::small()).chain(shapes::message_passings()).chain([shapes::increments()]) {
            assert_eq!(agreed(&table.encode()), None);
        }
        for table in shapes::of_two() {
            assert_eq!(agreed(&table.encode()), None);
        }
    }
}
