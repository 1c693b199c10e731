//! Tests of edition 2 for the stored readings: good ones, each refusal, and which comes first.

use super::breaches::{base, base_block, breaches, Breach};
use super::damage::{changed_in, damaged_in, Change};
use super::prng::Prng;
use super::random::{random_table, wide_table};
use super::readings::breaches_of_two_records;
use crate::encode::{encode, encode_in, encode_raw, seal};
use crate::layout::two::{field::*, *};
use crate::layout::*;
use crate::litmus::{self, *};
use crate::raw::RawTable;
use crate::record::RawEvent;
use crate::table::{read, Event, Line, Table};

const SEED: u64 = 5;
const DAMAGED_TABLES: usize = 60;
/// As many fences before a table's events put them into the third block.
const FENCES: usize = 15;

pub fn readings_in_two() -> Vec<Vec<u8>> {
    let prng = &mut Prng::new(SEED);
    let families = [
        litmus::all().iter().map(|(_, test)| encode_in(Edition::Two, test)).collect(),
        shapes(prng),
        lengths(),
        checks(),
        limits(),
        zeros(),
        record_breaches(),
        breaches_of_two_records().iter().map(|block| in_two(block, FENCES)).collect(),
        first_lines_and_later_ones(),
        masks(),
        across_blocks().iter().map(|test| encode_in(Edition::Two, test)).collect(),
        (0..DAMAGED_TABLES).map(|_| damaged_table(prng)).collect(),
    ];
    families.concat()
}

/// For each of the lines 1 to 11 and 21 a test that it refuses: with edition 2 in its header, or for
/// line 4 as long as such a test.
pub fn refused_by_each_line() -> Vec<Vec<u8>> {
    let tests = readings_in_two();
    let is_of_two = |test: &&Vec<u8>| test.get(EDITION_AT) == Some(&(Edition::Two as u8));
    let is_as_long = |test: &&Vec<u8>| test.len() == LONGEST_TEST;
    let refused_by = |line: u8| {
        let is_refused = |test: &&Vec<u8>| read(test).is_err_and(|r| r.line as u8 == line);
        let mut refused = tests.iter().filter(is_refused);
        let first = refused.clone().find(is_of_two);
        first.or_else(|| refused.find(is_as_long)).cloned()
    };
    let lines = Line::Length as u8..=Line::NoMemoryEvent as u8;
    lines.chain([Line::UnusedLocation as u8]).filter_map(refused_by).collect()
}

/// A table's test with bytes changed, and checks that are right.
fn changed(table: &Table, changes: &[Change]) -> Vec<u8> {
    changed_in(Edition::Two, table, changes)
}

/// As many loads as given; all they need is one hart and one location.
fn loads(count: usize) -> Table {
    table(vec![load(0, X, 0); count])
}

/// Every number of events, with numbers of harts and locations that go through all of theirs.
fn shapes(prng: &mut Prng) -> Vec<Vec<u8>> {
    let shape = |events: usize| {
        let (harts, locations) = (1 + events % MAX_HARTS, 1 + events % MAX_LOCATIONS);
        encode_in(Edition::Two, &random_table(prng, harts, locations, events))
    };
    (1..=MAX_EVENTS).map(shape).collect()
}

/// The fields of a block of edition 1 as a test of edition 2, its events behind some fences.
fn in_two(block: &[u8], fences: usize) -> Vec<u8> {
    let mut table = RawTable::of_block(block);
    for event in &mut table.events {
        for mask in [&mut event.address, &mut event.data, &mut event.control] {
            *mask <<= fences;
        }
    }
    table.events.rotate_right(fences);
    table.events[..fences].fill(RawEvent::from(&fence(0, 0)));
    table.count += fences as u8;
    encode_raw(Edition::Two, &table)
}

/// Each length of interest, behind first blocks of both editions, good and refused by 2, 3 and 4.
fn lengths() -> Vec<Vec<u8>> {
    let mut firsts = Vec::new();
    for good in [encode(&loads(2)).repeat(4), encode_in(Edition::Two, &loads(17)).repeat(2)] {
        let with = |at: usize, value: u8| {
            let mut bytes = good.clone();
            bytes[at] = value;
            bytes
        };
        let sealed = |mut bytes: Vec<u8>| {
            seal(&mut bytes);
            bytes
        };
        let wrong_check = with(CHECK_AT, good[CHECK_AT] ^ 1);
        firsts.extend([wrong_check, sealed(with(0, 0)), sealed(with(EDITION_AT, 3)), good]);
    }
    let lengths = [0, 511, 512, 513, 1024, 1535, 1536, 1537];
    firsts.iter().flat_map(|bytes| lengths.map(|length| bytes[..length].to_vec())).collect()
}

/// The check of each later block wrong alone, byte by byte; of both; and changes that only the
/// check shows.
fn checks() -> Vec<Vec<u8>> {
    let good = encode_in(Edition::Two, &loads(MAX_EVENTS));
    let mut frames = Vec::new();
    for block in 1..BLOCKS {
        for at in CHECK_AT..BLOCK_LENGTH {
            for off in [1, u8::MAX] {
                let mut test = good.clone();
                test[BLOCK_LENGTH * block + at] = good[BLOCK_LENGTH * block + at].wrapping_add(off);
                frames.push(test);
            }
        }
        let mut changed = good.clone();
        changed[BLOCK_LENGTH * block + READ] ^= 1;
        frames.push(changed);
    }
    let mut both = good.clone();
    both[BLOCK_LENGTH + CHECK_AT] ^= 1;
    both[2 * BLOCK_LENGTH + CHECK_AT] ^= 1;
    let [header, second, third] = [0, 1, 2].map(|k| &good[BLOCK_LENGTH * k..][..BLOCK_LENGTH]);
    frames.extend([both, [header, third, second].concat(), [header, header, header].concat()]);
    frames
}

/// Both sides of each limit: 16 and 17, 30 and 31 events; harts, locations and stated values.
fn limits() -> Vec<Vec<u8>> {
    let full = loads(MAX_EVENTS);
    let counts = [1, 15, 16, 17, 29, 30].map(|count| encode_in(Edition::Two, &loads(count)));
    let of_one = [16, 17, 29, 30, 31].map(|count| {
        let sixteen = loads(one::MAX_EVENTS);
        changed_in(Edition::One, &sixteen, &[(EVENTS_AT, count)])
    });
    let stated = [0, 1, 15, 16, 17, 29, 31, 32, 200, 255].map(|count| (EVENTS_AT, count));
    let numbers = [(HARTS_AT, 0), (HARTS_AT, 4), (HARTS_AT, 5), (HARTS_AT, 255)];
    // Eight locations, of which seven are stated, or not.
    let eight = changed(&full, &[(LOCATIONS_AT, 8), (STATED_AT, 254)]);
    let locations = [(LOCATIONS_AT, 0), (LOCATIONS_AT, 8), (LOCATIONS_AT, 9), (LOCATIONS_AT, 255)];
    let masks = [(STATED_AT, 0b1), (STATED_AT, 0b10), (STATED_AT, 255)];
    let changes = [&stated[..], &numbers, &locations, &masks].concat();
    let changed = changes.into_iter().map(|change| changed(&full, &[change]));
    counts.into_iter().chain(of_one).chain([eight]).chain(changed).collect()
}

/// Each run of bytes that are zero, hit at its first and at its last byte. The table has two
/// events, two locations and one final value; then the ten zeros of each of thirty records.
fn zeros() -> Vec<Vec<u8>> {
    let few = table(vec![load(0, X, 0), load(0, Y, 0)]).with_final(X, 7);
    let mut runs = vec![
        HEADER_ZEROS,
        initial_at(2)..initial_at(MAX_LOCATIONS),
        RECORDS_AREA,
        final_at(1)..final_at(MAX_LOCATIONS),
        TAIL_ZEROS,
    ];
    let zeros_of = |block: usize| {
        let at = BLOCK_LENGTH * block;
        at + BLOCK_ZEROS.start..at + BLOCK_ZEROS.end
    };
    runs.extend((1..BLOCKS).map(zeros_of));
    runs.extend((few.events.len()..MAX_EVENTS).map(|event| Edition::Two.record(event)));
    let ends = runs.into_iter().flat_map(|run| [run.start, run.end - 1]);
    let past = ends.map(|at| changed(&few, &[(at, 1 << (at % 8))]));
    let tens = (0..MAX_EVENTS).flat_map(|event| {
        [ZEROS.start, ZEROS.end - 1]
            .map(|zero| changed(&loads(MAX_EVENTS), &[(record_at(event) + zero, 1)]))
    });
    past.chain(tens).collect()
}

/// The base's breaches of the lines 7 to 10 and 21, by turns in the second block and in the third.
fn record_breaches() -> Vec<Vec<u8>> {
    let mut of_records = breaches();
    of_records.retain(|breach| breach.line as u8 >= Line::Fields as u8);
    let fences = [0, FENCES].into_iter().cycle();
    of_records.iter().zip(fences).map(|(breach, fences)| in_two(&broken(breach), fences)).collect()
}

fn broken(breach: &Breach) -> Vec<u8> {
    let mut block = base_block();
    breach.apply(&mut block);
    block
}

/// Lines 2 to 6 with breaches of later lines, and a length that isn't right. What breaks an
/// earlier line is applied last; the checks that are to be wrong are, after all else.
fn first_lines_and_later_ones() -> Vec<Vec<u8>> {
    let mut frames = Vec::new();
    for later in [Line::Fields, Line::Pairing] {
        let is_of_line = |breach: &Breach| breach.line == later;
        let breach = breaches().into_iter().find(is_of_line).expect("each line has a breach");
        let test = in_two(&broken(&breach), FENCES);
        for change in [(0, 0), (EDITION_AT, 3), (HARTS_AT, 9), (HEADER_ZEROS.start, 1)] {
            frames.extend(with_wrong_checks(&test, change));
        }
    }
    frames
}

/// A test with a byte of its header changed: with good checks, with each check wrong, and a byte
/// longer with a wrong check in its last block.
fn with_wrong_checks(test: &[u8], (at, value): Change) -> Vec<Vec<u8>> {
    let mut good = test.to_vec();
    good[at] = value;
    seal(&mut good);
    let wrong = |block: usize| {
        let mut wrong = good.clone();
        wrong[BLOCK_LENGTH * block + CHECK_AT] ^= 1;
        wrong
    };
    let longer = [wrong(2), vec![0]].concat();
    vec![good.clone(), wrong(0), wrong(1), wrong(2), longer]
}

/// Each mask of the last of thirty events, with bits that name an event before it, itself, and no
/// event; and of an event that others follow.
fn masks() -> Vec<Vec<u8>> {
    let mut events = vec![load(0, X, 0); MAX_EVENTS - 1];
    events.push(store(0, X, 1));
    let last = table(events);
    let mut frames = Vec::new();
    for mask in [ADDRESS, DATA, CONTROL] {
        for bit in [0, 15, 16, 28, 29, 30, 31] {
            let at = record_at(MAX_EVENTS - 1) + mask + bit / 8;
            frames.push(changed(&last, &[(at, 1 << (bit % 8))]));
        }
    }
    for bit in [16, 17, 29, 30, 31] {
        let at = record_at(16) + ADDRESS + bit / 8;
        frames.push(changed(&loads(17), &[(at, 1 << (bit % 8))]));
    }
    frames
}

/// What a line looks at stands in both of the later blocks: dependencies, pairs and control masks;
/// and fences alone.
fn across_blocks() -> Vec<Table> {
    let behind = |first: Event, others: usize, last: Event| {
        table([vec![first], vec![load(0, Y, 0); others], vec![last]].concat())
    };
    let (lr_x, sc_x) = (lr(0, X, 0), sc(0, X, 1));
    let control = |event: Event| event.control_from(0);
    let kept = vec![load(0, X, 0), control(load(0, Y, 0)), fence(0, FULL), fence_tso(0)];
    let with_control = [kept.clone(), vec![control(load(0, Y, 0)); 15]].concat();
    vec![
        behind(load(0, X, 0), 14, store(0, X, 1).address_from(14).data_from(0)),
        behind(load(0, X, 0), 28, amo(0, X, 0, 1).address_from(28).data_from(15).control_from(0)),
        behind(load(0, X, 0), 15, store(0, X, 1).data_from(17)),
        behind(lr_x.clone(), 14, sc_x.clone()),
        behind(lr_x.clone(), 28, sc_x.clone()),
        behind(lr(0, Y, 0), 20, sc_x.clone()),
        behind(lr(1, X, 0), 20, sc_x.clone()),
        table([vec![lr_x, sc_x.clone()], vec![load(0, X, 0); 20], vec![sc_x]].concat()),
        table(with_control.clone()),
        table([with_control, vec![load(0, Y, 0)]].concat()),
        table([kept, vec![control(store(0, Y, 1)); 20], vec![fence(0, 0); 5]].concat()),
        table(vec![fence(3, FULL); MAX_EVENTS]),
        table([vec![fence(0, 0); 16], vec![fence_tso(1)]].concat()),
        base(),
    ]
}

fn damaged_table(prng: &mut Prng) -> Vec<u8> {
    let table = wide_table(prng);
    damaged_in(Edition::Two, prng, &table)
}

#[cfg(test)]
mod tests {
    use super::*;
    use crate::table::Refusal;

    #[test]
    fn each_line_is_met() {
        let readings: Vec<_> = readings_in_two().iter().map(|test| read(test)).collect();
        let lines = readings.iter().filter_map(|reading| reading.as_ref().err());
        let met: Vec<u8> = lines.map(|refusal| refusal.line as u8).collect();
        for line in (1..=11).chain([21]) {
            assert!(met.iter().filter(|&&number| number == line).count() >= 2, "line {line}");
        }
        assert!(readings.iter().filter(|reading| reading.is_ok()).count() >= 60);
    }

    #[test]
    fn each_breach_breaks_its_line_at_its_record_in_both_of_the_later_blocks() {
        for breach in breaches() {
            let Some(record) = breach.record else { continue };
            for fences in [0, FENCES] {
                let refusal = Refusal { line: breach.line, record: Some(record + fences) };
                assert_eq!(read(&in_two(&broken(&breach), fences)), Err(refusal));
            }
        }
    }

    #[test]
    fn each_run_of_zeros_refuses_by_6() {
        let frames = zeros();
        assert_eq!(frames.len(), 2 * (7 + 28 + 30));
        for test in frames {
            assert_eq!(read(&test), Err(Refusal { line: Line::Zeros, record: None }));
        }
    }

    #[test]
    fn the_bases_events_are_read_in_either_later_block() {
        assert_eq!(read(&in_two(&base_block(), 0)), Ok(base()));
        let behind = read(&in_two(&base_block(), FENCES)).expect("fences change no line");
        assert_eq!(behind.events.len(), FENCES + base().events.len());
    }
}
