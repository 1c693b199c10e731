//! The stored stream of `readings`: valid tables, and breaches alone and together.

use super::breaches::{base_block, breaches, Breach};
use super::damage::{changed, operation_byte};
use super::edition_two::readings_in_two;
use super::kinds::{control_clauses, each_byte, fields_out_of_range};
use super::models::model_readings;
use super::operations::operation_edges;
use super::prng::Prng;
use super::random::{any_table, random_table};
use super::unused::{stated_ends, unused_cases, unused_in_two, used_cases, used_in_two};
use crate::encode::{encode, encode_in, seal};
use crate::layout::one::{field::*, *};
use crate::layout::*;
use crate::litmus::{self, *};
use crate::stream::push_frame;
use crate::table::{Event, Line, Table, ALL_FLAGS, PR, SW};
use std::cmp::Ordering;

const SEED: u64 = 1;
const RANDOM_TABLES: usize = 100;
const DAMAGED_TABLES: usize = 60;
const RANDOM_BLOCKS: usize = 12;
/// How many breaches of later lines each breach is joined with.
const LATER_BREACHES: usize = 2;
const LONGEST_FRAME: usize = 1100;

pub fn make_readings() -> Vec<u8> {
    let mut prng = Prng::new(SEED);
    let families = [
        litmus::all().iter().map(|(_, test)| encode(test)).collect(),
        shapes(&mut prng),
        annotations(),
        operation_edges().iter().map(encode).collect(),
        dependencies(),
        pairings(),
        limits(&mut prng),
        lengths(),
        checks(),
        single_breaches(),
        joined_breaches(&mut prng),
        breaches_of_one_line(),
        breaches_of_two_records(),
        first_lines_and_later_ones(&mut prng),
        fences_only(),
        (0..RANDOM_TABLES).map(|_| encode(&any_table(&mut prng))).collect(),
        (0..DAMAGED_TABLES).map(|number| damaged_table(&mut prng, number)).collect(),
        (0..RANDOM_BLOCKS).map(|number| random_block(&mut prng, number)).collect(),
        each_byte(),
        fields_out_of_range(),
        control_clauses().iter().map(encode).collect(),
        readings_in_two(),
        model_readings(&mut prng),
        unused_locations(),
    ];
    let mut stream = Vec::new();
    for frame in families.concat() {
        push_frame(&mut stream, &frame);
    }
    stream
}

/// The base with breaches applied one after the other.
fn broken(breaches: &[Breach]) -> Vec<u8> {
    let mut block = base_block();
    for breach in breaches {
        breach.apply(&mut block);
    }
    block
}

/// Every number of harts, with every number of locations, and every number of events.
fn shapes(prng: &mut Prng) -> Vec<Vec<u8>> {
    let mut frames = vec![base_block()];
    for harts in 1..=MAX_HARTS {
        for locations in 1..=MAX_LOCATIONS {
            let events = 1 + frames.len() % MAX_EVENTS;
            frames.push(encode(&random_table(prng, harts, locations, events)));
        }
    }
    frames
}

/// Every kind of access with every flags, lawful or not, and fences with every flags.
fn annotations() -> Vec<Vec<u8>> {
    let mut frames = Vec::new();
    for flags in 0..=ALL_FLAGS {
        let accesses = [load(0, X, 0), store(0, X, 1), amo(0, X, 0, 1), lr(0, X, 0)];
        for access in accesses {
            frames.push(encode(&table(vec![access.flags(flags)])));
        }
        frames.push(encode(&table(vec![lr(0, X, 0), sc(0, X, 1).flags(flags)])));
        frames.push(encode(&table(vec![fence(0, flags), load(0, X, 0)])));
    }
    frames
}

/// Each kind that may be depended on, with each mask; then masks that need more.
fn dependencies() -> Vec<Vec<u8>> {
    let mut tables = Vec::new();
    let sources = [load(0, X, 0), amo(0, X, 0, 1), lr(0, X, 0)];
    for source in sources {
        tables.push(table(vec![source.clone(), load(0, Y, 0).address_from(0)]));
        tables.push(table(vec![source.clone(), store(0, Y, 1).data_from(0)]));
        tables.push(table(vec![source, store(0, Y, 1).control_from(0)]));
    }
    // What an SC hands on is its success.
    let pair = [lr(0, X, 0), sc(0, X, 1)];
    for dependent in
        [load(0, Y, 0).address_from(1), amo(0, Y, 0, 2).data_from(1), load(0, Y, 0).control_from(1)]
    {
        tables.push(table([pair.as_slice(), &[dependent]].concat()));
    }
    // A fence of the hart lacks the control bit, and needn't have it.
    let control = |event: Event| event.control_from(0);
    tables.push(table(vec![
        load(0, X, 0),
        control(load(0, Y, 0)),
        fence(0, FULL),
        fence_tso(0),
        control(store(0, Y, 1)),
    ]));
    // A memory event of another hart lacks it.
    tables.push(table(vec![load(0, X, 0), control(load(0, Y, 0)), store(1, Y, 1)]));
    // Event 15 depends on event 14, the highest that can be named.
    let mut events = vec![load(0, X, 0); MAX_EVENTS - 1];
    events.push(store(0, X, 1).address_from(14).data_from(14).control_from(14));
    tables.push(table(events));
    let mut frames: Vec<Vec<u8>> = tables.iter().map(encode).collect();
    // Event 15 depends on itself.
    frames.push(changed(&tables[tables.len() - 1], &[(record_at(15) + DATA + 1, 1 << 7)]));
    frames
}

/// LR and SC on one hart: which pairs line 10 lets pass.
fn pairings() -> Vec<Vec<u8>> {
    let (lr_x, lr_y, sc_x, sc_y) = (lr(0, X, 0), lr(0, Y, 0), sc(0, X, 1), sc(0, Y, 1));
    let tables = [
        vec![lr_x.clone(), sc_x.clone()],
        vec![lr_x.clone(), lr_x.clone(), sc_x.clone()],
        vec![lr_x.clone(), lr_y.clone(), sc_x.clone()],
        vec![lr_y.clone(), lr_x.clone(), sc_x.clone()],
        vec![lr_x.clone(), lr_y.clone(), sc_y.clone(), sc_x.clone()],
        vec![lr_x.clone(), sc_x.clone(), sc_x.clone()],
        vec![lr_x.clone(), sc_x.clone(), lr_x.clone(), sc_x.clone()],
        vec![sc_x.clone()],
        vec![sc_x.clone(), lr_x.clone()],
        vec![load(0, X, 0), sc_x.clone()],
        vec![amo(0, X, 0, 1), sc_x.clone()],
        vec![lr_x.clone(), sc_y.clone()],
        vec![lr(1, X, 0), sc_x.clone()],
        vec![lr_x.clone(), lr(1, Y, 0), sc_x.clone(), sc(1, Y, 1)],
        vec![lr_x.clone(), sc(1, X, 1), sc_x.clone()],
        vec![
            lr_x.clone(),
            fence(0, FULL),
            load(0, Y, 0),
            fence_tso(0),
            store(0, X, 2),
            amo(0, X, 2, 3),
            sc_x.clone(),
        ],
        // A second pair whose SC is the last of sixteen events.
        [vec![lr_x.clone(), sc_x.clone(), lr_y], vec![load(0, X, 0); 12], vec![sc_y]].concat(),
        [vec![lr_x, sc_x.clone()], vec![load(0, X, 0); 13], vec![sc_x]].concat(),
    ];
    tables.map(|events| encode(&table(events))).to_vec()
}

/// Both sides of each limit, with nothing else wrong.
fn limits(prng: &mut Prng) -> Vec<Vec<u8>> {
    let sixteen = table(vec![load(0, X, 0); MAX_EVENTS]);
    let largest = random_table(prng, MAX_HARTS, MAX_LOCATIONS, MAX_EVENTS);
    let all_stated = (0..MAX_LOCATIONS).fold(largest.clone(), |t, l| t.with_final(l, 65535));
    let one = litmus::c10();
    vec![
        encode(&sixteen),
        changed(&sixteen, &[(EVENTS_AT, 17)]),
        changed(&sixteen, &[(EVENTS_AT, 200)]),
        encode(&Table { events: Vec::new(), ..one.clone() }),
        encode(&largest),
        changed(&largest, &[(HARTS_AT, 5)]),
        changed(&largest, &[(LOCATIONS_AT, 9)]),
        changed(&largest, &[(EVENTS_AT, 17)]),
        changed(&largest, &[(record_at(15) + OPERATION, 7)]),
        changed(&largest, &[(record_at(15) + OPERAND, 1)]),
        encode(&one),
        changed(&one, &[(HARTS_AT, 0)]),
        changed(&one, &[(HARTS_AT, 4)]),
        changed(&one, &[(HARTS_AT, 5)]),
        changed(&one, &[(LOCATIONS_AT, 0)]),
        // Eight locations, of which seven are stated, or not.
        changed(&one, &[(LOCATIONS_AT, 8), (STATED_AT, 254)]),
        changed(&one, &[(LOCATIONS_AT, 8)]),
        changed(&one, &[(LOCATIONS_AT, 9)]),
        changed(&one, &[(STATED_AT, 0b10)]),
        changed(&one, &[(STATED_AT, 0b1)]),
        encode(&all_stated),
        // Every byte 255: the largest check there can be.
        all_bytes(255),
        all_bytes(0),
    ]
}

fn all_bytes(value: u8) -> Vec<u8> {
    let mut block = vec![value; BLOCK_LENGTH];
    seal(&mut block);
    block
}

/// Lengths that aren't 512, of a block that is right otherwise.
fn lengths() -> Vec<Vec<u8>> {
    let of_length = |length: usize| {
        let mut bytes = base_block().repeat(3);
        bytes.truncate(length);
        bytes
    };
    [0, 1, 4, 508, 511, 513, 1024, LONGEST_FRAME].map(of_length).to_vec()
}

/// Each byte of the check off by one, and changes that a plain sum wouldn't see.
fn checks() -> Vec<Vec<u8>> {
    let mut frames = Vec::new();
    for at in CHECK_AT..BLOCK_LENGTH {
        for off in [1, u8::MAX] {
            let mut block = base_block();
            block[at] = block[at].wrapping_add(off);
            frames.push(block);
        }
    }
    let mut swapped = base_block();
    swapped.swap(initial_at(0), initial_at(2));
    frames.push(swapped);
    let mut unsealed = base_block();
    unsealed[CHECK_AT..].fill(0);
    frames.push(unsealed);
    frames
}

fn single_breaches() -> Vec<Vec<u8>> {
    breaches().iter().map(|&breach| broken(&[breach])).collect()
}

/// Each breach with breaches of later lines. The later ones are applied first, so that they
/// can't mend the earlier one.
fn joined_breaches(prng: &mut Prng) -> Vec<Vec<u8>> {
    let all = breaches();
    let mut frames = Vec::new();
    for &breach in &all {
        let is_later = |other: &&Breach| other.line as u8 > breach.line as u8;
        let later: Vec<Breach> = all.iter().filter(is_later).copied().collect();
        for _ in 0..LATER_BREACHES.min(later.len()) {
            frames.push(broken(&[*prng.pick(&later), breach]));
        }
    }
    frames
}

/// Two records that break one line: each breach with the next one of its line.
fn breaches_of_one_line() -> Vec<Vec<u8>> {
    let all = breaches();
    let neighbours = all.windows(2).filter(|two| two[0].line == two[1].line);
    let two_records = neighbours.filter(|two| two[0].record != two[1].record);
    two_records.map(broken).collect()
}

/// Two of the lines 7 to 10, the later line's record before, at and after the other's.
pub fn breaches_of_two_records() -> Vec<Vec<u8>> {
    let mut of_records = breaches();
    of_records.retain(|breach| breach.record.is_some());
    let lines: Vec<&[Breach]> = of_records.chunk_by(|a, b| a.line == b.line).collect();
    let mut frames = Vec::new();
    for (number, line) in lines.iter().enumerate() {
        for later in &lines[number + 1..] {
            for placed in [Ordering::Less, Ordering::Equal, Ordering::Greater] {
                let pairs = line.iter().flat_map(|a| later.iter().map(move |b| [*b, *a]));
                let fits = |[b, a]: &[Breach; 2]| b.record.cmp(&a.record) == placed;
                frames.extend(pairs.clone().find(fits).map(|pair| broken(&pair)));
                frames.extend(pairs.rev().find(fits).map(|pair| broken(&pair)));
            }
        }
    }
    frames
}

/// Lines 1 and 2 with a breach of each later line.
fn first_lines_and_later_ones(prng: &mut Prng) -> Vec<Vec<u8>> {
    let all = breaches();
    let mut frames = Vec::new();
    for lines in all.chunk_by(|a, b| a.line == b.line) {
        let block = broken(&[*prng.pick(lines)]);
        frames.push(block[..BLOCK_LENGTH - 1].to_vec());
        frames.push([block.as_slice(), &[0]].concat());
        let mut wrong_check = block;
        wrong_check[CHECK_AT] = wrong_check[CHECK_AT].wrapping_add(1);
        frames.push(wrong_check.clone());
        wrong_check.pop();
        frames.push(wrong_check);
    }
    frames
}

/// Line 11 alone, and with a breach of each earlier line that a fence can break.
fn fences_only() -> Vec<Vec<u8>> {
    let fences = table(vec![fence(0, PR | SW), fence_tso(0)]);
    let mut wrong_check = encode(&fences);
    wrong_check[CHECK_AT] ^= 1;
    vec![
        encode(&table(vec![fence(0, 0)])),
        encode(&table(vec![fence_tso(0)])),
        encode(&table(vec![fence(3, SW); MAX_EVENTS])),
        encode(&fences),
        encode(&fences.clone().with_final(X, 7)),
        encode(&fences)[..BLOCK_LENGTH - 1].to_vec(),
        wrong_check,
        changed(&fences, &[(0, 0)]),
        changed(&fences, &[(EDITION_AT, 3)]),
        changed(&fences, &[(EVENTS_AT, 17)]),
        changed(&fences, &[(EVENTS_AT, 1)]),
        changed(&fences, &[(record_at(1) + FLAGS, 1)]),
        changed(&fences, &[(record_at(0) + CONTROL, 1)]),
        // Flags that would break line 8 on an access.
        changed(&fences, &[(record_at(0) + FLAGS, ALL_FLAGS)]),
        // A memory event past the events.
        changed(&fences, &[(record_at(2) + KIND, 1)]),
    ]
}

/// Line 21 in both editions, alone and with breaches of each earlier line; and tables next to those
/// that it refuses.
fn unused_locations() -> Vec<Vec<u8>> {
    let mut frames = Vec::new();
    for (_, test) in [unused_cases(), used_cases(), stated_ends()].concat() {
        frames.extend(Edition::ALL.map(|edition| encode_in(edition, &test)));
    }
    let wide = [unused_in_two(), used_in_two()].concat();
    frames.extend(wide.iter().map(|(_, test)| encode_in(Edition::Two, test)));
    frames.extend(breaches_before_21());
    // No memory event comes first.
    let fences = Table { locations: 2, ..table(vec![fence(0, FULL), fence_tso(0)]) };
    frames.extend(Edition::ALL.map(|edition| encode_in(edition, &fences)));
    frames
}

/// Each breach of line 21 with some of each earlier line.
pub fn breaches_before_21() -> Vec<Vec<u8>> {
    let (later, earlier): (Vec<Breach>, Vec<Breach>) =
        breaches().into_iter().partition(|breach| breach.line == Line::UnusedLocation);
    let mut frames = Vec::new();
    for line in earlier.chunk_by(|a, b| a.line == b.line) {
        for breach in [line[0], line[line.len() / 2], line[line.len() - 1]] {
            frames.extend(later.iter().map(|unused| broken(&[*unused, breach])));
        }
    }
    frames
}

/// A valid table with one random byte changed: by turns any byte, one of what an AMO does, or
/// one before the tail.
fn damaged_table(prng: &mut Prng, number: usize) -> Vec<u8> {
    let table = any_table(prng);
    let at = match number % 4 {
        0 => prng.below(CHECK_AT),
        1 => operation_byte(Edition::One, prng, &table),
        _ => prng.below(TAIL_ZEROS.start),
    };
    let value = prng.bits() as u8;
    changed(&table, &[(at, value)])
}

/// Random bytes with the right marker; by turns nothing else, the check, the edition, and
/// the counts are right too.
pub fn random_block(prng: &mut Prng, number: usize) -> Vec<u8> {
    let mut block: Vec<u8> = (0..BLOCK_LENGTH).map(|_| prng.bits() as u8).collect();
    block[..MARKER.len()].copy_from_slice(&MARKER);
    let right = number % 4;
    if right >= 2 {
        block[EDITION_AT] = Edition::One as u8;
    }
    if right >= 3 {
        block[HARTS_AT..STATED_AT].copy_from_slice(&[4, 8, 16]);
    }
    if right >= 1 {
        seal(&mut block);
    }
    block
}

#[cfg(test)]
mod tests {
    use super::*;
    use crate::table::{read, Refusal};

    #[test]
    fn the_lowest_record_wins_within_a_line() {
        let all = breaches();
        for two in all.windows(2).filter(|two| two[0].line == two[1].line) {
            let refusal = read(&broken(two)).unwrap_err();
            assert_eq!(refusal.line, two[0].line);
            assert!(refusal.record <= two[0].record.min(two[1].record));
        }
    }

    #[test]
    fn every_line_before_21_is_met_with_it() {
        let refusals: Vec<_> = unused_locations().iter().map(|test| read(test).err()).collect();
        for line in (3..=11).chain([21]) {
            let is_of_line = |refusal: &&Option<Refusal>| {
                refusal.is_some_and(|refusal| refusal.line as u8 == line)
            };
            assert!(refusals.iter().filter(is_of_line).count() >= 2, "{line}");
        }
    }

    #[test]
    fn random_tables_are_read_as_they_were_written() {
        let mut prng = Prng::new(SEED);
        for _ in 0..RANDOM_TABLES {
            let table = any_table(&mut prng);
            assert_eq!(read(&encode(&table)), Ok(table));
        }
    }
}
