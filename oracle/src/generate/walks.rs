//! The stored stream of `walks`.

use super::breaches::{base, base_block, breaches};
use super::calls::*;
use super::cases::atomicity_place_cases;
use super::chains::{chain_cases, chained_table};
use super::decided::decided_cases;
use super::edition_two::refused_by_each_line;
use super::models::tso_tests;
use super::operations::{mixed_operation_cases, operation_cases};
use super::orders::{bytes, linear_extension, state_outcome};
use super::prng::Prng;
use super::random::{random_table, wide_table};
use super::unused::{stated_ends, unused_cases, unused_in_two};
use crate::encode::{encode, encode_fitting, encode_in};
use crate::layout::one::MAX_EVENTS;
use crate::layout::*;
use crate::litmus::{self, *};
use crate::search::{Engine, MAX_ALLOWANCE};
use crate::settled::is_spoiled;
use crate::table::{Model, Table};
use crate::walks::Given;

const SEED: u64 = 3;
/// Random tables, each walked in one way; their memory events are few, so that lists are
/// short.
const RANDOM_TABLES: usize = 560;
/// Tables of any size, of which a walk sees only the first prefixes.
const LARGE_TABLES: usize = 30;
/// Random tables of edition 2 that are chains, each walked in one way, and others.
const RANDOM_CHAINS: usize = 42;
const WIDE_TABLES: usize = 10;
/// Random tables and chains that the second engine walks, each in one way.
const PRUNED_TABLES: usize = 160;
const PRUNED_CHAINS: usize = 24;
/// Random tables and chains of model 1 that each engine walks, each in one way.
const TSO_TABLES: usize = 140;
const TSO_CHAINS: usize = 14;

pub fn make_walks() -> Vec<u8> {
    let prng = &mut Prng::new(SEED);
    let mut calls = Calls::on(Given::Block(Engine::First));
    for (_, test) in [litmus::all(), releasing_amos(), counters()].concat() {
        for way in WAYS {
            lend_and(way, &mut calls, prng, &test);
        }
    }
    for (_, test) in [operation_cases(), mixed_operation_cases()].concat() {
        lend_and(walk_by_witnesses, &mut calls, prng, &test);
    }
    for number in 0..RANDOM_TABLES {
        let table = small_table(prng);
        lend_and(WAYS[number % WAYS.len()], &mut calls, prng, &table);
    }
    for _ in 0..LARGE_TABLES {
        large_table_walk(&mut calls, prng);
    }
    lend(&mut calls, &c2());
    unclean_starts(&mut calls);
    refused_tables(&mut calls, prng);
    for (_, test) in [decided_cases(), atomicity_place_cases()].concat() {
        lend_and(walk_by_witnesses, &mut calls, prng, &test);
    }
    walks_in_two(&mut calls, prng);
    calls.given = Given::Block(Engine::Second);
    walks_of_the_second_engine(&mut calls, prng);
    for engine in Engine::ALL {
        calls.given = Given::Block(engine);
        walks_in_model_1(&mut calls, prng);
        unused_locations(&mut calls, prng);
    }
    calls.stream
}

/// Line 21, alone and with the lines 15, 16 and 17, which come after it; then tests that state where
/// an untouched location ends.
fn unused_locations(calls: &mut Calls, prng: &mut Prng) {
    for (_, test) in unused_cases() {
        for edition in Edition::ALL {
            refused_walk(calls, prng, encode_in(edition, &test), test.memory_events().len());
            refused_start(calls, &[u8::MAX]);
        }
    }
    for (_, test) in unused_in_two() {
        let memory_events = test.memory_events().len();
        refused_walk(calls, prng, encode_in(Edition::Two, &test), memory_events);
        refused_start(calls, &[0, 0]);
    }
    for (_, test) in stated_ends() {
        for way in WAYS {
            lend_and(way, calls, prng, &test);
        }
    }
}

/// Lends a table's test, and makes calls on it in some way.
fn lend_and(way: Way, calls: &mut Calls, prng: &mut Prng, table: &Table) {
    lend(calls, table);
    way(calls, prng, table);
}

fn lend(calls: &mut Calls, table: &Table) {
    calls.lend(encode_fitting(table), table.memory_events().len());
}

/// The second engine on the first one's kinds of tables, in the same ways and from starts about the
/// spoiled ones.
fn walks_of_the_second_engine(calls: &mut Calls, prng: &mut Prng) {
    let ways = [&WAYS[..], &[searches_about_spoiled_starts]].concat();
    for (_, test) in [litmus::all(), releasing_amos(), counters()].concat() {
        for way in &ways {
            lend_and(*way, calls, prng, &test);
        }
    }
    let cases = [operation_cases(), decided_cases(), atomicity_place_cases(), chain_cases()];
    for (_, test) in cases.concat() {
        lend_and(walk_by_witnesses, calls, prng, &test);
        lend_and(searches_about_spoiled_starts, calls, prng, &test);
    }
    for number in 0..PRUNED_TABLES {
        let table = small_table(prng);
        lend_and(ways[number % ways.len()], calls, prng, &table);
    }
    for number in 0..PRUNED_CHAINS {
        let table = chained_table(prng);
        lend_and(ways[number % ways.len()], calls, prng, &table);
    }
    for _ in 0..WIDE_TABLES {
        large_table_walk(calls, prng);
        let table = wide_table(prng);
        first_prefixes(calls, prng, table);
    }
    lend(calls, &c2());
    unclean_starts(calls);
    refused_tables(calls, prng);
    for test in refused_by_each_line() {
        refused_walk(calls, prng, test, MOST_EVENTS);
    }
}

fn walks_in_model_1(calls: &mut Calls, prng: &mut Prng) {
    for (_, test) in tso_tests() {
        lend_and(walk_by_witnesses, calls, prng, &test);
        lend_and(edges_of_the_first_answer, calls, prng, &test);
    }
    for number in 0..TSO_TABLES {
        let table = small_table_in(Model::Rvtso, prng);
        lend_and(WAYS[number % WAYS.len()], calls, prng, &table);
    }
    for number in 0..TSO_CHAINS {
        let table = chained_table(prng).in_model(Model::Rvtso);
        lend_and(WAYS[number % WAYS.len()], calls, prng, &table);
    }
}

/// Tables of more events than edition 1 has room for: chains, whose lists are short, and others, of
/// which a walk sees only the first prefixes. And tests of edition 2 that reading declines.
fn walks_in_two(calls: &mut Calls, prng: &mut Prng) {
    for (_, test) in chain_cases() {
        lend_and(walk_by_witnesses, calls, prng, &test);
        lend_and(edges_of_the_first_answer, calls, prng, &test);
    }
    for number in 0..RANDOM_CHAINS {
        let table = chained_table(prng);
        lend_and(WAYS[number % WAYS.len()], calls, prng, &table);
    }
    for _ in 0..WIDE_TABLES {
        let table = wide_table(prng);
        first_prefixes(calls, prng, table);
    }
    for test in refused_by_each_line() {
        refused_walk(calls, prng, test, MOST_EVENTS);
    }
}

/// Single searches from the first spoiled prefix of an order, which is listed; from the prefix
/// before it; and from its extensions, which aren't listed though they are clean.
fn searches_about_spoiled_starts(calls: &mut Calls, prng: &mut Prng, table: &Table) {
    for _ in 0..SOME_CALLS / 2 {
        let order = linear_extension(prng, table);
        let is_first_spoiled = |&length: &usize| is_spoiled(table, &order[..length]);
        let Some(spoiled) = (1..=order.len()).find(is_first_spoiled) else { continue };
        let order = bytes(&order);
        edges_of_an_answer(calls, &order[..spoiled]);
        calls.search(&order[..spoiled - 1], calls.memory_events, any_allowance(prng));
        for length in [spoiled + 1, order.len()] {
            if length > spoiled && length <= order.len() {
                refused_start(calls, &order[..length]);
            }
        }
    }
}

/// A table of up to sixteen events, walked for some calls.
fn large_table_walk(calls: &mut Calls, prng: &mut Prng) {
    let harts = 1 + prng.below(MAX_HARTS);
    let locations = 1 + prng.below(MAX_LOCATIONS);
    let events = FEW_EVENTS + 1 + prng.below(MAX_EVENTS - FEW_EVENTS);
    let table = random_table(prng, harts, locations, events);
    first_prefixes(calls, prng, table);
}

/// Some calls of a walk on a table that may have many prefixes.
fn first_prefixes(calls: &mut Calls, prng: &mut Prng, mut table: Table) {
    // The first lawful order is likely far off; that of table order is met at once.
    let table_order = table.memory_events();
    state_outcome(&mut table, &table_order);
    lend(calls, &table);
    for _ in 0..SOME_CALLS {
        let buffer_length = any_buffer_length(prng, calls.memory_events);
        let allowance = *prng.pick(&[0, 1, 5, 17, 100, 300, MAX_ALLOWANCE + 1]);
        calls.walk(buffer_length, allowance);
    }
}

/// Walks on bytes that reading declines: every call is refused, and the start stays empty.
fn refused_tables(calls: &mut Calls, prng: &mut Prng) {
    let mut wrong_check = base_block();
    wrong_check[CHECK_AT] ^= 1;
    let mut blocks = vec![Vec::new(), base_block()[1..].to_vec(), wrong_check];
    blocks.push(encode(&table(vec![fence(0, FULL)])));
    for line in breaches().chunk_by(|a, b| a.line == b.line) {
        let mut block = base_block();
        prng.pick(line).apply(&mut block);
        blocks.push(block);
    }
    let memory_events = base().memory_events().len();
    for block in blocks {
        refused_walk(calls, prng, block, memory_events);
    }
}

#[cfg(test)]
mod tests {
    use super::*;
    use crate::candidates::LEND;
    use crate::stream::{Malformed, Stream};
    use crate::table::{read, Line};
    use crate::walks::{PRUNED_SEARCH, SEARCH};

    /// The single calls of the second engine: each with its test, start, buffer length and allowance.
    type Single<'a> = (&'a [u8], &'a [u8], usize, u64);

    fn pruned_searches(bytes: &[u8]) -> Result<Vec<Single<'_>>, Malformed> {
        let mut stream = Stream::new(bytes);
        let mut test: &[u8] = &[];
        let mut calls = Vec::new();
        while !stream.is_empty() {
            let tag = stream.byte()?;
            if tag == LEND {
                test = stream.frame()?;
                continue;
            }
            let start = if [SEARCH, PRUNED_SEARCH].contains(&tag) { stream.list()? } else { &[] };
            let (buffer_length, allowance) = (stream.byte()?.into(), stream.number()?);
            if tag == PRUNED_SEARCH {
                calls.push((test, start, buffer_length, allowance));
            }
        }
        Ok(calls)
    }

    #[test]
    fn spoiled_starts_and_their_extensions_are_met_in_both_editions() {
        let stream = make_walks();
        let calls = pruned_searches(&stream).expect("the stream is whole");
        for edition in Edition::ALL {
            let (mut spoiled, mut extended) = (0, 0);
            for (test, start, length, allowance) in &calls {
                let Ok(table) = read(test) else { continue };
                if test.len() != edition.test_length() {
                    continue;
                }
                let search =
                    |engine: Engine| engine.search(test, start, &mut vec![0; *length], *allowance);
                let events: Vec<usize> = start.iter().map(|&event| event.into()).collect();
                match search(Engine::Second) {
                    Ok(_) if is_spoiled(&table, &events) => spoiled += 1,
                    Err(refusal)
                        if refusal.line == Line::Start && search(Engine::First).is_ok() =>
                    {
                        extended += 1
                    }
                    _ => {}
                }
            }
            assert!(spoiled >= 50 && extended >= 20, "{edition:?}: {spoiled}, {extended}");
        }
    }
}
