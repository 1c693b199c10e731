//! The stored stream of `texts`: readings, single searches and walks.

use super::amo_texts::{amo_texts, asked_texts};
use super::calls::*;
use super::chains::{chain_cases, chained_table};
use super::corner_texts::corner_texts;
use super::damage::damaged_text;
use super::operations::{mixed_operation_cases, operation_cases};
use super::prng::Prng;
use super::random::wide_table;
use super::text_cases::*;
use super::texts::{random_text, text_of};
use super::unused::{stated_ends, unused_texts};
use crate::layout::MOST_EVENTS;
use crate::litmus::{self, *};
use crate::search::MAX_ALLOWANCE;
use crate::table::{Line, Table};
use crate::text_test::read_text;
use crate::texts::READ;
use crate::walks::Given;

const SEED: u64 = 8;
/// Random texts of small tables, each walked in one way.
const RANDOM_TEXTS: usize = 280;
/// Random texts of more events, whose tables are chains, each walked in one way; and of any tables,
/// of which a walk sees only the first prefixes.
const CHAINS: usize = 35;
const WIDE_TEXTS: usize = 12;
/// Good texts, damaged in one place.
const DAMAGED_TEXTS: usize = 400;
/// Of the texts that a line refuses, one in so many is walked.
const ONE_IN: usize = 50;
/// Of a search that isn't to go to the end.
const FEW_PREFIXES: u64 = 20;

pub fn make_texts() -> Vec<u8> {
    let prng = &mut Prng::new(SEED);
    let mut calls = Calls::on(Given::Text);
    for corner in corner_texts() {
        calls.lend(corner.text, corner.room);
        read(&mut calls);
        calls.search(&corner.start, corner.room, corner.allowance);
    }
    edges(&mut calls);
    for text in [asked_texts(), amo_texts()].concat() {
        lend_and(walk_by_witnesses, &mut calls, prng, &text);
    }
    walks(&mut calls, prng);
    random_walks(&mut calls, prng);
    for _ in 0..DAMAGED_TEXTS {
        let table = small_table(prng);
        let text = random_text(prng, &table).to_string();
        calls.lend(damaged_text(prng, text.as_bytes()), FEW_EVENTS);
        read(&mut calls);
    }
    refused_walks(&mut calls, prng);
    unused_locations(&mut calls, prng);
    calls.stream
}

/// Line 21 and texts next to it: each is read, searched, and searched with a start, a buffer and an
/// allowance that the lines 15, 16 and 17 refuse.
fn unused_locations(calls: &mut Calls, prng: &mut Prng) {
    for text in unused_texts() {
        lend(calls, &text);
        read(calls);
        calls.walk(MOST_EVENTS, FEW_PREFIXES);
        refused_start(calls, &[u8::MAX]);
    }
    for (_, test) in stated_ends() {
        for way in WAYS {
            lend_and(way, calls, prng, &text_of(&test).to_string());
        }
    }
}

fn read(calls: &mut Calls) {
    calls.stream.push(READ);
}

/// Lends a text, and gives its table if it is good.
fn lend(calls: &mut Calls, text: &str) -> Option<Table> {
    let table = read_text(text.as_bytes()).ok().map(|test| test.table);
    let memory_events = table.as_ref().map_or(MOST_EVENTS, |table| table.memory_events().len());
    calls.lend(text.into(), memory_events);
    table
}

/// Lends a text and reads it; if it is good, makes calls on it in some way.
fn lend_and(way: Way, calls: &mut Calls, prng: &mut Prng, text: &str) {
    let table = lend(calls, text);
    read(calls);
    if let Some(table) = table {
        way(calls, prng, &table);
    }
}

/// The edges of the grammar and of the table: each text is read, and some are searched too.
fn edges(calls: &mut Calls) {
    for text in [numbers(), broken_tables(), stated_values()].concat() {
        lend(calls, &text);
        read(calls);
    }
    for text in cut_texts(legal_texts()[0].as_bytes()) {
        calls.lend(text, MOST_EVENTS);
        read(calls);
    }
    for text in levels() {
        lend(calls, &text);
        calls.search(&[], 1, FEW_PREFIXES);
    }
    let lengths = lengths().into_iter();
    let texts = [counts(), fences(), names()].concat().into_iter().map(String::into_bytes);
    for text in texts.chain(lengths) {
        calls.lend(text, MOST_EVENTS);
        read(calls);
        calls.search(&[], MOST_EVENTS, FEW_PREFIXES);
    }
}

/// The paper's tests and others, as texts that ask for what they state.
fn walks(calls: &mut Calls, prng: &mut Prng) {
    for (_, test) in [litmus::all(), releasing_amos(), counters()].concat() {
        for way in WAYS {
            lend_and(way, calls, prng, &text_of(&test).to_string());
        }
    }
    for (_, test) in [operation_cases(), mixed_operation_cases(), chain_cases()].concat() {
        lend_and(walk_by_witnesses, calls, prng, &text_of(&test).to_string());
    }
    lend(calls, &text_of(&c2()).to_string());
    unclean_starts(calls);
}

fn random_walks(calls: &mut Calls, prng: &mut Prng) {
    for number in 0..RANDOM_TEXTS {
        let table = small_table(prng);
        let text = random_text(prng, &table).to_string();
        lend_and(WAYS[number % WAYS.len()], calls, prng, &text);
    }
    for number in 0..CHAINS {
        let table = chained_table(prng);
        let text = random_text(prng, &table).to_string();
        lend_and(WAYS[number % WAYS.len()], calls, prng, &text);
    }
    for _ in 0..WIDE_TEXTS {
        let table = wide_table(prng);
        let text = random_text(prng, &table).to_string();
        lend_and(first_prefixes, calls, prng, &text);
    }
}

/// Some calls of a walk on a text that may have many prefixes.
fn first_prefixes(calls: &mut Calls, prng: &mut Prng, _: &Table) {
    for _ in 0..SOME_CALLS {
        let buffer_length = any_buffer_length(prng, calls.memory_events);
        calls.walk(buffer_length, *prng.pick(&[0, 1, 5, 17, 100, 300, MAX_ALLOWANCE + 1]));
    }
}

/// Walks on texts that reading declines: by each line some.
fn refused_walks(calls: &mut Calls, prng: &mut Prng) {
    let cases = [numbers(), levels(), counts(), fences(), names(), broken_tables()];
    let texts = [cases.concat(), unused_texts()].concat();
    let bytes = texts.into_iter().map(String::into_bytes).chain(lengths());
    let mut met = [0; 1 + Line::Names as usize];
    for text in bytes {
        let Err(refusal) = read_text(&text) else { continue };
        let count = &mut met[refusal.line() as usize];
        if *count % ONE_IN == 0 {
            refused_walk(calls, prng, text, MOST_EVENTS);
        }
        *count += 1;
    }
}

#[cfg(test)]
mod tests {
    use super::*;
    use crate::candidates::LEND;
    use crate::stream::Stream;
    use crate::text_test::MAX_LENGTH;
    use crate::texts::print_texts;
    use crate::walks::SEARCH;
    use std::collections::{BTreeMap, BTreeSet};

    /// How many answers the stored stream has that begin alike, up to a comma.
    fn answers(lines: &str) -> BTreeMap<&str, usize> {
        let mut counts = BTreeMap::new();
        for line in lines.lines() {
            let (_, answer) = line.split_once(": ").expect("a line has a number");
            *counts.entry(answer.split(',').next().expect("an answer")).or_default() += 1;
        }
        counts
    }

    #[test]
    fn every_refusal_and_every_answer_is_met_often() {
        let lines = print_texts(&make_texts()).expect("the stream is whole");
        let counts = answers(&lines);
        for number in [1, 5, 7, 8, 9, 10, 11, 15, 16, 17, 19, 20, 21, 23] {
            let count = counts.get(&*format!("refused {number}")).copied().unwrap_or(0);
            assert!(count >= 10, "refused {number}: {count}");
        }
        for answer in ["found", "none left", "spent"] {
            assert!(counts[answer] >= 500, "{answer}");
        }
    }

    #[test]
    fn breaches_are_met_at_many_places() {
        let lines = print_texts(&make_texts()).expect("the stream is whole");
        for (number, least) in [(19, 150), (20, 25)] {
            let behind = format!("refused {number}, place ");
            let places = lines.lines().filter_map(|line| line.split_once(&*behind));
            let places: BTreeSet<&str> =
                places.map(|(_, rest)| rest.split(',').next().expect("a place")).collect();
            assert!(places.len() >= least, "{number}: {}", places.len());
        }
    }

    #[test]
    fn texts_are_many_and_neither_they_nor_the_stream_are_too_long() {
        let stream = make_texts();
        assert!(stream.len() < 600_000, "{}", stream.len());
        let mut rest = Stream::new(&stream);
        let mut texts = BTreeSet::new();
        while !rest.is_empty() {
            match rest.byte().expect("the stream is whole") {
                LEND => drop(texts.insert(rest.frame().expect("a frame"))),
                READ => {}
                SEARCH => drop((rest.list(), rest.byte(), rest.number())),
                _ => drop((rest.byte(), rest.number())),
            }
        }
        assert!(texts.len() >= 2000, "{}", texts.len());
        // The programs that read the stream have room for a byte more than the longest text has.
        assert_eq!(texts.iter().map(|text| text.len()).max(), Some(MAX_LENGTH + 1));
    }
}
