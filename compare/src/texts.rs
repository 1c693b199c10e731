//! Random calls on texts, in rounds: good ones of random tables, damaged ones, and other bytes.

use crate::call::{Call, Entry};
use crate::cases::*;
use crate::comparison::{Comparison, Difference};
use crate::writes::damage_event;
use oracle::generate::damage::damaged_text;
use oracle::generate::orders::bytes;
use oracle::generate::prng::Prng;
use oracle::generate::text_cases::{changed_texts, cut_texts, legal_texts, lengths};
use oracle::generate::texts::{random_text, text_of, text_with};
use oracle::layout::MOST_EVENTS;
use oracle::table::{Model, Table};
use oracle::text::Document;
use oracle::walks::Given;

/// No text of random bytes is longer.
const LONGEST_TEXT: usize = 2300;
/// Levels around a condition; eight are legal.
const MOST_LEVELS: usize = 10;

/// The text of a table, which asks for what the table states or for something else.
fn any_text(prng: &mut Prng, table: &Table) -> Document {
    if prng.one_in(3) {
        return text_of(table);
    }
    random_text(prng, table)
}

/// What reading gives, by both functions.
fn read(calls: &mut Calls) -> Result<(), Box<Difference>> {
    calls.call(Entry::ReadText)?;
    calls.call(Entry::TableOfText)?;
    Ok(())
}

/// A walk over a text of a small table, with any allowances and buffers; mostly to its end.
pub fn text_walk(prng: &mut Prng, comparison: &mut Comparison) -> Result<(), Box<Difference>> {
    let events = 1 + prng.below(FEW_EVENTS);
    let table = program_with_outcome(prng, events, Model::Rvwmo);
    let bytes = any_text(prng, &table).to_string().into_bytes();
    let mut calls = Calls { comparison, bytes };
    read(&mut calls)?;
    walk_over(Given::Text, prng, &mut calls, &table)
}

/// Searches of a text of any table, from clean prefixes and from others.
pub fn text_searches(prng: &mut Prng, comparison: &mut Comparison) -> Result<(), Box<Difference>> {
    let table = any_program(prng);
    let bytes = any_text(prng, &table).to_string().into_bytes();
    let mut calls = Calls { comparison, bytes };
    read(&mut calls)?;
    for _ in 0..SOME_CALLS {
        search_of(Given::Text, prng, &mut calls, &table)?;
    }
    walk_over(Given::Text, prng, &mut calls, &table)
}

/// All witnesses of a text of a small table by the iterator, from the beginning or from any start.
pub fn text_witnesses(prng: &mut Prng, comparison: &mut Comparison) -> Result<(), Box<Difference>> {
    let events = 1 + prng.below(FEW_EVENTS);
    let table = program_with_outcome(prng, events, Model::Rvwmo);
    let text = any_text(prng, &table).to_string().into_bytes();
    let mut calls = Calls { comparison, bytes: text };
    for _ in 0..SOME_CALLS {
        let start = if prng.one_in(2) { bytes(&any_start(prng, &table)) } else { Vec::new() };
        let allowance = any_allowance_of_a_walk(prng);
        let steps = prng.below(SOME_CALLS);
        calls.call(Entry::Witnesses { given: Given::Text, start, allowance, steps })?;
    }
    Ok(())
}

/// Reading and a search of bytes that may hold another table than this one, with more prefixes.
fn read_and_search(prng: &mut Prng, calls: &mut Calls, table: &Table) -> Result<(), Box<Difference>> {
    read(calls)?;
    let start = if prng.one_in(2) { bytes(&any_start(prng, table)) } else { Vec::new() };
    let room = if prng.one_in(4) { prng.below(MOST_EVENTS) } else { MOST_EVENTS };
    let allowance = any_allowance(prng, MOST_EVENTS, 100);
    calls.search(prng, Given::Text, start, room, allowance)?;
    Ok(())
}

/// A text, damaged in one place or two.
pub fn damaged_texts(prng: &mut Prng, comparison: &mut Comparison) -> Result<(), Box<Difference>> {
    let table = any_program(prng);
    let text = any_text(prng, &table).to_string().into_bytes();
    for _ in 0..SOME_CALLS {
        let mut bytes = damaged_text(prng, &text);
        if prng.one_in(4) && !bytes.is_empty() {
            bytes = damaged_text(prng, &bytes);
        }
        read_and_search(prng, &mut Calls { comparison: &mut *comparison, bytes }, &table)?;
    }
    Ok(())
}

/// A text with another number in a field; now and then one of fences alone.
pub fn broken_lines(prng: &mut Prng, comparison: &mut Comparison) -> Result<(), Box<Difference>> {
    let table = if prng.one_in(8) { any_fences(prng) } else { any_program(prng) };
    let text = if prng.one_in(8) { text_of(&table) } else { any_text(prng, &table) };
    for _ in 0..SOME_CALLS {
        let mut text = text.clone();
        let event = prng.below(text.events.len());
        damage_event(prng, &mut text.events[event]);
        if prng.one_in(2) {
            text.events[event].read = 0;
        }
        let bytes = text.to_string().into_bytes();
        read_and_search(prng, &mut Calls { comparison: &mut *comparison, bytes }, &table)?;
    }
    Ok(())
}

/// A text with locations that no event touches, of which the condition names some.
pub fn unused_in_texts(prng: &mut Prng, comparison: &mut Comparison) -> Result<(), Box<Difference>> {
    let table = with_unused(prng);
    let text = text_of(&table);
    for _ in 0..SOME_CALLS {
        let mut text = text.clone();
        if prng.one_in(2) {
            text.condition = random_text(prng, &table).condition;
        }
        let bytes = text.to_string().into_bytes();
        read_and_search(prng, &mut Calls { comparison: &mut *comparison, bytes }, &table)?;
    }
    Ok(())
}

/// What opens a level of a condition, and what closes it.
const LEVELS: [(&str, &str); 4] = [("not ", ""), ("( ", " or x0=1 )"), ("( x0=0 and ", " )"), ("( x0=1 or ", " )")];

/// Texts with levels of any mixture around their condition.
pub fn deep_texts(prng: &mut Prng, comparison: &mut Comparison) -> Result<(), Box<Difference>> {
    let events = 1 + prng.below(FEW_EVENTS);
    let table = program_with_outcome(prng, events, Model::Rvwmo);
    for _ in 0..SOME_CALLS {
        let mut condition = any_text(prng, &table).condition.to_string();
        for _ in 0..prng.below(MOST_LEVELS) {
            let (open, close) = prng.pick(&LEVELS);
            condition = format!("{open}{condition}{close}");
        }
        let bytes = text_with(&table, &condition).into_bytes();
        read_and_search(prng, &mut Calls { comparison: &mut *comparison, bytes }, &table)?;
    }
    Ok(())
}

/// Texts about as long as they may be, whole and damaged.
pub fn long_texts(prng: &mut Prng, comparison: &mut Comparison) -> Result<(), Box<Difference>> {
    let table = oracle::litmus::c10();
    let mut bytes = prng.pick(&lengths()).clone();
    if prng.one_in(2) {
        bytes = damaged_text(prng, &bytes);
    }
    read_and_search(prng, &mut Calls { comparison, bytes }, &table)
}

/// Random bytes, the front of a text with random bytes behind it, and a block.
pub fn other_bytes(prng: &mut Prng, comparison: &mut Comparison) -> Result<(), Box<Difference>> {
    let table = any_program(prng);
    let length = prng.below(LONGEST_TEXT);
    let bytes = match prng.below(4) {
        0 => some_bytes(prng, length),
        1 => any_test(prng, &table),
        _ => {
            let mut text = any_text(prng, &table).to_string().into_bytes();
            text.truncate(prng.below(text.len() + 1));
            [text, some_bytes(prng, length / 20)].concat()
        }
    };
    read_and_search(prng, &mut Calls { comparison, bytes }, &table)
}

/// A dozen legal texts with every byte changed to each of some twenty, and cut at each length: how many are read alike.
pub fn every_change(comparison: &mut Comparison) -> Result<usize, Box<Difference>> {
    let mut count = 0;
    for text in legal_texts() {
        for bytes in changed_texts(text.as_bytes()).chain(cut_texts(text.as_bytes())) {
            comparison.call(Call { bytes, entry: Entry::ReadText })?;
            count += 1;
        }
    }
    Ok(count)
}
