//! Search calls of a stream: on blocks or on texts, single ones and those of walks, in some ways.

use super::orders::{bytes, lawful_order, linear_extension, permutation, state_outcome};
use super::prng::Prng;
use super::random::random_table;
use crate::candidates::LEND;
use crate::layout::{MAX_HARTS, MOST_EVENTS};
use crate::rules::steady_rules;
use crate::search::{Answer, Engine, MAX_ALLOWANCE};
use crate::stream::{push_frame, push_list};
use crate::table::{Model, Table};
use crate::walks::{Given, Walk, PRUNED_SEARCH, PRUNED_WALK, SEARCH, WALK};

/// Memory events so few that lists of prefixes are short.
pub const FEW_EVENTS: usize = 7;
/// No walk makes more calls than this.
const MOST_CALLS: usize = 60;
/// Calls of a table that aren't made to the end.
pub const SOME_CALLS: usize = 8;

/// The stream so far; the test lent last, with its number of memory events, and its walk. What is
/// given decides which entry the next calls are of.
pub struct Calls {
    pub stream: Vec<u8>,
    pub given: Given,
    pub test: Vec<u8>,
    pub memory_events: usize,
    walk: Walk,
}

impl Calls {
    pub fn on(given: Given) -> Calls {
        let (stream, test) = (Vec::new(), Vec::new());
        Calls { stream, given, test, memory_events: 0, walk: Walk::over(given) }
    }

    pub fn lend(&mut self, test: Vec<u8>, memory_events: usize) {
        self.stream.push(LEND);
        push_frame(&mut self.stream, &test);
        self.test = test;
        self.memory_events = memory_events;
        self.walk = Walk::over(self.given);
    }

    fn push_tag(&mut self, first: u8, second: u8) {
        self.stream.push(match self.given {
            Given::Block(Engine::First) | Given::Text => first,
            Given::Block(Engine::Second) => second,
        });
    }

    pub fn search(&mut self, start: &[u8], buffer_length: usize, allowance: u64) {
        self.push_tag(SEARCH, PRUNED_SEARCH);
        push_list(&mut self.stream, start);
        self.push_limits(buffer_length, allowance);
    }

    /// The walk's next call; says whether it answers none left.
    pub fn walk(&mut self, buffer_length: usize, allowance: u64) -> bool {
        self.push_tag(WALK, PRUNED_WALK);
        self.push_limits(buffer_length, allowance);
        let answer = self.walk.call(&self.test, &mut vec![0; buffer_length], allowance);
        matches!(answer, Ok(Answer::NoneLeft { .. }))
    }

    fn push_limits(&mut self, buffer_length: usize, allowance: u64) {
        self.stream.push(buffer_length as u8);
        self.stream.extend(allowance.to_le_bytes());
    }
}

/// A way to make calls on the test lent last, which has the table given.
pub type Way = fn(&mut Calls, &mut Prng, &Table);

pub const WAYS: [Way; 7] = [
    walk_by_witnesses,
    walk_by_small_steps,
    walk_by_single_steps,
    walk_at_random,
    edges_of_the_first_answer,
    searches_from_clean_starts,
    searches_from_any_starts,
];

/// A table with a short list of prefixes, and often with witnesses.
pub fn small_table(prng: &mut Prng) -> Table {
    small_table_in(Model::Rvwmo, prng)
}

/// The same in a model.
pub fn small_table_in(model: Model, prng: &mut Prng) -> Table {
    let harts = 1 + prng.below(MAX_HARTS);
    let locations = 1 + prng.below(3);
    let events = 1 + prng.below(FEW_EVENTS);
    let mut table = random_table(prng, harts, locations, events).in_model(model);
    if !prng.one_in(3) {
        if let Some(order) = lawful_order(prng, &table) {
            state_outcome(&mut table, &order);
        }
    }
    table
}

/// From witness to witness to the end, and two calls more.
pub fn walk_by_witnesses(calls: &mut Calls, prng: &mut Prng, _: &Table) {
    let steps = (0..MOST_CALLS).map(|_| MAX_ALLOWANCE);
    walk_to_the_end(calls, steps);
    calls.walk(calls.memory_events, MAX_ALLOWANCE);
    calls.walk(calls.memory_events, prng.below(3) as u64);
}

/// With small allowances to the end, then on with smaller ones.
fn walk_by_small_steps(calls: &mut Calls, prng: &mut Prng, _: &Table) {
    let largest = *prng.pick(&[3, 10, 40]);
    walk_to_the_end(calls, (0..MOST_CALLS).map(|_| prng.below(largest) as u64));
    for allowance in [0, 1, 2] {
        calls.walk(calls.memory_events, allowance);
    }
}

/// One prefix a call.
fn walk_by_single_steps(calls: &mut Calls, _: &mut Prng, _: &Table) {
    walk_to_the_end(calls, (0..MOST_CALLS).map(|_| 1));
}

fn walk_to_the_end(calls: &mut Calls, allowances: impl Iterator<Item = u64>) {
    for allowance in allowances {
        if calls.walk(calls.memory_events, allowance) {
            return;
        }
    }
}

/// Any allowances and any buffers, refused ones too; mostly stopped short.
fn walk_at_random(calls: &mut Calls, prng: &mut Prng, _: &Table) {
    for _ in 0..1 + prng.below(2 * SOME_CALLS) {
        let buffer_length = any_buffer_length(prng, calls.memory_events);
        calls.walk(buffer_length, any_allowance(prng));
    }
}

/// Buffers just long enough, longer, too short.
pub fn any_buffer_length(prng: &mut Prng, memory_events: usize) -> usize {
    let longer = memory_events + prng.below(10);
    *prng.pick(&[memory_events, memory_events, longer, longer, memory_events - 1, 0, 255])
}

pub fn any_allowance(prng: &mut Prng) -> u64 {
    let (small, medium) = (prng.below(8) as u64, prng.below(100) as u64);
    let choices = [0, 1, small, small, medium, medium, MAX_ALLOWANCE, MAX_ALLOWANCE + 1, u64::MAX];
    *prng.pick(&choices)
}

/// The first answer's visited number as the allowance, and numbers next to it.
pub fn edges_of_the_first_answer(calls: &mut Calls, _: &mut Prng, _: &Table) {
    let answer = calls.given.search(&calls.test, &[], &mut [0; MOST_EVENTS], MAX_ALLOWANCE);
    if let Ok(Answer::Found { visited, .. } | Answer::NoneLeft { visited }) = answer {
        for allowance in [visited - 1, visited, visited + 1] {
            calls.search(&[], calls.memory_events, allowance);
        }
        calls.walk(calls.memory_events, visited - 1);
        calls.walk(calls.memory_events, 0);
        calls.walk(calls.memory_events, 1);
    }
}

/// Single searches from clean prefixes that no walk need reach; whole orders among them.
fn searches_from_clean_starts(calls: &mut Calls, prng: &mut Prng, table: &Table) {
    for _ in 0..SOME_CALLS {
        let order = bytes(&linear_extension(prng, table));
        let length = prng.below(order.len() + 1);
        let buffer_length = any_buffer_length(prng, order.len());
        calls.search(&order[..length], buffer_length, any_allowance(prng));
        calls.search(&order, order.len(), *prng.pick(&[0, 1, MAX_ALLOWANCE]));
    }
    // The greatest of all prefixes, with nothing after it.
    let greatest = bytes(&greatest_order(table));
    calls.search(&greatest, greatest.len(), 0);
    calls.search(&greatest, greatest.len(), MAX_ALLOWANCE);
    // Searches leave the walk where it is.
    calls.walk(greatest.len(), 1);
    calls.search(&greatest, greatest.len(), 1);
    calls.walk(greatest.len(), 1);
}

/// Single searches from parts of random orders, most of which aren't clean.
fn searches_from_any_starts(calls: &mut Calls, prng: &mut Prng, table: &Table) {
    for _ in 0..SOME_CALLS {
        let order = bytes(&permutation(prng, table));
        let length = prng.below(order.len() + 1);
        let buffer_length = any_buffer_length(prng, order.len());
        calls.search(&order[..length], buffer_length, any_allowance(prng));
    }
    calls.walk(calls.memory_events, any_allowance(prng));
}

/// A start with allowances at both ends of their range and about the number that is visited, and
/// with buffers that are long enough and too short.
pub fn edges_of_an_answer(calls: &mut Calls, start: &[u8]) {
    let answer = calls.given.search(&calls.test, start, &mut [0; MOST_EVENTS], MAX_ALLOWANCE);
    if let Ok(Answer::Found { visited, .. } | Answer::NoneLeft { visited }) = answer {
        for allowance in [0, visited.saturating_sub(1), visited, visited + 1, MAX_ALLOWANCE] {
            calls.search(start, calls.memory_events, allowance);
        }
        calls.search(start, calls.memory_events + 1, visited);
        calls.search(start, calls.memory_events - 1, visited);
        calls.search(start, calls.memory_events, MAX_ALLOWANCE + 1);
        calls.search(start, calls.memory_events - 1, MAX_ALLOWANCE + 1);
    }
}

/// Line 15, alone and with lines 16 and 17.
pub fn refused_start(calls: &mut Calls, start: &[u8]) {
    calls.search(start, calls.memory_events, MAX_ALLOWANCE);
    calls.search(start, 0, MAX_ALLOWANCE);
    calls.search(start, calls.memory_events, MAX_ALLOWANCE + 1);
    calls.search(start, 0, u64::MAX);
}

/// Takes the highest-numbered event that may come next, each time.
fn greatest_order(table: &Table) -> Vec<usize> {
    let mut left = table.memory_events();
    let mut order = Vec::new();
    while !left.is_empty() {
        let is_free = |&&b: &&usize| left.iter().all(|&a| steady_rules(table, a, b).is_empty());
        let next = *left.iter().rev().find(is_free).expect("steady rules follow program order");
        left.retain(|&event| event != next);
        order.push(next);
    }
    order
}

/// Each way of not being a clean prefix of C2. Its memory events are 0, 2, 3 and 5; 1 and 4
/// are fences; 0 is before 2, and 3 before 5.
const UNCLEAN_STARTS: [&[u8]; 19] = [
    // No memory event.
    &[1],
    &[0, 4],
    &[6],
    &[16],
    &[254],
    &[0, 255],
    &[128],
    // Doubled.
    &[0, 0],
    &[0, 3, 0],
    &[0, 2, 3, 3],
    // A predecessor missing.
    &[2],
    &[3, 2],
    &[0, 5],
    // A predecessor standing after it.
    &[2, 0],
    &[3, 2, 0],
    &[5, 3, 0, 2],
    // Too long.
    &[0, 2, 3, 5, 5],
    &[0, 2, 3, 5, 6],
    &[0; 255],
];

/// Line 15, alone and with lines 16 and 17, then these without it. The test lent last is C2.
pub fn unclean_starts(calls: &mut Calls) {
    for start in UNCLEAN_STARTS {
        refused_start(calls, start);
    }
    calls.search(&[0, 3], calls.memory_events - 1, MAX_ALLOWANCE + 1);
    calls.search(&[0, 3], calls.memory_events, MAX_ALLOWANCE + 1);
    calls.search(&[0, 3], calls.memory_events, MAX_ALLOWANCE);
}

/// Calls of a walk on a test that reading declines, and single ones.
pub fn refused_walk(calls: &mut Calls, prng: &mut Prng, test: Vec<u8>, memory_events: usize) {
    calls.lend(test, memory_events);
    for _ in 0..3 {
        calls.walk(any_buffer_length(prng, memory_events), any_allowance(prng));
    }
    calls.search(&[0], memory_events, 1);
    calls.search(&[255], 0, u64::MAX);
}
