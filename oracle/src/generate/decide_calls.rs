//! The stored stream of `decide_calls`.

use super::breaches::{base_block, breaches};
use super::calls::small_table_in;
use super::cases::{atomicity_place_cases, location_cases};
use super::chains::{chain_cases, chained_table};
use super::decided::decided_cases;
use super::edition_two::refused_by_each_line;
use super::operations::{mixed_operation_cases, operation_cases};
use super::orders::{bytes, linear_extension, permutation};
use super::prng::Prng;
use super::unused::{stated_ends, unused_cases};
use crate::candidates::LEND;
use crate::decide_calls::NEXT;
use crate::decision::{witnesses, Order};
use crate::encode::{encode, encode_fitting, encode_in};
use crate::layout::{Edition, CHECK_AT, MOST_EVENTS};
use crate::litmus::{self, *};
use crate::stream::{push_frame, push_list};
use crate::table::{Model, Table};

const SEED: u64 = 17;
/// Random tables of few events, and random chains of edition 2, for each model.
const RANDOM_TABLES: usize = 150;
const RANDOM_CHAINS: usize = 20;
/// So many of a table's witnesses are asked for one after the other, and so many of the last ones.
const FIRST_WITNESSES: usize = 8;
const LAST_WITNESSES: usize = 2;
/// Starts of each kind that are drawn for a table.
const SOME_STARTS: usize = 2;

/// The stream so far, and the number of memory events of the test lent last.
#[derive(Default)]
struct Calls {
    stream: Vec<u8>,
    memory_events: usize,
}

impl Calls {
    fn lend(&mut self, test: &[u8], memory_events: usize) {
        self.stream.push(LEND);
        push_frame(&mut self.stream, test);
        self.memory_events = memory_events;
    }

    fn decide_into(&mut self, start: &[u8], buffer_length: usize) {
        self.stream.push(NEXT);
        push_list(&mut self.stream, start);
        self.stream.push(buffer_length as u8);
    }

    /// With a buffer that is just long enough.
    fn decide(&mut self, start: &[u8]) {
        self.decide_into(start, self.memory_events);
    }
}

pub fn make_decide_calls() -> Vec<u8> {
    let prng = &mut Prng::new(SEED);
    let mut calls = Calls::default();
    let cases = [litmus::all(), releasing_amos(), counters(), stated_ends(), location_cases()];
    let others =
        [operation_cases(), mixed_operation_cases(), atomicity_place_cases(), decided_cases()];
    for model in Model::ALL {
        for (_, test) in [cases.concat(), others.concat(), chain_cases()].concat() {
            every_way(&mut calls, prng, &test.in_model(model), Edition::One);
        }
        for _ in 0..RANDOM_TABLES {
            let table = small_table_in(model, prng);
            let edition = *prng.pick(&[Edition::One, Edition::One, Edition::Two]);
            every_way(&mut calls, prng, &table, edition);
        }
        for _ in 0..RANDOM_CHAINS {
            let table = chained_table(prng).in_model(model);
            every_way(&mut calls, prng, &table, Edition::One);
        }
        for (_, test) in cases.concat() {
            every_way(&mut calls, prng, &test.in_model(model), Edition::Two);
        }
    }
    every_entry(&mut calls);
    refused_tests(&mut calls, prng);
    calls.stream
}

/// A table that isn't refused, as a test of the edition, if that has room for it: its witnesses one
/// after the other, what stands between them, any other lists, and all buffers.
fn every_way(calls: &mut Calls, prng: &mut Prng, table: &Table, edition: Edition) {
    let test = match edition {
        Edition::One => encode_fitting(table),
        Edition::Two => encode_in(Edition::Two, table),
    };
    calls.lend(&test, table.memory_events().len());
    let witnesses = witnesses(table);
    one_by_one(calls, &witnesses);
    for _ in 0..SOME_STARTS {
        if !witnesses.is_empty() {
            let order = prng.pick(&witnesses);
            beside(calls, prng, order);
        }
        elsewhere(calls, prng, table);
    }
    buffers(calls, prng, &witnesses);
}

/// From the empty list on, each from the one before; and from the last ones to the end.
fn one_by_one(calls: &mut Calls, witnesses: &[Order]) {
    calls.decide(&[]);
    for order in witnesses.iter().take(FIRST_WITNESSES) {
        calls.decide(order);
    }
    for order in witnesses.iter().skip(FIRST_WITNESSES).rev().take(LAST_WITNESSES) {
        calls.decide(order);
    }
}

/// Parts of a witness, and lists just below, behind and above it.
fn beside(calls: &mut Calls, prng: &mut Prng, order: &[u8]) {
    let place = prng.below(order.len());
    let (front, entry) = (&order[..place], order[place]);
    calls.decide(front);
    for other in [entry.wrapping_sub(1), entry + 1, u8::MAX] {
        calls.decide(&[front, &[other]].concat());
    }
    calls.decide(&[front, &[entry.wrapping_sub(1)], &[u8::MAX; 3]].concat());
    calls.decide(&[order, &[*prng.pick(&[0, 1, u8::MAX])]].concat());
}

/// Any orders, clean ones and others, in part and whole; and lists that are no orders.
fn elsewhere(calls: &mut Calls, prng: &mut Prng, table: &Table) {
    for order in [linear_extension(prng, table), permutation(prng, table)] {
        let order = bytes(&order);
        calls.decide(&order[..1 + prng.below(order.len())]);
        calls.decide(&[&order[..prng.below(order.len())], &[prng.bits() as u8]].concat());
    }
    let event = prng.below(table.events.len()) as u8;
    calls.decide(&vec![event; 1 + prng.below(2 * MOST_EVENTS)]);
}

/// Buffers that are longer, too short by one, empty, and as long as can be, with starts of all kinds.
fn buffers(calls: &mut Calls, prng: &mut Prng, witnesses: &[Order]) {
    let memory_events = calls.memory_events;
    for length in [memory_events + 1, memory_events - 1, 0, usize::from(u8::MAX)] {
        let mut starts = vec![Vec::new(), vec![u8::MAX]];
        starts.extend(witnesses.last().cloned());
        starts.extend(witnesses.first().cloned());
        let start = prng.pick(&starts);
        calls.decide_into(start, length);
    }
}

/// Bytes about the numbers of events, of fences, and of a mask's bits.
const ENTRIES: [u8; 14] = [0, 1, 2, 3, 4, 5, 15, 16, 29, 30, 31, 32, 33, u8::MAX];

/// Every list of up to two of these, and the longest lists there are.
fn every_entry(calls: &mut Calls) {
    let chains = chain_cases();
    let chain = &chains.iter().find(|(name, _)| *name == "chain-watched").expect("there is one").1;
    for test in [&c1(), &c9_control(), chain] {
        calls.lend(&encode_fitting(test), test.memory_events().len());
        for first in ENTRIES {
            calls.decide(&[first]);
            for second in ENTRIES {
                calls.decide(&[first, second]);
            }
            calls.decide(&[first; 255]);
        }
    }
}

/// Tests that reading refuses, by each line, with any starts and with buffers that 16 would refuse.
fn refused_tests(calls: &mut Calls, prng: &mut Prng) {
    let mut wrong_check = base_block();
    wrong_check[CHECK_AT] ^= 1;
    let mut tests = vec![Vec::new(), base_block()[1..].to_vec(), wrong_check];
    for line in breaches().chunk_by(|a, b| a.line == b.line) {
        let mut block = base_block();
        prng.pick(line).apply(&mut block);
        tests.push(block);
    }
    tests.push(encode(&table(vec![fence(0, FULL)])));
    tests.extend(unused_cases().iter().map(|(_, test)| encode_fitting(test)));
    tests.extend(refused_by_each_line());
    for test in tests {
        calls.lend(&test, MOST_EVENTS);
        calls.decide(&[]);
        calls.decide_into(&[u8::MAX], 0);
    }
}

#[cfg(test)]
mod tests {
    use super::*;
    use crate::decision::{Decider, Decision};
    use crate::stream::{Malformed, Stream};
    use crate::table::{read, Line};
    use std::collections::BTreeMap;

    /// The test, the start and the buffer length of each call.
    type Call<'a> = (&'a [u8], &'a [u8], usize);

    fn called(bytes: &[u8]) -> Result<Vec<Call<'_>>, Malformed> {
        let mut stream = Stream::new(bytes);
        let mut test: &[u8] = &[];
        let mut calls = Vec::new();
        while !stream.is_empty() {
            match stream.byte()? {
                LEND => test = stream.frame()?,
                NEXT => calls.push((test, stream.list()?, stream.byte()?.into())),
                _ => return Err(Malformed),
            }
        }
        Ok(calls)
    }

    /// How often each line was given; and each answer by edition, model and kind of start.
    #[derive(Default)]
    struct Given {
        lines: BTreeMap<u8, usize>,
        answers: BTreeMap<(bool, usize, u8, &'static str), usize>,
    }

    /// What a start is to the witnesses of a table.
    fn kind_of(witnesses: &[Order], memory_events: usize, start: &[u8]) -> &'static str {
        let is_start_of = |order: &Order| order.starts_with(start);
        match start.len() {
            0 => "empty",
            _ if witnesses.iter().any(|order| order == start) => "witness",
            _ if witnesses.iter().any(is_start_of) => "front of a witness",
            length if length > memory_events => "too long",
            _ if start.contains(&u8::MAX) => "out of range",
            _ => "another list",
        }
    }

    fn counted(stream: &[u8]) -> Given {
        let (mut given, mut decider) = (Given::default(), Decider::default());
        let calls = called(stream).expect("the stream is whole");
        for of_a_test in calls.chunk_by(|(test, ..), (next, ..)| test == next) {
            let table = read(of_a_test[0].0);
            let witnesses = table.as_ref().map(witnesses).unwrap_or_default();
            for (test, start, length) in of_a_test {
                match (decider.decide(test, start, &mut vec![0; *length]), &table) {
                    (Ok(decision), Ok(table)) => {
                        let kind = kind_of(&witnesses, table.memory_events().len(), start);
                        let is_found = matches!(decision, Decision::Found(_));
                        let key = (is_found, test.len(), table.model as u8, kind);
                        *given.answers.entry(key).or_default() += 1;
                    }
                    (Err(refusal), _) => *given.lines.entry(refusal.line as u8).or_default() += 1,
                    (Ok(_), Err(_)) => panic!("a test that isn't good is decided"),
                }
            }
        }
        given
    }

    #[test]
    fn each_line_and_each_kind_of_start_is_met_in_both_editions_and_models() {
        let given = counted(&make_decide_calls());
        for line in (1..=11).chain([21]) {
            assert!(given.lines[&line] >= 4, "line {line}");
        }
        assert!(given.lines[&(Line::Buffer as u8)] >= 100);
        let any = ["empty", "witness", "too long", "out of range", "another list"];
        for edition in Edition::ALL {
            for model in Model::ALL {
                let count = |is_found: bool, kind| {
                    given
                        .answers
                        .get(&(is_found, edition.test_length(), model as u8, kind))
                        .copied()
                };
                for kind in any {
                    let counts = [true, false].map(|is_found| count(is_found, kind));
                    assert!(
                        counts.iter().all(|n| n.is_some_and(|n| n >= 20)),
                        "{kind}: {counts:?}"
                    );
                }
                assert!(count(true, "front of a witness").is_some_and(|n| n >= 20));
            }
        }
    }
}
