//! The stored stream of `advice_calls`.

use super::advice_tables::*;
use super::breaches::{base_block, breaches};
use super::calls::small_table_in;
use super::cases::Case;
use super::chains::{chain_cases, chained_table};
use super::edition_two::refused_by_each_line;
use super::prng::Prng;
use super::random::{any_table, wide_table};
use super::unused::unused_cases;
use crate::advice::{clear_fences, tried, MOST_EMPTY_FENCES};
use crate::advice_calls::ADVISE;
use crate::candidates::LEND;
use crate::encode::{encode, encode_fitting, encode_in};
use crate::layout::{Edition, CHECK_AT, MOST_EVENTS};
use crate::litmus::*;
use crate::search::{Answer, MAX_ALLOWANCE};
use crate::stream::push_frame;
use crate::table::{Model, Table};

const SEED: u64 = 13;
/// Random tables of few events, for each model and each number of clear fences.
const RANDOM_TABLES: usize = 8;
/// Random chains of edition 2, for each model.
const RANDOM_CHAINS: usize = 12;
/// The chains have up to so many clear fences, for they may have many prefixes.
const FENCES_OF_CHAINS: usize = 3;
/// Tables of any size, for each model, of which only the first prefixes are visited.
const LARGE_TABLES: usize = 12;
/// How many of the searches of a table its allowances are about.
const SOME_SEARCHES: usize = 4;

/// The stream so far.
#[derive(Default)]
struct Calls {
    stream: Vec<u8>,
}

impl Calls {
    fn lend(&mut self, test: &[u8]) {
        self.stream.push(LEND);
        push_frame(&mut self.stream, test);
    }

    fn advise(&mut self, allowance: u64) {
        self.stream.push(ADVISE);
        self.stream.extend(allowance.to_le_bytes());
    }
}

pub fn make_advice_calls() -> Vec<u8> {
    let prng = &mut Prng::new(SEED);
    let mut calls = Calls::default();
    for model in Model::ALL {
        for (_, test) in [fenced_tests(), beside_others(), ties()].concat() {
            every_way(&mut calls, prng, &test.in_model(model));
        }
        for count in 0..=MOST_EMPTY_FENCES + 1 {
            numbers_of_fences(&mut calls, prng, model, count);
        }
        chains(&mut calls, prng, model);
        for _ in 0..LARGE_TABLES {
            for table in [any_table(prng), wide_table(prng)] {
                first_prefixes(&mut calls, prng, table.in_model(model));
            }
        }
    }
    in_edition_two(&mut calls, prng, &[fenced_tests(), ties()].concat());
    too_many_fences(&mut calls);
    refused_tests(&mut calls);
    calls.stream
}

/// A table that isn't refused, with allowances at both ends and about the numbers that its searches
/// visit.
fn every_way(calls: &mut Calls, prng: &mut Prng, table: &Table) {
    calls.lend(&encode_fitting(table));
    all_allowances(calls, prng, table);
}

fn all_allowances(calls: &mut Calls, prng: &mut Prng, table: &Table) {
    for allowance in [MAX_ALLOWANCE, 0, 1, MAX_ALLOWANCE + 1] {
        calls.advise(allowance);
    }
    let visited = visited_numbers(table);
    let picked: Vec<u64> = (0..SOME_SEARCHES).map(|_| *prng.pick(&visited)).collect();
    let ends = [visited[0], visited[visited.len() - 1]];
    let mut edges: Vec<u64> = [&picked[..], &ends].concat();
    edges.sort();
    edges.dedup();
    for n in edges {
        calls.advise(n - 1);
        calls.advise(n);
    }
}

/// How many prefixes each search of a table visits that isn't stopped, in their order.
fn visited_numbers(table: &Table) -> Vec<u64> {
    let visited = |answer: &Answer| match answer {
        Answer::Found { visited, .. } | Answer::NoneLeft { visited } => *visited,
        Answer::Spent { .. } => unreachable!("the lists are short"),
    };
    tried(table, MAX_ALLOWANCE).iter().map(|(_, answer)| visited(answer)).collect()
}

/// Message passing and random tables with so many clear fences. One more than is good is refused, so
/// that any allowance does.
fn numbers_of_fences(calls: &mut Calls, prng: &mut Prng, model: Model, count: usize) {
    let mut tables: Vec<Table> = counted(count);
    for _ in 0..RANDOM_TABLES {
        let mut bare = small_table_in(model, prng);
        while !clear_fences(&bare).is_empty() {
            bare = small_table_in(model, prng);
        }
        tables.push(with_clear_fences(prng, &bare, count));
    }
    for table in tables.into_iter().map(|table| table.in_model(model)) {
        if count <= MOST_EMPTY_FENCES {
            every_way(calls, prng, &table);
        } else {
            refused(calls, &table);
        }
    }
}

fn refused(calls: &mut Calls, table: &Table) {
    calls.lend(&encode_fitting(table));
    for allowance in [0, 1, MAX_ALLOWANCE, MAX_ALLOWANCE + 1, u64::MAX] {
        calls.advise(allowance);
    }
}

/// Tables of many events, with clear fences as far as there is room.
fn chains(calls: &mut Calls, prng: &mut Prng, model: Model) {
    let random: Vec<Table> = (0..RANDOM_CHAINS).map(|_| chained_table(prng)).collect();
    let cases = chain_cases().into_iter().map(|(_, table)| table);
    for (number, bare) in cases.chain(random).enumerate() {
        let room = MOST_EVENTS - bare.events.len();
        let count = room.min(1 + number % FENCES_OF_CHAINS);
        let table = with_clear_fences(prng, &bare, count).in_model(model);
        every_way(calls, prng, &table);
    }
}

/// Small allowances on a table that may have many prefixes.
fn first_prefixes(calls: &mut Calls, prng: &mut Prng, table: Table) {
    let room = MOST_EVENTS - table.events.len();
    let table = with_clear_fences(prng, &table, room.min(MOST_EMPTY_FENCES / 2));
    calls.lend(&encode_fitting(&table));
    for allowance in [0, 1, 50, 400] {
        calls.advise(allowance);
    }
}

/// The same tables as tests of edition 2.
fn in_edition_two(calls: &mut Calls, prng: &mut Prng, cases: &[Case]) {
    for model in Model::ALL {
        for (_, test) in cases {
            let table = test.clone().in_model(model);
            calls.lend(&encode_in(Edition::Two, &table));
            all_allowances(calls, prng, &table);
        }
    }
}

/// More clear fences than eight, up to as many as an edition has room for.
fn too_many_fences(calls: &mut Calls) {
    for edition in Edition::ALL {
        for count in [MOST_EMPTY_FENCES + 1, edition.max_events() - 1] {
            let fences = vec![fence(0, 0); count];
            for first in [store(0, X, 1), load(0, X, 1)] {
                refused(calls, &table([vec![first], fences.clone()].concat()));
            }
        }
    }
}

/// Tests that reading refuses: by each line, with allowances that 17 would refuse, and others; and
/// with nine clear fences besides.
fn refused_tests(calls: &mut Calls) {
    let mut wrong_check = base_block();
    wrong_check[CHECK_AT] ^= 1;
    let mut tests = vec![Vec::new(), base_block()[1..].to_vec(), wrong_check];
    tests.extend(breaches().iter().map(|breach| {
        let mut block = base_block();
        breach.apply(&mut block);
        block
    }));
    let fences = vec![fence(0, 0); MOST_EMPTY_FENCES + 1];
    tests.push(encode(&table(fences.clone())));
    tests.extend(unused_cases().iter().map(|(_, test)| {
        let events = [test.events.clone(), fences.clone()].concat();
        encode_fitting(&Table { events, ..test.clone() })
    }));
    tests.extend(refused_by_each_line());
    for test in tests {
        calls.lend(&test);
        calls.advise(0);
        calls.advise(u64::MAX);
    }
}

#[cfg(test)]
mod tests {
    use super::*;
    use crate::advice::{advise, Advice};
    use crate::stream::{Malformed, Stream};
    use crate::table::{read, Kind, Line};
    use std::collections::BTreeMap;

    /// The test and the allowance of each call.
    fn called(bytes: &[u8]) -> Result<Vec<(&[u8], u64)>, Malformed> {
        let mut stream = Stream::new(bytes);
        let mut test: &[u8] = &[];
        let mut calls = Vec::new();
        while !stream.is_empty() {
            match stream.byte()? {
                LEND => test = stream.frame()?,
                ADVISE => calls.push((test, stream.number()?)),
                _ => return Err(Malformed),
            }
        }
        Ok(calls)
    }

    /// How often each line was given, each kind of answer by the number of clear fences, and each
    /// edition and model; and undecided with a set that is neither the first nor the last.
    #[derive(Default)]
    struct Given {
        lines: BTreeMap<u8, usize>,
        answers: BTreeMap<(&'static str, usize), usize>,
        answered: BTreeMap<(usize, u8), usize>,
        sizes: BTreeMap<usize, usize>,
        middle: usize,
        beside_tso: usize,
    }

    impl Given {
        fn count(&mut self, test: &[u8], allowance: u64) {
            let advice = match advise(test, allowance) {
                Err(refusal) => return *self.lines.entry(refusal.line as u8).or_default() += 1,
                Ok(advice) => advice,
            };
            let table = read(test).expect("it is good");
            let fences = clear_fences(&table).len();
            let name = match &advice {
                Advice::Advised(_) => "advised",
                Advice::Undecided(_) => "undecided",
                Advice::NoHelp => "no help",
            };
            *self.answers.entry((name, fences)).or_default() += 1;
            *self.answered.entry((test.len(), table.model as u8)).or_default() += 1;
            let is_tso = |event: &crate::table::Event| event.kind == Kind::FenceTso;
            self.beside_tso += usize::from(fences > 0 && table.events.iter().any(is_tso));
            match advice {
                Advice::Advised(set) => *self.sizes.entry(set.len()).or_default() += 1,
                Advice::Undecided(set) => {
                    self.middle += usize::from(!set.is_empty() && set.len() < fences)
                }
                Advice::NoHelp => {}
            }
        }
    }

    #[test]
    fn each_line_and_each_kind_of_answer_is_met_in_both_editions_and_models() {
        let stream = make_advice_calls();
        let mut given = Given::default();
        for (test, allowance) in called(&stream).expect("the stream is whole") {
            given.count(test, allowance);
        }
        for line in (1..=11).chain([21]) {
            assert!(given.lines[&line] >= 4, "line {line}");
        }
        for line in [Line::EmptyFences, Line::Allowance] {
            assert!(given.lines[&(line as u8)] >= 100, "{line:?}");
        }
        for fences in 0..=MOST_EMPTY_FENCES {
            for name in ["advised", "undecided", "no help"] {
                let count = given.answers[&(name, fences)];
                assert!(count >= 10, "{name} with {fences} fences: {count}");
            }
        }
        for edition in Edition::ALL {
            for model in Model::ALL {
                let answered = given.answered[&(edition.test_length(), model as u8)];
                assert!(answered >= 100, "{edition:?}, {model:?}: {answered}");
            }
        }
        for size in 0..=3 {
            assert!(given.sizes[&size] >= 10, "{size}: {}", given.sizes[&size]);
        }
        assert!(given.middle >= 50 && given.beside_tso >= 50);
    }
}
