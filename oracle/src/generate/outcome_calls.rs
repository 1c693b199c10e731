//! The stored stream of `outcome_calls`.

use super::breaches::{base_block, breaches};
use super::calls::small_table_in;
use super::chains::{chain_cases, chained_table};
use super::edition_two::refused_by_each_line;
use super::operations::{mixed_operation_cases, operation_cases};
use super::outcome_tables::{amo_chains, many_outcomes, single_outcomes};
use super::prng::Prng;
use super::random::{any_table, wide_table};
use super::unused::{stated_ends, unused_cases};
use crate::candidates::LEND;
use crate::encode::{encode, encode_fitting, encode_in};
use crate::layout::{Edition, CHECK_AT};
use crate::litmus::{self, *};
use crate::outcome::{outcome_length, Asked, Outcome, Within, MOST_OUTCOMES};
use crate::outcome_calls::tag_of;
use crate::search::MAX_ALLOWANCE;
use crate::stream::{push_frame, push_values};
use crate::table::{Model, Table};

const SEED: u64 = 11;
/// Random tables of few events, for each model.
const RANDOM_TABLES: usize = 60;
/// Random chains of edition 2, for each model.
const RANDOM_CHAINS: usize = 6;
/// Tables of any size, for each model, of which only the first prefixes are visited.
const LARGE_TABLES: usize = 12;
/// Calls of one table for the next outcome, unless all are asked for.
const SOME_CALLS: usize = 6;

/// The stream so far.
#[derive(Default)]
struct Calls {
    stream: Vec<u8>,
}

impl Calls {
    fn lend(&mut self, test: &[u8]) {
        self.stream.push(LEND);
        push_frame(&mut self.stream, test);
    }

    fn list(&mut self, asked: Asked, previous: &[u16], places: usize, allowance: u64) {
        self.stream.push(tag_of(asked));
        push_values(&mut self.stream, previous);
        self.stream.extend((places as u16).to_le_bytes());
        self.stream.extend(allowance.to_le_bytes());
    }

    /// Both entries with the same arguments.
    fn both(&mut self, previous: &[u16], places: usize, allowance: u64) {
        for asked in Asked::ALL {
            self.list(asked, previous, places, allowance);
        }
    }
}

/// A table whose test is lent: how many values its outcomes have, the outcomes themselves, and the
/// length of the first engine's list, which is the least allowance that isn't spent.
struct Lent {
    values: usize,
    outcomes: Vec<Outcome>,
    prefixes: u64,
}

impl Lent {
    fn to(calls: &mut Calls, table: &Table) -> Lent {
        Lent::in_edition(calls, table, &encode_fitting(table))
    }

    fn in_edition(calls: &mut Calls, table: &Table, test: &[u8]) -> Lent {
        calls.lend(test);
        let within = Within::of(table, MAX_ALLOWANCE);
        let outcomes = within.all().expect("the list is short").iter().cloned().collect();
        Lent { values: outcome_length(table), outcomes, prefixes: within.prefixes }
    }

    /// Room for so many outcomes.
    fn room(&self, outcomes: usize) -> usize {
        outcomes * self.values
    }
}

pub fn make_outcome_calls() -> Vec<u8> {
    let prng = &mut Prng::new(SEED);
    let mut calls = Calls::default();
    for model in Model::ALL {
        let cases = [litmus::all(), releasing_amos(), counters(), stated_ends()];
        let amos = [operation_cases(), mixed_operation_cases(), amo_chains()];
        for (_, test) in [cases.concat(), amos.concat(), single_outcomes()].concat() {
            every_way(&mut calls, prng, &test.in_model(model));
        }
        for (_, test) in many_outcomes() {
            hundreds(&mut calls, prng, &test.in_model(model));
        }
        for (_, test) in chain_cases() {
            one_by_one(&mut calls, &test.in_model(model));
        }
        for _ in 0..RANDOM_TABLES {
            let table = small_table_in(model, prng);
            every_way(&mut calls, prng, &table);
        }
        for _ in 0..RANDOM_CHAINS {
            let table = chained_table(prng).in_model(model);
            batches(&mut calls, prng, &table);
        }
        for _ in 0..LARGE_TABLES {
            for table in [any_table(prng), wide_table(prng)] {
                first_prefixes(&mut calls, prng, &table.in_model(model));
            }
        }
    }
    both_editions(&mut calls, prng);
    refused_arguments(&mut calls);
    refused_tests(&mut calls);
    calls.stream
}

/// A table's outcomes one by one and in batches, and what stands between and behind them.
fn every_way(calls: &mut Calls, prng: &mut Prng, table: &Table) {
    let lent = Lent::to(calls, table);
    walk(calls, &lent);
    for count in [2, 3] {
        batch_walk(calls, &lent, lent.room(count) + prng.below(lent.values));
    }
    other_previous(calls, prng, &lent);
    edges_of_the_allowance(calls, &lent);
}

/// All outcomes, from the empty list to none left, and once more behind that.
fn one_by_one(calls: &mut Calls, table: &Table) {
    let lent = Lent::to(calls, table);
    walk(calls, &lent);
}

fn walk(calls: &mut Calls, lent: &Lent) {
    calls.list(Asked::One, &[], lent.values, lent.prefixes);
    for outcome in &lent.outcomes {
        calls.list(Asked::One, outcome, lent.values, lent.prefixes);
    }
}

/// The same in batches, each from the last outcome of the one before.
fn batch_walk(calls: &mut Calls, lent: &Lent, places: usize) {
    let most = MOST_OUTCOMES.min(places / lent.values);
    calls.list(Asked::Some, &[], places, lent.prefixes);
    for batch in lent.outcomes.chunks(most) {
        let last = batch.last().expect("a batch has an outcome");
        calls.list(Asked::Some, last, places, lent.prefixes);
    }
}

fn batches(calls: &mut Calls, prng: &mut Prng, table: &Table) {
    let lent = Lent::to(calls, table);
    let all = lent.room(MOST_OUTCOMES);
    batch_walk(calls, &lent, all);
    other_previous(calls, prng, &lent);
}

/// A table with more outcomes than one call lists: batches with room for just so many, for more and
/// for fewer, and from outcomes behind which there are just so many, one more and one less.
fn hundreds(calls: &mut Calls, prng: &mut Prng, table: &Table) {
    let lent = Lent::to(calls, table);
    let most = lent.room(MOST_OUTCOMES);
    for places in [most, most + lent.values, most - 1] {
        batch_walk(calls, &lent, places);
    }
    for left in [1, 2, MOST_OUTCOMES - 1, MOST_OUTCOMES, MOST_OUTCOMES + 1] {
        let place = lent.outcomes.len().checked_sub(left + 1);
        let Some(previous) = place.map(|place| &lent.outcomes[place]) else { continue };
        calls.both(previous, most + 1, lent.prefixes);
    }
    for _ in 0..SOME_CALLS {
        let previous = prng.pick(&lent.outcomes);
        calls.both(previous, lent.room(2) - 1, lent.prefixes);
    }
    other_previous(calls, prng, &lent);
}

/// Previous outcomes that are no outcome, and buffers that are longer than what is written.
fn other_previous(calls: &mut Calls, prng: &mut Prng, lent: &Lent) {
    let ends = [0, 1, u16::MAX].map(|value| vec![value; lent.values]);
    for previous in &ends {
        calls.both(previous, lent.values + prng.below(4), lent.prefixes);
    }
    for _ in 0..SOME_CALLS {
        let near = near_outcome(prng, lent);
        calls.both(&near, lent.room(1 + prng.below(2)) + prng.below(3), lent.prefixes);
    }
}

/// An outcome with one of its values changed.
fn near_outcome(prng: &mut Prng, lent: &Lent) -> Outcome {
    let mut near = prng.pick(&lent.outcomes).clone();
    let place = prng.below(near.len());
    let (value, any) = (near[place], prng.bits() as u16);
    near[place] = *prng.pick(&[value.wrapping_add(1), value.wrapping_sub(1), value ^ 256, any]);
    near
}

/// Allowances about the length of the list and at both ends, with any previous outcome.
fn edges_of_the_allowance(calls: &mut Calls, lent: &Lent) {
    let last = lent.outcomes.last().expect("a test has an outcome");
    for previous in [&[][..], &lent.outcomes[0], last, &vec![u16::MAX; lent.values]] {
        let n = lent.prefixes;
        for allowance in [0, n - 1, n, n + 1, MAX_ALLOWANCE, MAX_ALLOWANCE + 1] {
            calls.list(Asked::One, previous, lent.values, allowance);
        }
        for allowance in [n - 1, MAX_ALLOWANCE] {
            calls.list(Asked::Some, previous, lent.room(2), allowance);
        }
    }
}

/// Small allowances on a table that may have many prefixes.
fn first_prefixes(calls: &mut Calls, prng: &mut Prng, table: &Table) {
    calls.lend(&encode_fitting(table));
    let values = outcome_length(table);
    for allowance in [0, 1, 50, 400] {
        let previous: Outcome = (0..values).map(|_| prng.bits() as u16).collect();
        calls.both(&[], values, allowance);
        calls.both(&previous, values + 1, allowance);
    }
}

/// The same tables as tests of edition 2.
fn both_editions(calls: &mut Calls, prng: &mut Prng) {
    for (_, test) in [litmus::all(), counters(), amo_chains()].concat() {
        let lent = Lent::in_edition(calls, &test, &encode_in(Edition::Two, &test));
        batch_walk(calls, &lent, lent.room(MOST_OUTCOMES));
        other_previous(calls, prng, &lent);
    }
}

/// Lines 12, 16 and 17: previous outcomes of each wrong length, buffers that are too short, and
/// allowances that are too large, each alone and together; spent comes behind them all.
fn refused_arguments(calls: &mut Calls) {
    let chain = chain_cases().remove(0).1;
    for test in [c1(), c10(), counter(), table(vec![store(0, X, 1)]), chain] {
        let lent = Lent::to(calls, &test);
        let values = lent.values;
        for length in [0, 1, values - 1, values, values + 1, 2 * values, 255] {
            let previous = vec![u16::from(length % 2 == 1); length];
            for places in [0, 1, values - 1, values, values + 1, lent.room(MOST_OUTCOMES) + 1] {
                for allowance in [0, lent.prefixes, MAX_ALLOWANCE + 1] {
                    calls.both(&previous, places, allowance);
                }
            }
            calls.both(&previous, values, u64::MAX);
        }
    }
}

/// Tests that reading refuses: by each line, with arguments that 12, 16 and 17 would refuse, and
/// others.
fn refused_tests(calls: &mut Calls) {
    let mut wrong_check = base_block();
    wrong_check[CHECK_AT] ^= 1;
    let mut tests = vec![Vec::new(), base_block()[1..].to_vec(), wrong_check];
    tests.extend(breaches().iter().map(|breach| {
        let mut block = base_block();
        breach.apply(&mut block);
        block
    }));
    tests.push(encode(&table(vec![fence(0, FULL)])));
    tests.extend(unused_cases().iter().map(|(_, test)| encode(test)));
    tests.extend(refused_by_each_line());
    for test in tests {
        calls.lend(&test);
        calls.both(&[], 0, 0);
        calls.both(&[1], 0, u64::MAX);
    }
}

#[cfg(test)]
mod tests {
    use super::*;
    use crate::outcome::{Arguments, Lister, Listing};
    use crate::outcome_calls::asked_of;
    use crate::stream::{Malformed, Stream};
    use crate::table::{read, Line};
    use std::collections::BTreeMap;

    /// A call's test, what it asks for, and its arguments.
    type Called<'a> = (&'a [u8], Asked, Outcome, usize, u64);

    fn called(bytes: &[u8]) -> Result<Vec<Called<'_>>, Malformed> {
        let mut stream = Stream::new(bytes);
        let mut test: &[u8] = &[];
        let mut calls = Vec::new();
        while !stream.is_empty() {
            let tag = stream.byte()?;
            if tag == LEND {
                test = stream.frame()?;
                continue;
            }
            let (previous, places) = (stream.values()?, stream.word()?.into());
            calls.push((test, asked_of(tag)?, previous, places, stream.number()?));
        }
        Ok(calls)
    }

    /// How often each line and each kind of answer was given, of which edition and model.
    #[derive(Default)]
    struct Given {
        lines: BTreeMap<u8, usize>,
        listed: BTreeMap<(usize, u8), usize>,
        most: usize,
        none_left: usize,
        spent: usize,
    }

    impl Given {
        fn count(&mut self, lister: &mut Lister, call: &Called) {
            let (test, asked, previous, places, allowance) = call;
            let (asked, places, allowance) = (*asked, *places, *allowance);
            match lister.list(test, Arguments { asked, previous, places, allowance }) {
                Err(refusal) => *self.lines.entry(refusal.line as u8).or_default() += 1,
                Ok(Listing::NoneLeft) => self.none_left += 1,
                Ok(Listing::Spent) => self.spent += 1,
                Ok(Listing::Listed(outcomes)) => {
                    let model = read(test).expect("it is good").model as u8;
                    *self.listed.entry((test.len(), model)).or_default() += 1;
                    self.most = self.most.max(outcomes.len());
                }
            }
        }
    }

    #[test]
    fn each_line_and_each_kind_of_answer_is_met_in_both_editions_and_models() {
        let stream = make_outcome_calls();
        let (mut given, mut lister) = (Given::default(), Lister::default());
        for call in called(&stream).expect("the stream is whole") {
            given.count(&mut lister, &call);
        }
        for line in (1..=11).chain([21]) {
            assert!(given.lines[&line] >= 4, "line {line}");
        }
        for line in [Line::ListLength, Line::Buffer, Line::Allowance] {
            assert!(given.lines[&(line as u8)] >= 100, "{line:?}");
        }
        for edition in Edition::ALL {
            for model in Model::ALL {
                let listed = given.listed[&(edition.test_length(), model as u8)];
                assert!(listed >= 100, "{edition:?}, {model:?}: {listed}");
            }
        }
        assert_eq!(given.most, MOST_OUTCOMES);
        assert!(given.none_left >= 500 && given.spent >= 500);
    }
}
