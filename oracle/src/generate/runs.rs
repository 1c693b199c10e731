//! The stored stream of `runs`.

use super::breaches::{base_block, breaches};
use super::edition_two::refused_by_each_line;
use super::machine_tables::{machine_cases, machine_table, sc_shapes};
use super::models::tso_tests;
use super::orders::permutations;
use super::prng::Prng;
use super::unused::unused_cases;
use crate::candidates::LEND;
use crate::encode::{encode, encode_fitting, encode_in, encode_raw};
use crate::layout::{one, Edition, CHECK_AT, MAX_HARTS, MOST_EVENTS};
use crate::litmus::*;
use crate::machine::{visit_states, Machine, Step};
use crate::raw::RawTable;
use crate::rules::is_lawful;
use crate::runs::STEP;
use crate::stream::{push_frame, push_list};
use crate::table::{Kind, Model, Table};

const SEED: u64 = 10;
/// Random tables of few events, of which some runs are followed to their ends.
const RANDOM_TABLES: usize = 60;
const RUNS: usize = 2;
/// Of the tables with stores that may depend on an SC, one in so many.
const SHAPES_APART: usize = 61;
/// Random tables with more events than edition 1 has room for.
const WIDE_TABLES: usize = 12;

/// Every step, and two numbers that are none.
const BYTES: std::ops::Range<u64> = 0..10;

/// Numbers that are no step, whatever the test; the last three have a step's lowest byte.
const NO_STEPS: [u64; 12] =
    [8, 9, 12, 127, 128, 254, 255, 1 << 32, u64::MAX, 256, (1 << 32) + 4, (1 << 63) + 1];

/// The stream so far.
#[derive(Default)]
struct Calls {
    stream: Vec<u8>,
}

impl Calls {
    fn lend(&mut self, test: &[u8]) {
        self.stream.push(LEND);
        push_frame(&mut self.stream, test);
    }

    fn step(&mut self, steps: &[u8], step: u64) {
        self.stream.push(STEP);
        push_list(&mut self.stream, steps);
        self.stream.extend(step.to_le_bytes());
    }

    /// Every byte from 0 to 9 behind a list.
    fn each_step(&mut self, steps: &[u8]) {
        for step in BYTES {
            self.step(steps, step);
        }
    }

    /// Each step of a run behind those before it.
    fn whole_run(&mut self, run: &[u8]) {
        for (place, &step) in run.iter().enumerate() {
            self.step(&run[..place], step.into());
        }
    }
}

pub fn make_runs() -> Vec<u8> {
    let prng = &mut Prng::new(SEED);
    let mut calls = Calls::default();
    for (_, test) in machine_cases() {
        calls.lend(&encode(&test));
        visit_states(&test, &mut |steps, _| calls.each_step(steps));
        runs_of_all_orders(&mut calls, &test);
    }
    for (_, test) in tso_tests() {
        calls.lend(&encode(&test));
        runs_of_all_orders(&mut calls, &test);
    }
    for shape in sc_shapes().iter().step_by(SHAPES_APART) {
        eager_issues(&mut calls, shape);
    }
    numbers_of_no_step(&mut calls);
    lists_that_are_no_run(&mut calls);
    lost_reservations(&mut calls);
    other_models(&mut calls);
    refused_tests(&mut calls);
    for number in 0..RANDOM_TABLES {
        let events = 4 + number % 9;
        let table = machine_table(prng, 1 + number % MAX_HARTS, events);
        random_runs(&mut calls, prng, &table);
    }
    for number in 0..WIDE_TABLES {
        let events = one::MAX_EVENTS + 1 + number % (MOST_EVENTS - one::MAX_EVENTS);
        let table = machine_table(prng, 1 + number % MAX_HARTS, events);
        random_runs(&mut calls, prng, &table);
    }
    thirty_events(&mut calls);
    calls.stream
}

/// For each lawful order a run of that order, and a step behind its end.
fn runs_of_all_orders(calls: &mut Calls, table: &Table) {
    let orders = permutations(&table.memory_events());
    for order in orders.iter().filter(|order| is_lawful(table, order)) {
        let run = run_of(table, order);
        calls.whole_run(&run);
        calls.step(&run, 0);
    }
}

/// A run whose order is the lawful one given: for each of its events the hart issues up to it, and a
/// store or SC drains; at the end what is left is issued.
pub fn run_of(table: &Table, order: &[usize]) -> Vec<u8> {
    let mut issued = vec![0; table.harts];
    let mut run = Vec::new();
    let own = |hart: usize| (0..table.events.len()).filter(move |&e| table.events[e].hart == hart);
    let mut issue_to = |run: &mut Vec<u8>, hart: usize, last: usize| {
        for _ in own(hart).skip(issued[hart]).take_while(|&event| event <= last) {
            run.push(Step::Issue(hart).byte());
            issued[hart] += 1;
        }
    };
    for &event in order {
        let hart = table.events[event].hart;
        issue_to(&mut run, hart, event);
        if matches!(table.events[event].kind, Kind::Store | Kind::Sc) {
            run.push(Step::Drain(hart).byte());
        }
    }
    for hart in 0..table.harts {
        issue_to(&mut run, hart, table.events.len());
    }
    run
}

/// Hart 0 issues as long as it may; then every byte.
fn eager_issues(calls: &mut Calls, table: &Table) {
    let mut machine = Machine::of(table);
    let mut run = Vec::new();
    while machine.take(Step::Issue(0)).is_some() {
        run.push(Step::Issue(0).byte());
    }
    calls.lend(&encode(table));
    calls.whole_run(&run);
    calls.each_step(&run);
}

/// Numbers that are no step, and steps of harts that aren't in the test.
fn numbers_of_no_step(calls: &mut Calls) {
    let tests = [vec![store(0, X, 1)], vec![store(0, X, 1), load(2, X, 1)]];
    for test in tests.map(|events| table(events).in_model(Model::Rvtso)) {
        calls.lend(&encode(&test));
        for steps in [&[][..], &[0], &[0, 4]] {
            NO_STEPS.iter().for_each(|&number| calls.step(steps, number));
            calls.each_step(steps);
        }
    }
}

/// Lists with a step that isn't accepted, at each place, before steps that would be without it.
fn lists_that_are_no_run(calls: &mut Calls) {
    let test = c3().in_model(Model::Rvtso);
    let run = run_of(&test, &[1, 3, 0, 2]);
    calls.lend(&encode(&test));
    for place in 0..=run.len() {
        for wrong in [2, 3, 6, 7, 8, 255] {
            let list = [&run[..place], &[wrong], &run[place..]].concat();
            calls.step(&list[..list.len() - 1], list[list.len() - 1].into());
            calls.step(&list[..=place], run.get(place).copied().unwrap_or(0).into());
        }
    }
    // A drain before the store is issued; then the run itself.
    calls.step(&[4], 0);
    calls.step(&[5, 0], 1);
    for length in [run.len(), run.len() + 1, 30, 60, 61, 255] {
        let long: Vec<u8> = run.iter().copied().cycle().take(length).collect();
        calls.step(&long, 0);
        calls.step(&vec![0; length], 0);
        calls.step(&vec![4; length], 4);
    }
}

/// Another hart's write before the SC drains: the rest of the run goes on, and the SC stays.
fn lost_reservations(calls: &mut Calls) {
    let test = table(vec![
        lr(0, X, 0),
        sc(0, X, 1),
        store(0, Y, 1),
        store(1, X, 2),
        load(1, Y, 0),
        load(2, X, 2),
    ]);
    calls.lend(&encode(&test.in_model(Model::Rvtso)));
    let lost = [0, 0, 0, 1, 5];
    calls.whole_run(&lost);
    calls.each_step(&lost);
    calls.whole_run(&[0, 0, 0, 1, 5, 1, 2]);
    calls.each_step(&[0, 0, 0, 1, 5, 1, 2]);
    calls.each_step(&[0, 0, 0, 1, 5, 4]);
}

/// Model 0, and numbers that are no model's, with lists that are runs of model 1 and others.
fn other_models(calls: &mut Calls) {
    for edition in Edition::ALL {
        for model in [0, 1, 2, 255] {
            calls.lend(&encode_raw(edition, &RawTable { model, ..RawTable::from(&c3()) }));
            calls.each_step(&[]);
            calls.whole_run(&[0, 1, 0, 1, 4, 5]);
            calls.step(&[8], 0);
            calls.step(&[], u64::MAX);
        }
    }
}

/// Tests that reading refuses: by each line, with steps and lists that 24 would refuse, and others.
fn refused_tests(calls: &mut Calls) {
    let mut wrong_check = base_block();
    wrong_check[CHECK_AT] ^= 1;
    let mut tests = vec![Vec::new(), base_block()[1..].to_vec(), wrong_check];
    tests.extend(breaches().iter().map(|breach| {
        let mut block = base_block();
        breach.apply(&mut block);
        block
    }));
    tests.push(encode(&table(vec![fence(0, FULL)])));
    tests.extend(
        unused_cases().iter().map(|(_, test)| encode(&test.clone().in_model(Model::Rvtso))),
    );
    tests.extend(refused_by_each_line());
    for test in tests {
        calls.lend(&test);
        calls.step(&[], 0);
        calls.step(&[4, 255], u64::MAX);
    }
}

/// Some runs that are followed until no step is accepted, with every byte behind some states; and
/// the same runs with a step changed, left out or doubled.
fn random_runs(calls: &mut Calls, prng: &mut Prng, table: &Table) {
    calls.lend(&encode_fitting(table));
    for _ in 0..RUNS {
        let run = random_run(prng, table);
        calls.whole_run(&run);
        calls.each_step(&run);
        calls.each_step(&run[..prng.below(run.len() + 1)]);
        let changed = changed_run(prng, &run);
        let length = prng.below(changed.len() + 1);
        calls.step(&changed[..length], prng.below(8) as u64);
    }
}

/// Steps that are accepted, until none is.
pub fn random_run(prng: &mut Prng, table: &Table) -> Vec<u8> {
    let mut machine = Machine::of(table);
    let mut run = Vec::new();
    loop {
        let accepted = machine.accepted();
        if accepted.is_empty() {
            return run;
        }
        let step = *prng.pick(&accepted);
        machine.take(step).expect("it is accepted");
        run.push(step.byte());
    }
}

/// A run with a step changed, left out or doubled, or two exchanged.
pub fn changed_run(prng: &mut Prng, run: &[u8]) -> Vec<u8> {
    let mut changed = run.to_vec();
    let place = prng.below(run.len());
    match prng.below(4) {
        0 => changed[place] = prng.below(9) as u8,
        1 => drop(changed.remove(place)),
        2 => changed.insert(place, run[place]),
        _ => changed.swap(place, prng.below(run.len())),
    }
    changed
}

/// Thirty events in one buffer, and thirty reads of a store that stays in it.
fn thirty_events(calls: &mut Calls) {
    let stores = table(vec![store(0, X, 1); MOST_EVENTS]).in_model(Model::Rvtso);
    calls.lend(&encode_fitting(&stores));
    let run = [[0; MOST_EVENTS], [4; MOST_EVENTS]].concat();
    calls.whole_run(&run);
    calls.each_step(&run);
    let mut events = vec![load(3, X, 1); MOST_EVENTS];
    events[0] = store(3, X, 1);
    let loads = table(events).in_model(Model::Rvtso);
    calls.lend(&encode_in(Edition::Two, &loads));
    let run = [&[3; MOST_EVENTS][..], &[7]].concat();
    calls.whole_run(&run);
    calls.each_step(&run);
}

#[cfg(test)]
mod tests {
    use super::*;
    use crate::machine::{after, step, Taken};
    use crate::rules::Write;
    use crate::stream::{Malformed, Stream};
    use crate::table::Line;
    use std::collections::BTreeMap;

    /// A call's test, list and step.
    type Asked<'a> = (&'a [u8], &'a [u8], u64);

    fn asked(bytes: &[u8]) -> Result<Vec<Asked<'_>>, Malformed> {
        let mut stream = Stream::new(bytes);
        let mut test: &[u8] = &[];
        let mut calls = Vec::new();
        while !stream.is_empty() {
            match stream.byte()? {
                LEND => test = stream.frame()?,
                STEP => calls.push((test, stream.list()?, stream.number()?)),
                _ => return Err(Malformed),
            }
        }
        Ok(calls)
    }

    #[test]
    fn each_line_and_each_kind_of_answer_is_met() {
        let stream = make_runs();
        let mut lines = BTreeMap::<u8, usize>::new();
        let (mut initial, mut from_event, mut nothing, mut in_two) = (0, 0, 0, 0);
        for (test, steps, number) in asked(&stream).expect("the stream is whole") {
            match step(test, steps, number) {
                Err(refusal) => *lines.entry(refusal.line as u8).or_default() += 1,
                Ok(Taken { returned, .. }) => {
                    match returned {
                        None => nothing += 1,
                        Some(Write::Initial) => initial += 1,
                        Some(Write::Of(_)) => from_event += 1,
                    }
                    in_two += usize::from(test.len() == Edition::Two.test_length());
                }
            }
        }
        for line in (1..=11).chain([21]) {
            assert!(lines[&line] >= 4, "line {line}");
        }
        assert!(lines[&(Line::Step as u8)] >= 3000);
        assert!(nothing >= 1000 && initial >= 200 && from_event >= 200 && in_two >= 200);
    }

    #[test]
    fn the_run_of_a_lawful_order_has_that_order() {
        for (_, test) in [tso_tests(), machine_cases()].concat() {
            for order in permutations(&test.memory_events()) {
                let machine = after(&test, &run_of(&test, &order));
                let is_run = machine.is_some_and(|m| m.is_complete() && m.order == order);
                assert_eq!(is_run, is_lawful(&test, &order), "{order:?}");
            }
        }
    }
}
