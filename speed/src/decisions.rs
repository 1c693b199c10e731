//! Times decisions: on seeded tables of 16 and of 30 events, the public litmus tests, and tables that were bred for as many
//! states as possible; beside plain Rust with the same states, and beside the second engine.

use crate::clock::{microseconds, nanoseconds};
use crate::decide::{self, Decision};
use crate::plain::Answer;
use crate::reading::Refusal;
use crate::table::{self, EVENTS_TWO};
use crate::{bred, drawn, proved, RUNS, UNTOUCHED};
use std::hint::black_box;
use std::io::stdin;

/// The word after the program's name that makes this program time decisions.
pub const COMMAND: &str = "decide";

/// Seeded tables of each size.
const TABLES: usize = 1000;
const SEED: u64 = 7;

/// The second engine visits no more prefixes of a test.
const ALLOWANCE: u64 = 1_000_000;
const RUNS_OF_THE_SECOND: usize = 2;

/// A call that takes longer than so many microseconds is made once more, and no more.
const LONG: f64 = 100_000.0;

/// What was seen of a test: states, microseconds of the proved decision, of plain Rust and of the second engine.
struct Row {
    is_allowed: bool,
    states: u64,
    times: [f64; 3],
    /// The second engine gave up.
    is_spent: bool,
}

/// Of a test, with a start and a buffer.
type Decide = fn(&[u8], &[u8], &mut [u8]) -> Result<Decision, Refusal>;

/// A decision, and the buffer afterwards.
type Said = (Decision, [u8; EVENTS_TWO]);

/// What both say.
fn agreed(test: &[u8]) -> Said {
    let call = |decide: Decide| {
        let mut out = [UNTOUCHED; EVENTS_TWO];
        (decide(test, &[], &mut out).expect("the test is good"), out)
    };
    let decision = call(proved::decide);
    assert!(decision == call(decide::decide), "both decide the same");
    decision
}

/// Whether the second engine gives up; if it doesn't, it says the same.
fn is_spent(test: &[u8], decision: Said) -> bool {
    let mut out = [UNTOUCHED; EVENTS_TWO];
    let said = match proved::search_pruned(test, &[], &mut out, ALLOWANCE).expect("the test is good") {
        Answer::Spent { .. } => return true,
        Answer::Found { len, .. } => Decision::Found { len },
        Answer::NoneLeft { .. } => Decision::NoneLeft,
    };
    assert!((said, out) == decision, "the second engine says the same");
    false
}

/// The least of the microseconds of some calls.
fn least<A>(runs: usize, mut call: impl FnMut() -> A) -> f64 {
    let mut least = f64::MAX;
    for run in 0..runs {
        least = least.min(microseconds(nanoseconds([()], |()| call())));
        if run > 0 && least > LONG {
            break;
        }
    }
    least
}

fn row(test: &[u8]) -> Row {
    let decision = agreed(test);
    let mut out = [0; EVENTS_TWO];
    let test = black_box(test);
    let times = [
        least(RUNS, || proved::decide(test, &[], &mut out)),
        least(RUNS, || decide::decide(test, &[], &mut out)),
        least(RUNS_OF_THE_SECOND, || proved::search_pruned(test, &[], &mut out, ALLOWANCE)),
    ];
    let is_allowed = decision.0 != Decision::NoneLeft;
    Row { is_allowed, states: decide::states(test, u64::MAX), times, is_spent: is_spent(test, decision) }
}

/// The median of the numbers, and the largest.
fn median_and_worst<T: PartialOrd + Copy>(numbers: impl Iterator<Item = T>) -> (T, T) {
    let mut all: Vec<T> = numbers.collect();
    all.sort_by(|a, b| a.partial_cmp(b).expect("numbers"));
    (all[all.len() / 2], all[all.len() - 1])
}

fn print_rows(title: &str, rows: &[Row]) {
    let allowed = rows.iter().filter(|row| row.is_allowed).count();
    let spent = rows.iter().filter(|row| row.is_spent).count();
    let (states, most_states) = median_and_worst(rows.iter().map(|row| row.states));
    print!("{title:<24}{:>6}{allowed:>8}{states:>8}{most_states:>10}", rows.len());
    for which in 0..3 {
        let (median, worst) = median_and_worst(rows.iter().map(|row| row.times[which]));
        print!("{median:>9.1}{worst:>12.1}");
    }
    println!("{spent:>7}");
}

/// The tests of a suite.
pub fn tests(mut suite: &[u8]) -> Vec<&[u8]> {
    let mut tests = Vec::new();
    while !suite.is_empty() {
        let (test, rest) = suite.split_at(table::length(suite));
        tests.push(test);
        suite = rest;
    }
    tests
}

/// The tests of lines on standard input: the stated verdict, the bytes in hex and the name, parted by tabs.
fn litmus() -> Vec<(bool, Vec<u8>)> {
    let test = |line: String| {
        let mut fields = line.split('\t');
        let (verdict, hex) = (fields.next().expect("a verdict"), fields.next().expect("a test"));
        let byte = |at: usize| u8::from_str_radix(&hex[at..at + 2], 16).expect("two digits");
        (verdict == "allowed", (0..hex.len()).step_by(2).map(byte).collect())
    };
    stdin().lines().map(|line| test(line.expect("a line"))).collect()
}

fn print_titles() {
    println!(
        "first decisions: states and µs of a call, median and worst; least of {RUNS} runs, of the second engine of"
    );
    println!("{RUNS_OF_THE_SECOND}, with allowance {ALLOWANCE}, which it spends on some");
    println!(
        "{:<24}{:>6}{:>8}{:>18}{:>21}{:>21}{:>21}{:>7}",
        "tables", "", "allowed", "states", "proved", "Rust", "second engine", "spent"
    );
}

/// Times all of them; the public litmus tests are read.
pub fn run() {
    print_titles();
    for events in [table::EVENTS, EVENTS_TWO] {
        let rows: Vec<Row> = drawn::drawn(SEED, events, TABLES).iter().map(|test| row(test)).collect();
        print_rows(&format!("seeded, {events} events"), &rows);
    }
    let litmus = litmus();
    let rows: Vec<Row> = litmus.iter().map(|(_, test)| row(test)).collect();
    assert!(rows.iter().zip(&litmus).all(|(row, (is_allowed, _))| row.is_allowed == *is_allowed));
    print_rows("public litmus tests", &rows);
    for (test, number) in tests(bred::BRED).into_iter().zip(1..) {
        print_rows(&format!("bred {number}, {} events", test[table::EVENTS_AT]), &[row(test)]);
    }
}
