//! Times the engine that gives up early on the kept set: beside the first engine, and beside plain Rust with the same pruning.

use crate::clock::{calls_per_run, least, microseconds, milliseconds, nanoseconds};
use crate::kept::kept;
use crate::plain::{self, Answer};
use crate::table::EVENTS;
use crate::{proved, Search, RUNS};
use std::hint::black_box;
use std::iter::repeat_n;

/// The word after the program's name that makes this program time the kept set.
pub const COMMAND: &str = "pruned";

/// A walk of the first engine ends here, if it isn't finished.
const MOST_VISITS: u64 = 100_000_000;
/// One of the second engine finishes before.
const LARGEST_ALLOWANCE: u64 = 1_000_000_000;

const RUNS_OF_THE_FIRST: usize = 3;

/// How far a walk went.
#[derive(Clone, Copy, Debug, PartialEq)]
struct Walked {
    visited: u64,
    finished: bool,
}

/// A walk from witness to witness, to its end or until it has visited as many prefixes as it may.
fn walk(search: Search, block: &[u8], most: u64, mut witness: impl FnMut(&[u8])) -> Walked {
    let mut start = [0; EVENTS];
    let (mut start_len, mut visited) = (0, 0);
    loop {
        let mut out = [0; EVENTS];
        match search(block, &start[..start_len], &mut out, most - visited).expect("the block and the start are good") {
            Answer::Found { len, visited: more } => {
                witness(&out[..len]);
                (start, start_len) = (out, len);
                visited += more;
            }
            Answer::NoneLeft { visited: more } => return Walked { visited: visited + more, finished: true },
            Answer::Spent { visited: more, .. } => return Walked { visited: visited + more, finished: false },
        }
    }
}

/// A walk with all its witnesses.
fn listed(search: Search, block: &[u8], most: u64) -> (Walked, Vec<Vec<u8>>) {
    let mut witnesses = Vec::new();
    let walked = walk(search, block, most, |order| witnesses.push(order.to_vec()));
    (walked, witnesses)
}

/// Nanoseconds of one walk, of as many as are made.
fn time(search: Search, block: &[u8], most: u64, walks: usize) -> f64 {
    let to_the_end = |block| {
        walk(search, block, most, |order| {
            black_box(order);
        })
    };
    nanoseconds(repeat_n(block, walks), to_the_end) / walks as f64
}

/// What was seen of a table: both engines' walks, and nanoseconds of the first engine, of the second and of plain Rust.
struct Row {
    name: String,
    first: Walked,
    second: Walked,
    witnesses: usize,
    times: [f64; 3],
}

impl Row {
    /// How many times as fast the second engine is as the first, at least; and its time beside that of plain Rust.
    fn ratios(&self) -> (f64, f64) {
        let [first, second, plain] = self.times;
        (first / second, second / plain)
    }
}

/// The walks, held to each other: the witnesses of both engines are the same, as far as the first one goes.
fn row(name: String, block: &[u8]) -> Row {
    let (first, some) = listed(proved::search, block, MOST_VISITS);
    let whole = listed(proved::search_pruned, block, LARGEST_ALLOWANCE);
    assert!(whole == listed(plain::search_pruned, block, LARGEST_ALLOWANCE));
    let (second, witnesses) = whole;
    assert!(second.finished && witnesses.starts_with(&some) && (!first.finished || some == witnesses));
    let walks = calls_per_run(second.visited);
    let forms = [proved::search_pruned as Search, plain::search_pruned];
    let [of_the_first] =
        least(RUNS_OF_THE_FIRST, [proved::search as Search], |search| time(search, block, MOST_VISITS, 1));
    let [of_the_second, plain] = least(RUNS, forms, |search| time(search, block, LARGEST_ALLOWANCE, walks));
    Row { name, first, second, witnesses: witnesses.len(), times: [of_the_first, of_the_second, plain] }
}

fn print(row: &Row) {
    let [first, second, plain] = row.times;
    let (faster, beside) = row.ratios();
    let mark = if row.first.finished { ' ' } else { '+' };
    println!(
        "{:<30}{:>11}{mark}{:>10}{:>10}{:>11.1}{mark}{:>9.1}{:>9.1}{mark}{:>9.1}{:>7.2}",
        row.name,
        row.first.visited,
        row.second.visited,
        row.witnesses,
        microseconds(first),
        microseconds(second),
        faster,
        microseconds(plain),
        beside
    );
}

fn median(mut numbers: Vec<f64>) -> f64 {
    numbers.sort_by(f64::total_cmp);
    let half = numbers.len() / 2;
    (numbers[half - 1] + numbers[half]) / 2.0
}

fn print_totals(rows: &[Row]) {
    let total = |which: usize| rows.iter().map(|row| row.times[which]).sum::<f64>();
    let [first, second, plain] = [0, 1, 2].map(total);
    let visited = |walked: fn(&Row) -> Walked| rows.iter().map(|row| walked(row).visited).sum::<u64>();
    println!("\nvisited: first {}, second {}", visited(|row| row.first), visited(|row| row.second));
    let [first_ms, second_ms, plain_ms] = [first, second, plain].map(milliseconds);
    println!("ms: first {first_ms:.1}, second {second_ms:.3}, Rust {plain_ms:.3}");
    let (faster, beside) = rows.iter().map(Row::ratios).unzip();
    println!(
        "first beside second: ratio of the totals {:.1}, median of the ratios {:.1}",
        first / second,
        median(faster)
    );
    println!(
        "second beside Rust: ratio of the totals {:.2}, median of the ratios {:.2}",
        second / plain,
        median(beside)
    );
}

/// Times the kept set.
pub fn run() {
    println!("µs of walks to the end; least of {RUNS_OF_THE_FIRST} runs of the first engine, else of {RUNS}");
    println!("+: the first engine was stopped after {MOST_VISITS} visits; its time and the ratio are at least these");
    println!(
        "{:<30}{:>11} {:>10}{:>10}{:>11} {:>9}{:>9} {:>9}{:>7}",
        "table", "first list", "second", "witnesses", "first", "second", "ratio", "Rust", "ratio"
    );
    let rows: Vec<Row> = kept()
        .into_iter()
        .map(|(name, block)| {
            let row = row(name, &block);
            print(&row);
            row
        })
        .collect();
    print_totals(&rows);
}
