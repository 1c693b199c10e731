//! Times the proved search and reading beside plain Rust with the same algorithms, on the same tests and in the same run.

mod advice;
mod bred;
mod clock;
mod decide;
mod decisions;
mod drawn;
mod facts;
mod kept;
mod listing;
mod outcomes;
mod plain;
mod proved;
mod pruned;
mod reading;
mod shapes;
mod suite;
mod table;
mod text;
mod texts;

use clock::{calls_per_run, least, milliseconds, nanoseconds};
use plain::Answer;
use reading::Refusal;
use std::iter::repeat_n;
use table::{BLOCK, EVENTS};

/// Of a block, with a start, a buffer and an allowance.
type Search = fn(&[u8], &[u8], &mut [u8], u64) -> Result<Answer, Refusal>;
type Reading = fn(&[u8]) -> Option<Refusal>;

const ALLOWANCE: u64 = 1_000_000;
const RUNS: usize = 20;

const SUITE_BLOCKS: usize = 40_000;

/// In the answer buffer before a call.
const UNTOUCHED: u8 = 0xEE;

fn visited(answer: &Answer) -> u64 {
    match *answer {
        Answer::Found { visited, .. } | Answer::NoneLeft { visited } | Answer::Spent { visited, .. } => visited,
    }
}

fn name(answer: &Answer) -> &'static str {
    match answer {
        Answer::Found { .. } => "found",
        Answer::NoneLeft { .. } => "none left",
        Answer::Spent { .. } => "spent",
    }
}

/// The answer and the buffer afterwards, which both must give.
fn agreed(block: &[u8]) -> Answer {
    let call = |search: Search| {
        let mut out = [UNTOUCHED; EVENTS];
        (search(block, &[], &mut out, ALLOWANCE).expect("the block is good"), out)
    };
    let answer = call(proved::search);
    assert_eq!(answer, call(plain::search));
    answer.0
}

/// Nanoseconds of searching all the blocks in turn, proved and in plain Rust.
fn time_searches<'a>(blocks: impl Iterator<Item = &'a [u8]> + Clone) -> [f64; 2] {
    least(RUNS, [proved::search as Search, plain::search], |search| {
        let mut out = [0; EVENTS];
        nanoseconds(blocks.clone(), |block| search(block, &[], &mut out, ALLOWANCE))
    })
}

fn time_shapes() {
    println!("ns per visited prefix, whole calls, allowance {ALLOWANCE}, least of {RUNS} runs");
    println!("{:<28}{:>10}{:>11}{:>9}{:>9}{:>7}", "table", "visited", "answer", "proved", "Rust", "ratio");
    for (title, table) in shapes::timed() {
        let block = table.encode();
        let answer = agreed(&block);
        let count = visited(&answer);
        let calls = calls_per_run(count);
        let [p, q] = time_searches(repeat_n(&block[..], calls));
        let each = (calls as u64 * count) as f64;
        println!("{title:<28}{count:>10}{:>11}{:>9.2}{:>9.2}{:>7.2}", name(&answer), p / each, q / each, p / q);
    }
}

fn time_suite() {
    let kinds: Vec<Vec<u8>> = shapes::small().iter().map(|t| t.encode()).collect();
    for block in &kinds {
        agreed(block);
    }
    let blocks: Vec<u8> = kinds.iter().cycle().take(SUITE_BLOCKS).flatten().copied().collect();
    let [p, q] = time_searches(blocks.chunks(BLOCK));
    println!(
        "\n{SUITE_BLOCKS} small blocks, ms: proved {:.1}, Rust {:.1}, ratio {:.2}",
        milliseconds(p),
        milliseconds(q),
        p / q
    );
    if let Some(path) = std::env::args().nth(1) {
        suite::time(&path, &blocks, SUITE_BLOCKS);
    }
}

/// Reading by itself, of as many good tests as the suite has blocks.
fn time_readings(edition: u8, kinds: &[Vec<u8>]) {
    for test in kinds {
        assert_eq!((proved::refusal(test), reading::refusal(test)), (None, None));
    }
    let bytes: Vec<u8> = kinds.iter().cycle().take(SUITE_BLOCKS).flatten().copied().collect();
    let forms = [proved::refusal as Reading, reading::refusal];
    let times = least(RUNS, forms, |reading| nanoseconds(bytes.chunks(kinds[0].len()), reading));
    let [p, q] = times.map(milliseconds);
    println!("{SUITE_BLOCKS} tests of edition {edition} read, ms: proved {p:.1}, Rust {q:.1}, ratio {:.2}", p / q);
}

/// With the path of the proved suite program it times both of them too. With a word it is the suite program, times the second
/// engine, texts, outcomes, advice or decisions, or breeds tables for these.
fn main() {
    match std::env::args().nth(1).as_deref() {
        Some(suite::COMMAND) => return suite::run(),
        Some(pruned::COMMAND) => return pruned::run(),
        Some(texts::COMMAND) => return texts::run(),
        Some(outcomes::COMMAND) => return outcomes::run(),
        Some(advice::COMMAND) => return advice::run(),
        Some(decisions::COMMAND) => return decisions::run(),
        Some(bred::COMMAND) => return bred::run(),
        _ => {}
    }
    time_shapes();
    time_suite();
    time_readings(1, &shapes::small().iter().map(|t| t.encode()).collect::<Vec<_>>());
    time_readings(2, &shapes::of_two().iter().map(|t| t.encode()).collect::<Vec<_>>());
}
