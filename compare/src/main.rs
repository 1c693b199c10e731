//! Compares the proved library, through its Rust package, with the independent program on random calls.

mod advice;
mod call;
mod cases;
mod comparison;
mod decisions;
mod ladders;
mod lent;
mod library;
mod litmus;
mod outcomes;
mod pages;
mod reference;
mod runs;
mod shrink;
mod strength;
mod stronger;
mod tally;
mod texts;
mod writes;

use comparison::{Comparison, Difference};
use lent::Room;
use library::Library;
use oracle::generate::prng::Prng;
use reference::Reference;
use std::process::ExitCode;
use std::time::{Duration, Instant};

const USAGE: &str = "usage: compare [--calls N] [--seconds S] [--seed X] [--guard-pages]
       compare litmus, with the lines of `scripts/litmus --blocks` on standard input
       compare stronger, with the same lines, which holds the witnesses of tests to be witnesses of weaker ones
       compare decisions, which holds decisions on tables of any size to the verdict and to the second engine
       compare texts, which reads a dozen texts with every byte changed to some twenty others, and cut at each length

Makes N calls (100000), or calls for S seconds, drawn by the seed X (1). With --guard-pages each slice that is lent lies
beside a page that must not be touched. Exit status: 0 no difference, 1 a difference, 2 other arguments.";

/// From this many calls on, each refusal, verdict, rule and answer of a search has to be met.
const MANY_CALLS: u64 = 100_000;

struct Options {
    calls: u64,
    time: Option<Duration>,
    seed: u64,
    room: fn() -> Room,
}

fn options(mut arguments: impl Iterator<Item = String>) -> Option<Options> {
    let mut options = Options { calls: MANY_CALLS, time: None, seed: 1, room: Room::with_guard_bytes };
    while let Some(argument) = arguments.next() {
        let mut number = || arguments.next()?.parse().ok();
        match argument.as_str() {
            "--calls" => options.calls = number()?,
            "--seconds" => options.time = Some(Duration::from_secs(number()?)),
            "--seed" => options.seed = number()?,
            "--guard-pages" => options.room = Room::with_guard_pages,
            _ => return None,
        }
    }
    Some(options)
}

fn main() -> ExitCode {
    match std::env::args().nth(1).as_deref() {
        Some("litmus") => return litmus::run(),
        Some("texts") => return run_texts(),
        Some("stronger") => return stronger::run(),
        Some("decisions") => return decisions::run(),
        _ => {}
    }
    match options(std::env::args().skip(1)) {
        Some(options) => run(&options),
        None => {
            eprintln!("{USAGE}");
            ExitCode::from(2)
        }
    }
}

/// Makes rounds of calls until there are enough of them, and prints what was done.
fn run(options: &Options) -> ExitCode {
    let begin = Instant::now();
    let mut comparison = Comparison::new(Reference::default(), Library::new(options.room));
    let difference = rounds(&mut comparison, options, begin).err();
    let Comparison { tally, .. } = &comparison;
    println!("compare: seed {}, {} calls, {:.1} s", options.seed, tally.calls, begin.elapsed().as_secs_f64());
    println!("{tally}");
    if let Some(difference) = difference {
        println!("  DIFFERENCE in the last call; the smallest call found with a difference:\n{difference}");
        return ExitCode::FAILURE;
    }
    let unmet = tally.unmet();
    if tally.calls >= MANY_CALLS && !unmet.is_empty() {
        println!("  no call gave: {}", unmet.join(", "));
        return ExitCode::FAILURE;
    }
    println!("  0 differences");
    ExitCode::SUCCESS
}

/// Reads every change of some texts, and prints how many there are.
fn run_texts() -> ExitCode {
    let mut comparison = Comparison::new(Reference::default(), Library::new(Room::with_guard_bytes));
    match texts::every_change(&mut comparison) {
        Ok(count) => {
            println!("texts: {count} changed or cut, each read as by the independent program");
            ExitCode::SUCCESS
        }
        Err(difference) => {
            println!("texts: DIFFERENCE; the smallest text found with a difference:\n{difference}");
            ExitCode::FAILURE
        }
    }
}

fn rounds(comparison: &mut Comparison, options: &Options, begin: Instant) -> Result<(), Box<Difference>> {
    let mut prng = Prng::new(options.seed);
    loop {
        let is_done = match options.time {
            Some(time) => begin.elapsed() >= time,
            None => comparison.tally.calls >= options.calls,
        };
        if is_done {
            return Ok(());
        }
        cases::round(&mut prng, comparison)?;
    }
}
