//! Times the list of all outcomes on the kept set, beside plain Rust with the same algorithm.

use crate::clock::{least, milliseconds, nanoseconds};
use crate::kept::kept;
use crate::listing::{self, Listing, OUTCOMES, VALUES};
use crate::proved;
use crate::reading::Refusal;

/// The word after the program's name that makes this program time outcomes.
pub const COMMAND: &str = "outcomes";

/// A table with more clean prefixes is timed up to where this is spent.
const ALLOWANCE: u64 = 10_000_000;
const RUNS: usize = 3;

/// Of a block, with a previous outcome, a buffer and an allowance.
type Call = fn(&[u8], &[u16], &mut [u16], u64) -> Result<Listing, Refusal>;

/// All outcomes of a block, in as many calls as it takes; none if the allowance is spent.
struct Listed {
    outcomes: Option<Vec<Vec<u16>>>,
    calls: usize,
}

/// Each call lists what there is room for, from where the last one stopped; one that lists fewer is the last.
fn all(call: Call, block: &[u8]) -> Listed {
    let mut out = [0; OUTCOMES * VALUES];
    let (mut all, mut calls) = (Vec::<Vec<u16>>::new(), 0);
    loop {
        calls += 1;
        let previous = all.last().map_or(&[][..], |outcome| outcome);
        match call(block, previous, &mut out, ALLOWANCE).expect("the block is good") {
            Listing::Listed { outcomes, values } => {
                all.extend(out.chunks(values).take(outcomes).map(<[u16]>::to_vec));
                if outcomes < OUTCOMES {
                    return Listed { outcomes: Some(all), calls };
                }
            }
            Listing::NoneLeft => return Listed { outcomes: Some(all), calls },
            Listing::Spent => return Listed { outcomes: None, calls },
        }
    }
}

/// Prints the milliseconds of a table, and gives them.
fn row(name: &str, block: &[u8]) -> [f64; 2] {
    let listed = all(proved::outcomes, block);
    assert!(listed.outcomes == all(listing::outcomes, block).outcomes, "both list the same outcomes of {name}");
    let count = listed.outcomes.map_or("spent".to_string(), |outcomes| outcomes.len().to_string());
    let forms = [proved::outcomes as Call, listing::outcomes];
    let times = least(RUNS, forms, |call| nanoseconds([block], |block| all(call, block))).map(milliseconds);
    let [proved, plain] = times;
    println!("{name:<30}{count:>9}{:>7}{proved:>10.2}{plain:>10.2}{:>7.2}", listed.calls, proved / plain);
    times
}

/// Times the kept set.
pub fn run() {
    println!("ms of all outcomes, {OUTCOMES} a call, allowance {ALLOWANCE}; least of {RUNS} runs");
    println!("{:<30}{:>9}{:>7}{:>10}{:>10}{:>7}", "table", "outcomes", "calls", "proved", "Rust", "ratio");
    let times: Vec<[f64; 2]> = kept().iter().map(|(name, block)| row(name, block)).collect();
    let total = |which: usize| times.iter().map(|times| times[which]).sum::<f64>();
    let largest = times.iter().map(|[proved, plain]| proved / plain).fold(0.0, f64::max);
    println!("\nratio of the totals {:.2}, largest ratio {largest:.2}", total(0) / total(1));
}
