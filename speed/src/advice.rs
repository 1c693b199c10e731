//! Times advice on tables with eight clear fences: beside as many single searches of the proved library, and beside plain Rust.

use crate::clock::{calls_per_run, least, microseconds, nanoseconds};
use crate::facts::{Facts, Fence};
use crate::plain::{search_facts, Answer};
use crate::reading::{read, Refusal};
use crate::table::{Table, EVENTS, FULL_FENCE};
use crate::{proved, shapes, visited, ALLOWANCE, RUNS};
use std::hint::black_box;
use std::iter::repeat_n;

/// The word after the program's name that makes this program time advice.
pub const COMMAND: &str = "advice";

const TOO_MANY: Refusal = Refusal { line: 22, record: None };
const MOST_FENCES: usize = 8;

/// With the mask of a set.
#[derive(Clone, Copy, PartialEq, Debug)]
pub enum Advice {
    Advised(u32),
    Undecided(u32),
    NoHelp,
}

/// Calls `each` with sets of places under a count, by size, those of one size by their lists, until it answers something.
fn first_of<A>(count: usize, each: &mut dyn FnMut(&[usize]) -> Option<A>) -> Option<A> {
    for size in 0..=count {
        let mut set: [usize; MOST_FENCES] = std::array::from_fn(|k| k);
        loop {
            if let Some(answer) = each(&set[..size]) {
                return Some(answer);
            }
            let Some(k) = (0..size).rev().find(|&k| set[k] < count - size + k) else { break };
            set[k] += 1;
            for later in k + 1..size {
                set[later] = set[later - 1] + 1;
            }
        }
    }
    None
}

/// What the search of a set says: nothing where there is a witness.
fn decided(answer: Answer, mask: u32) -> Option<Advice> {
    match answer {
        Answer::Found { .. } => None,
        Answer::NoneLeft { .. } => Some(Advice::Advised(mask)),
        Answer::Spent { .. } => Some(Advice::Undecided(mask)),
    }
}

/// Advice in plain Rust: the facts of the table are prepared once, and each set adds its fences to them.
fn advise(block: &[u8], allowance: u64) -> Result<Advice, Refusal> {
    let table = read(block)?;
    let fences = Fence::empty_ones(&table);
    if fences.len() > MOST_FENCES {
        return Err(TOO_MANY);
    }
    let facts = Facts::of(&table);
    let advice = first_of(fences.len(), &mut |set| {
        let mut filled = facts.clone();
        let mut mask = 0;
        for &k in set {
            filled.fill(&fences[k]);
            mask |= 1 << fences[k].event;
        }
        decided(search_facts(&filled, &mut [0; EVENTS], allowance), mask)
    });
    Ok(advice.unwrap_or(Advice::NoHelp))
}

/// The tables of the sets that are tried, each with its fences filled, and the mask of the set.
fn tried(table: &Table) -> Vec<(Vec<u8>, u32)> {
    let empty: Vec<usize> = Fence::empty_ones(table).iter().map(|fence| fence.event).collect();
    let mut blocks = Vec::new();
    first_of(empty.len(), &mut |set| {
        let (mut filled, mut mask) = (table.clone(), 0);
        for &k in set {
            filled.events[empty[k]].flags = FULL_FENCE;
            mask |= 1 << empty[k];
        }
        blocks.push((filled.encode(), mask));
        decided(search(&blocks[blocks.len() - 1].0), mask)
    });
    blocks
}

/// A single search of the proved library.
fn search(block: &[u8]) -> Answer {
    proved::search(block, &[], &mut [0; EVENTS], ALLOWANCE).expect("the block is good")
}

/// What the searches one by one, the proved entry and plain Rust all say; and how many prefixes are visited.
fn agreed(block: &[u8], sets: &[(Vec<u8>, u32)]) -> (Advice, u64) {
    let answers: Vec<Answer> = sets.iter().map(|(block, _)| search(block)).collect();
    let last = answers.last().zip(sets.last()).and_then(|(&answer, set)| decided(answer, set.1));
    let advice = last.unwrap_or(Advice::NoHelp);
    assert_eq!(proved::advise(block, ALLOWANCE), Ok(advice));
    assert_eq!(advise(block, ALLOWANCE), Ok(advice));
    (advice, answers.iter().map(visited).sum())
}

/// Of a block, with an allowance.
type Ask = fn(&[u8], u64) -> Result<Advice, Refusal>;

/// Microseconds of the proved entry, of the searches one by one, and of plain Rust; each in so many calls.
fn times(block: &[u8], sets: &[(Vec<u8>, u32)], calls: usize) -> [f64; 3] {
    let asked = |ask: Ask| nanoseconds(repeat_n(block, calls), |block| ask(block, ALLOWANCE));
    let all = |sets: &[(Vec<u8>, u32)]| {
        for (block, _) in sets {
            black_box(search(black_box(block)));
        }
    };
    let singly = || nanoseconds(repeat_n(sets, calls), all);
    let forms: [&dyn Fn() -> f64; 3] = [&|| asked(proved::advise), &singly, &|| asked(advise)];
    least(RUNS, forms, |time| microseconds(time() / calls as f64))
}

fn name(advice: Advice) -> String {
    match advice {
        Advice::Advised(mask) => format!("{} fences", mask.count_ones()),
        Advice::Undecided(_) => "undecided".to_string(),
        Advice::NoHelp => "no help".to_string(),
    }
}

pub fn run() {
    println!("advice, microseconds a call, allowance {ALLOWANCE}, least of {RUNS} runs");
    println!(
        "{:<26}{:>11}{:>10}{:>10}{:>10}{:>10}{:>7}{:>10}{:>7}",
        "table", "answer", "searches", "visited", "proved", "singly", "ratio", "Rust", "ratio"
    );
    for (title, table) in shapes::with_clear_fences() {
        let (block, sets) = (table.encode(), tried(&table));
        let (advice, count) = agreed(&block, &sets);
        let [p, s, q] = times(&block, &sets, calls_per_run(count));
        let (searches, answer) = (sets.len(), name(advice));
        println!(
            "{title:<26}{answer:>11}{searches:>10}{count:>10}{p:>10.1}{s:>10.1}{:>7.2}{q:>10.1}{:>7.2}",
            p / s,
            p / q
        );
    }
}

#[cfg(test)]
mod tests {
    use super::*;
    use oracle::advice::{mask_of, Advice as Other};
    use oracle::encode::encode;
    use oracle::generate::advice_tables::with_clear_fences;
    use oracle::generate::calls::small_table_in;
    use oracle::generate::prng::Prng;
    use oracle::table::Model;

    const TABLES: usize = 2000;

    fn same(advice: Other) -> Advice {
        match advice {
            Other::Advised(set) => Advice::Advised(mask_of(&set)),
            Other::Undecided(set) => Advice::Undecided(mask_of(&set)),
            Other::NoHelp => Advice::NoHelp,
        }
    }

    #[test]
    fn advice_is_that_of_the_independent_program() {
        let mut prng = Prng::new(1);
        for _ in 0..TABLES {
            let bare = small_table_in(*prng.pick(&Model::ALL), &mut prng);
            let count = prng.below(10);
            let block = encode(&with_clear_fences(&mut prng, &bare, count));
            for allowance in [3, 30, 100_000] {
                let stated = oracle::advice::advise(&block, allowance).map(same);
                let stated = stated.map_err(|r| Refusal { line: r.line as u8, record: r.record });
                assert_eq!(advise(&block, allowance), stated);
            }
        }
    }

    #[test]
    fn the_tables_that_are_timed_have_eight_fences() {
        for (title, table) in shapes::with_clear_fences() {
            assert_eq!(Fence::empty_ones(&table).len(), MOST_FENCES, "{title}");
            agreed(&table.encode(), &tried(&table));
        }
    }
}
