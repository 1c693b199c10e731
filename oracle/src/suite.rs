//! The tests of a suite, and the command `suite`: the paper's suite program.

use crate::layout::{Edition, BLOCK_LENGTH, MOST_EVENTS};
use crate::readings::spaced;
use crate::search::{Answer, Engine};
use crate::table::{read, stated_edition};

/// "allowance 1,000,000 from the empty start"
const ALLOWANCE: u64 = 1_000_000;

/// What is left of a suite from block k on; nothing where k isn't in it.
fn from_block(suite: &[u8], k: usize) -> &[u8] {
    k.checked_mul(BLOCK_LENGTH).and_then(|at| suite.get(at..)).unwrap_or_default()
}

/// "at block k the test is three blocks if block k by itself passes 2 and 3 and has edition 2, else
/// one"; a test that is cut is what is left.
pub fn test_at(suite: &[u8], k: usize) -> &[u8] {
    let rest = from_block(suite, k);
    let edition = match stated_edition(rest) {
        Ok(Edition::Two) => Edition::Two,
        _ => Edition::One,
    };
    &rest[..rest.len().min(edition.test_length())]
}

/// The block where the test after that at block k begins: "A suite walk moves three blocks after a
/// good edition 2 test, one after any refusal". It is k itself where k isn't in the suite.
pub fn next_block(suite: &[u8], k: usize) -> usize {
    let test = test_at(suite, k);
    match read(test) {
        _ if test.is_empty() => k,
        Ok(_) => k + test.len() / BLOCK_LENGTH,
        Err(_) => k + 1,
    }
}

/// The first block of each test, and the test.
pub fn tests(suite: &[u8]) -> impl Iterator<Item = (usize, &[u8])> {
    let is_in_suite = |k: &usize| !from_block(suite, *k).is_empty();
    let following = move |k: &usize| Some(next_block(suite, *k)).filter(is_in_suite);
    std::iter::successors(Some(0).filter(is_in_suite), following).map(|k| (k, test_at(suite, k)))
}

/// "A line shows the number of its test's first block", and the last line "counts tests and
/// refusals .. as blocks today".
pub fn print_suite(suite: &[u8]) -> String {
    let lines = tests(suite).map(|(k, test)| format!("block {k}: {}\n", outcome(test)));
    let lines: Vec<String> = lines.collect();
    lines.concat() + &format!("{} blocks\n", lines.len())
}

fn outcome(test: &[u8]) -> String {
    match Engine::First.search(test, &[], &mut [0; MOST_EVENTS], ALLOWANCE) {
        Err(refusal) => format!("refused {}", refusal.line as u8),
        Ok(Answer::Found { visited, order }) => {
            format!("allowed, {visited} visited, order {}", spaced(&order))
        }
        Ok(Answer::NoneLeft { visited }) => format!("forbidden, {visited} visited"),
        Ok(Answer::Spent { visited, .. }) => format!("undecided, {visited} visited"),
    }
}

#[cfg(test)]
mod tests {
    use super::*;
    use crate::encode::{encode, seal};
    use crate::layout::EDITION_AT;
    use crate::litmus::{c1, c2, load, table, X};

    #[test]
    fn the_papers_suite_prints_the_papers_lines() {
        let mut edition_9 = encode(&c1());
        edition_9[EDITION_AT] = 9;
        seal(&mut edition_9);
        let suite = [encode(&c1()), encode(&c2()), edition_9].concat();
        let lines = "block 0: allowed, 27 visited, order 1 2 3 0\n\
                     block 1: forbidden, 18 visited\n\
                     block 2: refused 4\n\
                     3 blocks\n";
        assert_eq!(print_suite(&suite), lines);
    }

    #[test]
    fn empty_input_prints_0_blocks() {
        assert_eq!(print_suite(&[]), "0 blocks\n");
    }

    #[test]
    fn a_last_part_block_is_refused_and_counts() {
        assert_eq!(print_suite(&encode(&c1())[..100]), "block 0: refused 1\n1 blocks\n");
    }

    #[test]
    fn too_many_prefixes_are_undecided() {
        let loads = table((0..10).map(|_| load(0, X, 1)).collect());
        let lines = "block 0: undecided, 1000000 visited\n1 blocks\n";
        assert_eq!(print_suite(&encode(&loads)), lines);
    }
}
