//! The stored stream of `tests`: suites of both editions, whole and cut.

use super::breaches::base_block;
use super::chains::chain_cases;
use super::edition_two::refused_by_each_line;
use crate::encode::{encode, encode_fitting, seal};
use crate::layout::*;
use crate::litmus::{c1, c2};
use crate::stream::push_frame;
use crate::tests::{BLOCK, LEND, WALK};

pub fn make_tests() -> Vec<u8> {
    let mut stream = Vec::new();
    cut_everywhere(&mut stream);
    for suite in suites() {
        lend(&mut stream, &suite);
        lengths_about_blocks(&suite).for_each(|length| walk(&mut stream, length));
        numbers_of_blocks(&suite).for_each(|k| ask(&mut stream, k));
    }
    stream
}

fn lend(stream: &mut Vec<u8>, suite: &[u8]) {
    stream.push(LEND);
    push_frame(stream, suite);
}

fn walk(stream: &mut Vec<u8>, length: usize) {
    stream.push(WALK);
    stream.extend(u16::try_from(length).expect("a length has two bytes").to_le_bytes());
}

fn ask(stream: &mut Vec<u8>, k: u64) {
    stream.push(BLOCK);
    stream.extend(k.to_le_bytes());
}

/// A good test of edition 2.
fn wide() -> Vec<u8> {
    encode_fitting(&chain_cases()[0].1)
}

/// Suites of both editions, cut at every byte of a last test of edition 2, and of one of edition 1.
fn cut_everywhere(stream: &mut Vec<u8>) {
    let before = [encode(&c1()), wide()].concat();
    for last in [wide(), encode(&c2())] {
        let suite = [&before[..], &last].concat();
        lend(stream, &suite);
        (before.len()..=suite.len()).for_each(|length| walk(stream, length));
    }
}

/// Mixed suites of good tests, and tests of edition 2 that are refused before good ones of edition 1.
fn suites() -> Vec<Vec<u8>> {
    let (one, two) = ([encode(&c1()), encode(&c2())], wide());
    let header = &two[..BLOCK_LENGTH];
    let mut suites = vec![
        Vec::new(),
        vec![0; BLOCK_LENGTH + 1],
        [&two[..], &one[0], &two, &one[1]].concat(),
        [&one[0][..], &two, &two].concat(),
        // A header of edition 2 that edition 1 blocks follow, another header, a whole test.
        [header, &one[0], &one[1], &one[0]].concat(),
        [header, header, header, &one[0]].concat(),
        [header, &two[..], &one[0]].concat(),
        [header, &one[0], &two[..]].concat(),
        // The blocks of a test in another order, and without its header.
        [header, &two[2 * BLOCK_LENGTH..], &two[BLOCK_LENGTH..2 * BLOCK_LENGTH], &one[0]].concat(),
        [&two[BLOCK_LENGTH..], &one[0][..]].concat(),
    ];
    let whole = refused_by_each_line().into_iter().filter(|test| test.len() == LONGEST_TEST);
    suites.extend(whole.map(|test| [test, base_block()].concat()));
    suites.extend(refused_by_one_block().map(|test| [test, base_block()].concat()));
    suites.extend([1, 2, 255].map(|model| [changed(MODEL_AT, model), base_block()].concat()));
    suites
}

/// A test of edition 2 with the check of each block wrong, and with a first block that fails 3 and 4:
/// where the first block fails 2, 3 or 4, the test is that block alone.
fn refused_by_one_block() -> [Vec<u8>; 5] {
    let wrong_check = |block: usize| {
        let mut test = wide();
        test[BLOCK_LENGTH * block + CHECK_AT] ^= 1;
        test
    };
    [wrong_check(0), wrong_check(1), wrong_check(2), changed(0, 0), changed(EDITION_AT, 3)]
}

/// A good test of edition 2 with one byte changed, and right checks.
fn changed(at: usize, value: u8) -> Vec<u8> {
    let mut test = wide();
    test[at] = value;
    seal(&mut test);
    test
}

/// Nothing, and a byte less, none and a byte more than each number of blocks.
fn lengths_about_blocks(suite: &[u8]) -> impl Iterator<Item = usize> + '_ {
    let blocks = (0..=suite.len()).step_by(BLOCK_LENGTH);
    let about = blocks.flat_map(|end| [end.saturating_sub(1), end, end + 1]);
    about.skip(1).filter(|&length| length <= suite.len())
}

/// Every block of a suite, the next numbers, and the last whose first byte a number of 64 bits has.
fn numbers_of_blocks(suite: &[u8]) -> impl Iterator<Item = u64> {
    let blocks = suite.len().div_ceil(BLOCK_LENGTH) as u64;
    let last = u64::MAX / BLOCK_LENGTH as u64;
    (0..blocks + 2).chain([last, last + 1, u64::MAX])
}

#[cfg(test)]
mod tests {
    use super::*;
    use crate::suite::test_at;
    use crate::tests::print_tests;

    #[test]
    fn every_cut_of_a_last_test_is_refused_by_1_and_each_later_block_by_itself() {
        let lines = print_tests(&make_tests()).expect("the stream is whole");
        let lines: Vec<&str> = lines.lines().collect();
        let before = "0 512 1 0 / 1 1536 4 0 / ";
        let assert_line = |number: usize, rest: &str| {
            assert_eq!(lines[number], format!("{number}: {before}{rest}"));
        };
        assert_line(0, "2 tests");
        assert_line(1, "4 1 5 1 / 3 tests");
        assert_line(513, "4 513 5 1 / 5 1 6 1 / 4 tests");
        assert_line(1535, "4 1535 5 1 / 5 512 6 3 / 6 511 7 1 / 5 tests");
        assert_line(1536, "4 1536 7 0 / 3 tests");
        assert_line(1537, "2 tests");
        assert_line(1537 + 511, "4 511 5 1 / 3 tests");
        assert_line(1537 + 512, "4 512 5 0 / 3 tests");
    }

    #[test]
    fn a_test_is_its_first_block_alone_where_that_is_refused() {
        let lengths = refused_by_one_block().map(|test| test_at(&test, 0).len());
        assert_eq!(lengths, [512, 1536, 1536, 512, 512]);
    }

    #[test]
    fn a_test_of_edition_2_is_refused_by_each_line() {
        assert_eq!(refused_by_each_line().len(), 12);
    }
}
