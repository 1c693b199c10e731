//! The tests of a suite, one after the other.

use crate::library::{next_test, test_length};
use crate::BLOCK;
use std::iter::FusedIterator;

/// The tests of a suite: of each the number of its first block, and its bytes, as a part of the suite's. After a good test of
/// edition 2 the next one begins three blocks on, after any other one block on.
///
/// ```
/// use cogthunder::{read, Tests};
///
/// let one = include_bytes!(concat!(env!("CARGO_MANIFEST_DIR"), "/../samples/C1.block"));
/// let two = include_bytes!(concat!(env!("CARGO_MANIFEST_DIR"), "/../samples/peterson.block"));
/// let suite = [&one[..], &two[..], &one[..], &two[..100]].concat();
/// let tests: Vec<(u64, bool)> = Tests::of(&suite).map(|(k, test)| (k, read(test).is_ok())).collect();
/// assert_eq!(tests, [(0, true), (1, true), (4, true), (5, false)]);
/// ```
#[derive(Clone, Debug)]
pub struct Tests<'a> {
    suite: &'a [u8],
    /// The first block of the next test.
    k: u64,
}

impl<'a> Tests<'a> {
    /// All tests of a suite.
    pub fn of(suite: &'a [u8]) -> Tests<'a> {
        Tests { suite, k: 0 }
    }
}

impl<'a> Iterator for Tests<'a> {
    type Item = (u64, &'a [u8]);

    fn next(&mut self) -> Option<(u64, &'a [u8])> {
        let k = self.k;
        let length = test_length(self.suite, k);
        if length == 0 {
            return None;
        }
        self.k = next_test(self.suite, k);
        // Block k is in the suite, whose length is a `usize`.
        Some((k, &self.suite[BLOCK * k as usize..][..length]))
    }
}

impl FusedIterator for Tests<'_> {}
