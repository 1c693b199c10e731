//! The command `tests`: one line for the first bytes of a suite, or for a block of it.

use crate::readings::spaced;
use crate::stream::{Malformed, Stream};
use crate::suite::{next_block, test_at, tests};
use crate::table::read;

/// Tags of the calls: lend a suite, walk its first bytes, ask for one block of the whole suite.
pub const LEND: u8 = b'B';
pub const WALK: u8 = b'C';
pub const BLOCK: u8 = b'K';

/// In the place of a refusal's number where a test is good.
const GOOD: usize = 0;

pub fn print_tests(input: &[u8]) -> Result<String, Malformed> {
    let mut stream = Stream::new(input);
    let mut suite: &[u8] = &[];
    let mut lines = String::new();
    let mut number = 0;
    while !stream.is_empty() {
        let answer = match stream.byte()? {
            LEND => {
                suite = stream.frame()?;
                continue;
            }
            WALK => walk_line(suite.get(..stream.word()?.into()).ok_or(Malformed)?),
            BLOCK => block_line(suite, stream.number()? as usize),
            _ => return Err(Malformed),
        };
        lines.push_str(&format!("{number}: {answer}\n"));
        number += 1;
    }
    Ok(lines)
}

/// Of each test its first block, its length, the first block of the next one, and the number of its
/// refusal; then how many tests there are.
fn walk_line(suite: &[u8]) -> String {
    let part = |(k, test): (usize, &[u8])| {
        let refusal = read(test).err().map_or(GOOD, |refusal| refusal.line as usize);
        spaced(&[k, test.len(), next_block(suite, k), refusal]) + " / "
    };
    let parts: Vec<String> = tests(suite).map(part).collect();
    format!("{}{} tests", parts.concat(), parts.len())
}

fn block_line(suite: &[u8], k: usize) -> String {
    format!("{} bytes, next {}", test_at(suite, k).len(), next_block(suite, k))
}
