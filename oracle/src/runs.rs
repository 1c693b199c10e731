//! The command `runs`: one line for each step of a stream.

use crate::candidates::LEND;
use crate::machine::step;
use crate::stream::{Malformed, Stream};

/// Tag of a call: a list of steps, and one step more.
pub const STEP: u8 = b'M';

pub fn print_runs(input: &[u8]) -> Result<String, Malformed> {
    let mut stream = Stream::new(input);
    let mut block: &[u8] = &[];
    let mut lines = String::new();
    let mut number = 0;
    while !stream.is_empty() {
        match stream.byte()? {
            LEND => block = stream.frame()?,
            STEP => {
                let answer = step_line(block, stream.list()?, stream.number()?);
                lines.push_str(&format!("{number}: {answer}\n"));
                number += 1;
            }
            _ => return Err(Malformed),
        }
    }
    Ok(lines)
}

fn step_line(block: &[u8], steps: &[u8], number: u64) -> String {
    match step(block, steps, number) {
        Err(refusal) => refusal.to_string(),
        Ok(taken) => format!("taken, event {}, entry {}", taken.event, taken.entry()),
    }
}
