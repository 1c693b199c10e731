//! The command `candidates`: one line for each call of a stream.

use crate::candidate::{pair_rules, verdict, write_returned};
use crate::readings::spaced;
use crate::rules::Axiom;
use crate::stream::{Malformed, Stream, PREFILL};
use std::fmt;

/// Tags of the calls: lend a block, verdict, returned list, rules of a pair.
pub const LEND: u8 = b'B';
pub const VERDICT: u8 = b'V';
pub const RETURNED: u8 = b'D';
pub const RULES: u8 = b'R';

pub fn print_candidates(input: &[u8]) -> Result<String, Malformed> {
    let mut stream = Stream::new(input);
    let mut block: &[u8] = &[];
    let mut lines = String::new();
    let mut number = 0;
    while !stream.is_empty() {
        let answer = match stream.byte()? {
            LEND => {
                block = stream.frame()?;
                continue;
            }
            VERDICT => verdict_line(block, stream.list()?, stream.list()?),
            RETURNED => returned_line(block, stream.list()?, stream.byte()?),
            RULES => rules_line(block, stream.list()?, stream.number()?, stream.number()?),
            _ => return Err(Malformed),
        };
        lines.push_str(&format!("{number}: {answer}\n"));
        number += 1;
    }
    Ok(lines)
}

fn verdict_line(block: &[u8], returned: &[u8], order: &[u8]) -> String {
    match verdict(block, returned, order) {
        Err(refusal) => refusal.to_string(),
        Ok(Some(axiom)) => axiom.to_string(),
        Ok(None) => "allowed".to_string(),
    }
}

fn returned_line(block: &[u8], order: &[u8], buffer_length: u8) -> String {
    let mut buffer = vec![PREFILL; buffer_length.into()];
    let answer = match write_returned(block, order, &mut buffer) {
        Err(refusal) => refusal.to_string(),
        Ok(()) => "written".to_string(),
    };
    format!("{answer}, {}", buffer_part(&buffer))
}

fn rules_line(block: &[u8], returned: &[u8], a: u64, b: u64) -> String {
    match pair_rules(block, returned, a, b) {
        Err(refusal) => refusal.to_string(),
        Ok(rules) => rules_part(&rules),
    }
}

/// The whole buffer after a call.
pub fn buffer_part(buffer: &[u8]) -> String {
    format!("buffer {}", spaced(buffer)).trim_end().to_string()
}

/// All numbers of a set.
fn rules_part(rules: &[usize]) -> String {
    format!("rules {}", spaced(rules)).trim_end().to_string()
}

impl fmt::Display for Axiom {
    fn fmt(&self, out: &mut fmt::Formatter) -> fmt::Result {
        match self {
            Axiom::PreservedOrder { a, b, rules } => {
                write!(out, "preserved order {a} {b} {}", rules_part(rules))
            }
            Axiom::LoadValue { reader } => write!(out, "load value {reader}"),
            Axiom::Atomicity { lr, writer } => write!(out, "atomicity {lr} {writer}"),
            Axiom::ValueRead { reader } => write!(out, "value read {reader}"),
            Axiom::FinalValue { location } => write!(out, "final value {location}"),
        }
    }
}
