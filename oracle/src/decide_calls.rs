//! The command `decide_calls`: one line for each decision of a stream.

use crate::candidates::{buffer_part, LEND};
use crate::decision::{Decider, Decision};
use crate::stream::{Malformed, Stream, PREFILL};
use crate::table::Refusal;

/// Tag of a call for the next witness: a start and a buffer length.
pub const NEXT: u8 = b'N';

pub fn print_decide_calls(input: &[u8]) -> Result<String, Malformed> {
    let mut stream = Stream::new(input);
    let mut test: &[u8] = &[];
    let mut decider = Decider::default();
    let mut lines = String::new();
    let mut number = 0;
    while !stream.is_empty() {
        match stream.byte()? {
            LEND => test = stream.frame()?,
            NEXT => {
                let start = stream.list()?;
                let mut buffer = vec![PREFILL; stream.byte()?.into()];
                let decision = decider.decide(test, start, &mut buffer);
                let (part, buffer) = (part(&decision), buffer_part(&buffer));
                lines.push_str(&format!("{number}: {part}, {buffer}\n"));
                number += 1;
            }
            _ => return Err(Malformed),
        }
    }
    Ok(lines)
}

fn part(decision: &Result<Decision, Refusal>) -> String {
    match decision {
        Err(refusal) => refusal.to_string(),
        Ok(Decision::Found(order)) => format!("found, length {}", order.len()),
        Ok(Decision::NoneLeft) => "none left".to_string(),
    }
}
