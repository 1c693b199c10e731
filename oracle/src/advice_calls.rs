//! The command `advice_calls`: one line for each call for advice of a stream.

use crate::advice::{advise, mask_of, Advice};
use crate::candidates::LEND;
use crate::stream::{Malformed, Stream};
use crate::table::Refusal;

/// Tag of a call: an allowance.
pub const ADVISE: u8 = b'A';

pub fn print_advice_calls(input: &[u8]) -> Result<String, Malformed> {
    let mut stream = Stream::new(input);
    let mut test: &[u8] = &[];
    let mut lines = String::new();
    let mut number = 0;
    while !stream.is_empty() {
        match stream.byte()? {
            LEND => test = stream.frame()?,
            ADVISE => {
                let advice = advise(test, stream.number()?);
                lines.push_str(&format!("{number}: {}\n", part(&advice)));
                number += 1;
            }
            _ => return Err(Malformed),
        }
    }
    Ok(lines)
}

fn part(advice: &Result<Advice, Refusal>) -> String {
    match advice {
        Err(refusal) => refusal.to_string(),
        Ok(Advice::Advised(set)) => format!("advised, mask {}", mask_of(set)),
        Ok(Advice::Undecided(set)) => format!("undecided, mask {}", mask_of(set)),
        Ok(Advice::NoHelp) => "no help".to_string(),
    }
}
