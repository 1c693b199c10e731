//! The command `outcome_calls`: one line for each call for outcomes of a stream.

use crate::candidates::LEND;
use crate::outcome::{write, Arguments, Asked, Lister, Listing};
use crate::stream::{Malformed, Stream, PREFILL};
use crate::table::Refusal;

/// Tags of the calls: for the next outcome, and for as many as the buffer has room for.
pub const OUTCOME: u8 = b'O';
pub const OUTCOMES: u8 = b'L';

pub fn tag_of(asked: Asked) -> u8 {
    match asked {
        Asked::One => OUTCOME,
        Asked::Some => OUTCOMES,
    }
}

pub fn asked_of(tag: u8) -> Result<Asked, Malformed> {
    Asked::ALL.into_iter().find(|&asked| tag_of(asked) == tag).ok_or(Malformed)
}

/// What each place of a buffer holds before a call.
const PREFILLED: u16 = u16::from_le_bytes([PREFILL; 2]);

pub fn print_outcome_calls(input: &[u8]) -> Result<String, Malformed> {
    let mut stream = Stream::new(input);
    let mut test: &[u8] = &[];
    let mut lister = Lister::default();
    let mut lines = String::new();
    let mut number = 0;
    while !stream.is_empty() {
        let tag = stream.byte()?;
        if tag == LEND {
            test = stream.frame()?;
            continue;
        }
        let asked = asked_of(tag)?;
        let previous = stream.values()?;
        let mut buffer = vec![PREFILLED; stream.word()?.into()];
        let (places, allowance) = (buffer.len(), stream.number()?);
        let arguments = Arguments { asked, previous: &previous, places, allowance };
        let listing = lister.list(test, arguments);
        if let Ok(listing) = &listing {
            write(listing, &mut buffer);
        }
        lines.push_str(&format!("{number}: {}, buffer{}\n", part(&listing), spaced(&buffer)));
        number += 1;
    }
    Ok(lines)
}

fn part(listing: &Result<Listing, Refusal>) -> String {
    match listing {
        Err(refusal) => refusal.to_string(),
        Ok(Listing::Listed(outcomes)) => {
            format!("listed {} of {} values", outcomes.len(), outcomes[0].len())
        }
        Ok(Listing::NoneLeft) => "none left".to_string(),
        Ok(Listing::Spent) => "spent".to_string(),
    }
}

fn spaced(values: &[u16]) -> String {
    values.iter().map(|value| format!(" {value}")).collect()
}
