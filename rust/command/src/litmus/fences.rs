//! Fences.

use super::instruction::Action;
use super::operands::Operands;
use crate::error::{quoted, Error};
use crate::record::{LATER, READS, WRITES};

const ALL: u8 = READS | WRITES;

/// A fence; None if the word is another instruction.
pub fn decode(operands: &Operands) -> Result<Option<Action>, Error> {
    match operands.word {
        "fence" if operands.len() == 0 => Ok(Some(Action::Fence { flags: ALL | ALL << LATER })),
        "fence" => {
            operands.count(2)?;
            let flags = set(operands, 0)? | set(operands, 1)? << LATER;
            Ok(Some(Action::Fence { flags }))
        }
        "fence.tso" => {
            operands.count(0)?;
            Ok(Some(Action::FenceTso))
        }
        "fence.i" => Err(operands.error("instruction fetches are out of the model")),
        _ => Ok(None),
    }
}

/// `r`, `w`, `rw`, or `0` for none.
fn set(operands: &Operands, place: usize) -> Result<u8, Error> {
    if operands.is_zero(place) {
        return Ok(0);
    }
    match operands.name(place)? {
        "r" => Ok(READS),
        "w" => Ok(WRITES),
        "rw" => Ok(ALL),
        word if word.contains(['i', 'o']) && word.chars().all(|c| "iorw".contains(c)) => {
            Err(operands.error(format!("{} names I/O, which is out of the model", quoted(word))))
        }
        word => Err(operands.error(format!("{} isn't one of the sets r, w and rw", quoted(word)))),
    }
}
