//! Branches and jumps to labels.

use super::instruction::Action;
use super::operands::Operands;
use super::register::Register;
use super::Comparison::{self, Equal, Less, LessUnsigned, NotEqual, NotLess, NotLessUnsigned};
use crate::error::Error;
use std::collections::HashMap;

/// Branches on two registers, and whether these are exchanged.
const ON_TWO: [(&str, Comparison, bool); 10] = [
    ("beq", Equal, false),
    ("bne", NotEqual, false),
    ("blt", Less, false),
    ("bge", NotLess, false),
    ("bltu", LessUnsigned, false),
    ("bgeu", NotLessUnsigned, false),
    ("bgt", Less, true),
    ("ble", NotLess, true),
    ("bgtu", LessUnsigned, true),
    ("bleu", NotLessUnsigned, true),
];

/// Branches on a register and 0, and whether 0 comes first.
const ON_ONE: [(&str, Comparison, bool); 6] = [
    ("beqz", Equal, false),
    ("bnez", NotEqual, false),
    ("bltz", Less, false),
    ("bgez", NotLess, false),
    ("bgtz", Less, true),
    ("blez", NotLess, true),
];

/// A branch or jump; None if the word is another instruction.
pub fn decode(operands: &Operands, labels: &HashMap<&str, usize>, index: usize) -> Result<Option<Action>, Error> {
    let word = operands.word;
    if word == "j" {
        operands.count(1)?;
        return Ok(Some(Action::Jump { to: operands.label(0, labels, index)? }));
    }
    let (comparison, is_exchanged, registers) = if let Some(row) = ON_TWO.iter().find(|row| row.0 == word) {
        operands.count(3)?;
        (row.1, row.2, [operands.register(0)?, operands.register(1)?])
    } else if let Some(row) = ON_ONE.iter().find(|row| row.0 == word) {
        operands.count(2)?;
        (row.1, row.2, [operands.register(0)?, Register::ZERO])
    } else {
        return Ok(None);
    };
    let to = operands.label(operands.len() - 1, labels, index)?;
    let [left, right] = if is_exchanged { [registers[1], registers[0]] } else { registers };
    Ok(Some(Action::Branch { comparison, left, right, to }))
}
