//! The operands of an instruction.

use super::lexer::{Kind, Token};
use super::register::Register;
use crate::error::{quoted, Error};
use std::collections::HashMap;
use std::ops::RangeInclusive;

/// The numbers that an instruction has room for beside two registers.
const IMMEDIATE: RangeInclusive<i64> = -2048..=2047;

/// An operand as it is written.
#[derive(Clone, Copy, Debug)]
enum Operand<'a> {
    Name(&'a str),
    Number(u64),
    /// `8(x6)` or `(x6)`.
    Memory {
        offset: u64,
        base: &'a str,
    },
}

/// An instruction: its word, and operands that are asked for by their place, from 0.
pub struct Operands<'a> {
    /// The first word.
    pub word: &'a str,
    /// The line that it stands on.
    pub line: usize,
    operands: Vec<Operand<'a>>,
}

impl<'a> Operands<'a> {
    /// Reads the tokens of one instruction.
    pub fn read(tokens: &[Token<'a>]) -> Result<Operands<'a>, Error> {
        let [first, rest @ ..] = tokens else { unreachable!("an empty cell is no instruction") };
        if first.kind != Kind::Word {
            return Err(Error::at(first.line, format!("an instruction doesn't begin with {}", quoted(first.text))));
        }
        let mut operands = Vec::new();
        if !rest.is_empty() {
            for part in rest.split(|token| token.is(",")) {
                operands.push(operand(part, first)?);
            }
        }
        Ok(Operands { word: first.text, line: first.line, operands })
    }

    /// An error on this instruction.
    pub fn error(&self, sentence: impl std::fmt::Display) -> Error {
        Error::at(self.line, format!("`{}`: {sentence}", self.word))
    }

    /// The instruction has to have as many operands.
    pub fn count(&self, count: usize) -> Result<(), Error> {
        if self.operands.len() == count {
            return Ok(());
        }
        Err(self.error(format!("it takes {count} operands, and not {}", self.operands.len())))
    }

    /// How many there are.
    pub fn len(&self) -> usize {
        self.operands.len()
    }

    /// A register.
    pub fn register(&self, place: usize) -> Result<Register, Error> {
        match self.operands[place] {
            Operand::Name(name) => self.named(name),
            _ => Err(self.error(format!("operand {} must be a register", place + 1))),
        }
    }

    fn named(&self, name: &str) -> Result<Register, Error> {
        let sentence = || format!("{} isn't a register: they are x0 to x31, or zero, ra, .. t6", quoted(name));
        Register::of(name).ok_or_else(|| self.error(sentence()))
    }

    /// A number of 64 bits.
    pub fn number(&self, place: usize) -> Result<u64, Error> {
        match self.operands[place] {
            Operand::Number(number) => Ok(number),
            _ => Err(self.error(format!("operand {} must be a number", place + 1))),
        }
    }

    /// A number that fits into the instruction.
    pub fn immediate(&self, place: usize) -> Result<u64, Error> {
        let number = self.number(place)?;
        self.fits(number)
    }

    fn fits(&self, number: u64) -> Result<u64, Error> {
        if IMMEDIATE.contains(&(number as i64)) {
            return Ok(number);
        }
        Err(self.error(format!("the number {} isn't from -2048 to 2047", number as i64)))
    }

    /// The base register and the offset of an access.
    pub fn memory(&self, place: usize) -> Result<(Register, u64), Error> {
        match self.operands[place] {
            Operand::Memory { offset, base } => Ok((self.named(base)?, self.fits(offset)?)),
            _ => Err(self.error(format!("operand {} must be an address such as 0(x6)", place + 1))),
        }
    }

    /// A name: of a label, a location or the sets of a fence.
    pub fn name(&self, place: usize) -> Result<&'a str, Error> {
        match self.operands[place] {
            Operand::Name(name) => Ok(name),
            _ => Err(self.error(format!("operand {} must be a name", place + 1))),
        }
    }

    /// Whether the operand is the number 0.
    pub fn is_zero(&self, place: usize) -> bool {
        matches!(self.operands[place], Operand::Number(0))
    }

    /// Where a branch goes, which has to be further on.
    pub fn label(&self, place: usize, labels: &HashMap<&str, usize>, index: usize) -> Result<usize, Error> {
        let label = self.name(place)?;
        match labels.get(label) {
            Some(&to) if to > index => Ok(to),
            Some(_) => Err(self.error(format!("it goes back to {}, and loops aren't read", quoted(label)))),
            None => Err(self.error(format!("the hart has no label {}", quoted(label)))),
        }
    }
}

fn operand<'a>(tokens: &[Token<'a>], first: &Token) -> Result<Operand<'a>, Error> {
    let number = |tokens: &[Token]| match tokens {
        [] => Some(0),
        [Token { kind: Kind::Number(number), .. }] => Some(*number),
        [minus, Token { kind: Kind::Number(number), .. }] if minus.is("-") => Some(number.wrapping_neg()),
        _ => None,
    };
    let read = match tokens {
        [Token { kind: Kind::Word, text, .. }] => Some(Operand::Name(text)),
        [offset @ .., open, Token { kind: Kind::Word, text, .. }, close] if open.is("(") && close.is(")") => {
            number(offset).map(|offset| Operand::Memory { offset, base: text })
        }
        [] => None,
        _ => number(tokens).map(Operand::Number),
    };
    read.ok_or_else(|| {
        let text: String = tokens.iter().map(|token| token.text).collect();
        Error::at(first.line, format!("`{}`: {} isn't an operand", first.text, quoted(&text)))
    })
}
