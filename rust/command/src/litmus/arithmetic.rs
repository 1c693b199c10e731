//! Instructions that only compute.

use super::instruction::{Action, Source};
use super::names::Names;
use super::operands::Operands;
use super::register::Register;
use super::Op;
use crate::error::Error;

const ON_REGISTERS: [(&str, Op); 13] = [
    ("add", Op::Add),
    ("sub", Op::Sub),
    ("and", Op::And),
    ("or", Op::Or),
    ("xor", Op::Xor),
    ("sll", Op::ShiftLeft),
    ("srl", Op::ShiftRight),
    ("sra", Op::ShiftRightSigned),
    ("slt", Op::Less),
    ("sltu", Op::LessUnsigned),
    ("mul", Op::Multiply),
    ("addw", Op::AddWord),
    ("subw", Op::SubWord),
];

const ON_A_NUMBER: [(&str, Op); 10] = [
    ("addi", Op::Add),
    ("andi", Op::And),
    ("ori", Op::Or),
    ("xori", Op::Xor),
    ("slli", Op::ShiftLeft),
    ("srli", Op::ShiftRight),
    ("srai", Op::ShiftRightSigned),
    ("slti", Op::Less),
    ("sltiu", Op::LessUnsigned),
    ("addiw", Op::AddWord),
];

/// How far `lui` shifts its number.
const UPPER: u32 = 12;
/// The numbers that it takes.
const MOST_UPPER: u64 = 0xf_ffff;

/// An arithmetic instruction; None if the word is another one.
pub fn decode(operands: &Operands, names: &mut Names) -> Result<Option<Action>, Error> {
    let word = operands.word;
    if word == "nop" {
        operands.count(0)?;
        return Ok(Some(Action::Nothing));
    }
    if let Some(&(_, op)) = ON_REGISTERS.iter().find(|row| row.0 == word) {
        operands.count(3)?;
        let right = Source::Register(operands.register(2)?);
        return compute(operands, op, Source::Register(operands.register(1)?), right);
    }
    if let Some(&(_, op)) = ON_A_NUMBER.iter().find(|row| row.0 == word) {
        operands.count(3)?;
        let right = Source::Number(operands.immediate(2)?);
        return compute(operands, op, Source::Register(operands.register(1)?), right);
    }
    short(operands, names)
}

fn compute(operands: &Operands, op: Op, left: Source, right: Source) -> Result<Option<Action>, Error> {
    Ok(Some(Action::Compute { op, to: operands.register(0)?, left, right }))
}

/// The short forms of two operands.
fn short(operands: &Operands, names: &mut Names) -> Result<Option<Action>, Error> {
    const ZERO: Source = Source::Register(Register::ZERO);
    const KNOWN: [&str; 9] = ["li", "la", "lui", "mv", "not", "neg", "seqz", "snez", "sext.w"];
    if !KNOWN.contains(&operands.word) {
        return Ok(None);
    }
    operands.count(2)?;
    let source = || operands.register(1).map(Source::Register);
    let (op, left, right) = match operands.word {
        "li" => (Op::Add, ZERO, Source::Number(operands.number(1)?)),
        "la" => (Op::Add, ZERO, Source::Location(names.number(operands.name(1)?, operands.line)?)),
        "lui" => (Op::Add, ZERO, Source::Number(upper(operands)?)),
        "mv" => (Op::Add, source()?, Source::Number(0)),
        "not" => (Op::Xor, source()?, Source::Number(u64::MAX)),
        "neg" => (Op::Sub, ZERO, source()?),
        "seqz" => (Op::LessUnsigned, source()?, Source::Number(1)),
        "snez" => (Op::LessUnsigned, ZERO, source()?),
        _ => (Op::AddWord, source()?, Source::Number(0)),
    };
    compute(operands, op, left, right)
}

fn upper(operands: &Operands) -> Result<u64, Error> {
    let number = operands.number(1)?;
    if number > MOST_UPPER {
        return Err(operands.error(format!("the number {number} isn't from 0 to {MOST_UPPER}")));
    }
    Ok(super::operation::sign_extended(number << UPPER, 4))
}
