//! The instructions of a hart.

use super::names::Names;
use super::operands::Operands;
use super::register::Register;
use super::{accesses, arithmetic, branches, fences, AmoOp, Comparison, Op};
use crate::error::Error;
use std::collections::HashMap;

/// An instruction, its line, and how the file has it.
#[derive(Clone, Debug)]
pub struct Instruction {
    pub action: Action,
    pub line: usize,
    pub text: String,
}

/// What an instruction does.
#[derive(Clone, PartialEq, Eq, Debug)]
pub enum Action {
    Nothing,
    Compute {
        op: Op,
        to: Register,
        left: Source,
        right: Source,
    },
    /// `to` is the number of the instruction that it goes to.
    Branch {
        comparison: Comparison,
        left: Register,
        right: Register,
        to: usize,
    },
    Jump {
        to: usize,
    },
    Access(Access),
    /// With the flags of a record: pr, pw, sr, sw from bit 0.
    Fence {
        flags: u8,
    },
    FenceTso,
}

/// What an arithmetic instruction takes.
#[derive(Clone, Copy, PartialEq, Eq, Debug)]
pub enum Source {
    Register(Register),
    Number(u64),
    /// The address of a location.
    Location(usize),
}

/// An access to memory.
#[derive(Clone, Copy, PartialEq, Eq, Debug)]
pub struct Access {
    pub kind: AccessKind,
    /// In bytes.
    pub width: u32,
    /// Whether a value read has its sign extended.
    pub is_signed: bool,
    /// The flags of a record: acquire-RCsc and release-RCsc.
    pub flags: u8,
    /// The register with the address, and what is added to it.
    pub base: Register,
    pub offset: u64,
    /// What is written to memory; x0 for one that doesn't write.
    pub from: Register,
    /// What takes the value read, or an SC's result; x0 for none.
    pub to: Register,
}

/// The kinds of accesses.
#[derive(Clone, Copy, PartialEq, Eq, Debug)]
pub enum AccessKind {
    Load,
    Store,
    Amo(AmoOp),
    Lr,
    Sc,
}

impl Action {
    /// The register that it writes, if it writes one.
    pub fn destination(&self) -> Option<Register> {
        let register = match self {
            Action::Compute { to, .. } => *to,
            Action::Access(access) => access.to,
            _ => return None,
        };
        (!register.is_zero()).then_some(register)
    }
}

/// What instructions of one hart can name.
pub struct Surroundings<'a, 'n> {
    /// The labels, each with the instruction that follows it.
    pub labels: HashMap<&'a str, usize>,
    pub names: &'n mut Names,
}

/// Decodes the instruction with number `index` of its hart.
pub fn decode(operands: &Operands, around: &mut Surroundings, index: usize) -> Result<Action, Error> {
    if let Some(access) = accesses::decode(operands)? {
        return Ok(Action::Access(access));
    }
    if let Some(action) = fences::decode(operands)? {
        return Ok(action);
    }
    if let Some(action) = branches::decode(operands, &around.labels, index)? {
        return Ok(action);
    }
    if let Some(action) = arithmetic::decode(operands, around.names)? {
        return Ok(action);
    }
    Err(operands.error(unread(operands.word)))
}

/// Why an instruction isn't read.
fn unread(word: &str) -> &'static str {
    let is_csr = ["csr", "rdcycle", "rdtime", "rdinstret"].iter().any(|start| word.starts_with(start));
    match word {
        _ if is_csr => "CSRs are out of the model",
        "jal" | "jalr" | "jr" | "call" | "ret" | "tail" => "calls and indirect jumps aren't read",
        "ecall" | "ebreak" | "mret" | "sret" | "wfi" | "sfence.vma" => "it is out of the model",
        _ if word.starts_with("cbo.") => "it is out of the model",
        _ => "it isn't an instruction that this program reads",
    }
}
