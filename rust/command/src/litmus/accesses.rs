//! Loads, stores, LR, SC and AMOs.

use super::instruction::{Access, AccessKind};
use super::operands::Operands;
use super::register::Register;
use super::AmoOp;
use crate::error::Error;
use crate::record::{ACQUIRE, RELEASE};

/// Word, width in bytes, and whether the sign is extended.
const LOADS: [(&str, u32, bool); 7] = [
    ("lb", 1, true),
    ("lbu", 1, false),
    ("lh", 2, true),
    ("lhu", 2, false),
    ("lw", 4, true),
    ("lwu", 4, false),
    ("ld", 8, true),
];
const STORES: [(&str, u32); 4] = [("sb", 1), ("sh", 2), ("sw", 4), ("sd", 8)];
const AMOS: [(&str, AmoOp); 9] = [
    ("amoswap", AmoOp::Swap),
    ("amoadd", AmoOp::Add),
    ("amoand", AmoOp::And),
    ("amoor", AmoOp::Or),
    ("amoxor", AmoOp::Xor),
    ("amomax", AmoOp::Larger),
    ("amomin", AmoOp::Smaller),
    ("amomaxu", AmoOp::LargerUnsigned),
    ("amominu", AmoOp::SmallerUnsigned),
];

/// An access; None if the word is no access.
pub fn decode(operands: &Operands) -> Result<Option<Access>, Error> {
    let mut parts = operands.word.split('.');
    let root = parts.next().unwrap_or_default();
    let Some((kind, width)) = kind(root) else { return Ok(None) };
    let width = match width {
        Some(width) => width,
        None => atomic_width(operands, parts.next())?,
    };
    let flags = annotations(operands, parts)?;
    check_annotations(operands, kind, flags)?;
    let is_signed = !LOADS.iter().any(|&(word, _, is_signed)| word == root && !is_signed);
    let places = places(operands, kind)?;
    Ok(Some(Access { kind, width, is_signed, flags, ..places }))
}

/// The kind of a word before its first dot, and its width, which LR, SC and AMOs have behind the dot.
fn kind(root: &str) -> Option<(AccessKind, Option<u32>)> {
    if let Some(&(_, width, _)) = LOADS.iter().find(|load| load.0 == root) {
        return Some((AccessKind::Load, Some(width)));
    }
    if let Some(&(_, width)) = STORES.iter().find(|store| store.0 == root) {
        return Some((AccessKind::Store, Some(width)));
    }
    match root {
        "lr" => Some((AccessKind::Lr, None)),
        "sc" => Some((AccessKind::Sc, None)),
        _ => AMOS.iter().find(|amo| amo.0 == root).map(|&(_, op)| (AccessKind::Amo(op), None)),
    }
}

fn atomic_width(operands: &Operands, part: Option<&str>) -> Result<u32, Error> {
    match part {
        Some("w") => Ok(4),
        Some("d") => Ok(8),
        _ => Err(operands.error("it needs a width, `.w` or `.d`")),
    }
}

/// `.aq`, `.rl`, `.aqrl` or `.aq.rl`.
fn annotations<'a>(operands: &Operands, parts: impl Iterator<Item = &'a str>) -> Result<u8, Error> {
    let parts: Vec<&str> = parts.collect();
    match parts[..] {
        [] => Ok(0),
        ["aq"] => Ok(ACQUIRE),
        ["rl"] => Ok(RELEASE),
        ["aqrl"] | ["aq", "rl"] => Ok(ACQUIRE | RELEASE),
        _ => Err(operands.error("behind the instruction only `.aq`, `.rl` and `.aqrl` are read")),
    }
}

/// The model has no release alone on what only reads, and no acquire alone on what only writes.
fn check_annotations(operands: &Operands, kind: AccessKind, flags: u8) -> Result<(), Error> {
    match (kind, flags) {
        (AccessKind::Load | AccessKind::Lr, RELEASE) => Err(operands.error("a load or LR has no `.rl` without `.aq`")),
        (AccessKind::Store | AccessKind::Sc, ACQUIRE) => {
            Err(operands.error("a store or SC has no `.aq` without `.rl`"))
        }
        _ => Ok(()),
    }
}

/// The registers of an access, in the order in which its kind has them.
fn places(operands: &Operands, kind: AccessKind) -> Result<Access, Error> {
    let mut access = Access {
        kind,
        width: 0,
        is_signed: true,
        flags: 0,
        base: Register::ZERO,
        offset: 0,
        from: Register::ZERO,
        to: Register::ZERO,
    };
    let is_atomic = !matches!(kind, AccessKind::Load | AccessKind::Store);
    let last = match kind {
        AccessKind::Load | AccessKind::Store | AccessKind::Lr => 1,
        AccessKind::Sc | AccessKind::Amo(_) => 2,
    };
    operands.count(last + 1)?;
    if kind == AccessKind::Store {
        access.from = operands.register(0)?;
    } else {
        access.to = operands.register(0)?;
    }
    if last == 2 {
        access.from = operands.register(1)?;
    }
    (access.base, access.offset) = operands.memory(last)?;
    if is_atomic && access.offset != 0 {
        return Err(operands.error("its address has no offset"));
    }
    Ok(access)
}
