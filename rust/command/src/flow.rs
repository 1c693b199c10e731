//! What the reads of a hart flow into, seen from its program alone. This spares runs; no verdict depends on it.

use crate::litmus::{AccessKind, Action, Instruction, Register, Source, REGISTERS};
use std::collections::BTreeSet;

/// Facts about a program, some of which hold of more than really happens, since a branch may skip an instruction.
pub struct Flow {
    /// The instructions whose value read can flow into an address, a value written or a branch.
    used: BTreeSet<usize>,
    /// For each register how many instructions there are up to the last that writes it.
    settled: [usize; REGISTERS],
}

impl Flow {
    pub fn of(program: &[Instruction]) -> Flow {
        let mut flow = Flow { used: BTreeSet::new(), settled: [0; REGISTERS] };
        let mut carried: [BTreeSet<usize>; REGISTERS] = Default::default();
        for (index, instruction) in program.iter().enumerate() {
            flow.used.extend(uses(&instruction.action).iter().flat_map(|register| &carried[register.index()]));
            let Some(to) = instruction.action.destination() else { continue };
            flow.settled[to.index()] = index + 1;
            let more: BTreeSet<usize> = match &instruction.action {
                Action::Compute { left, right, .. } => {
                    registers([*left, *right]).flat_map(|register| carried[register.index()].clone()).collect()
                }
                _ => BTreeSet::from([index]),
            };
            carried[to.index()].extend(more);
        }
        let is_amo = |action: &Action| matches!(action, Action::Access(a) if matches!(a.kind, AccessKind::Amo(_)));
        flow.used.extend((0..program.len()).filter(|&index| is_amo(&program[index].action)));
        flow
    }

    /// Whether the value that an instruction reads can matter for any other event.
    pub fn is_used(&self, index: usize) -> bool {
        self.used.contains(&index)
    }

    /// Whether a register holds its last value before the instruction `at`.
    pub fn is_settled(&self, register: Register, at: usize) -> bool {
        self.settled[register.index()] <= at
    }
}

/// The registers that decide on an event or on the path.
fn uses(action: &Action) -> Vec<Register> {
    match action {
        Action::Branch { left, right, .. } => vec![*left, *right],
        Action::Access(access) => vec![access.base, access.from],
        _ => Vec::new(),
    }
}

fn registers(sources: [Source; 2]) -> impl Iterator<Item = Register> {
    sources.into_iter().filter_map(|source| match source {
        Source::Register(register) => Some(register),
        _ => None,
    })
}

#[cfg(test)]
mod tests {
    use super::*;
    use crate::litmus::read;

    #[test]
    fn reads_are_used_by_addresses_values_and_branches() {
        let rows = "lw x8,0(x6) ; mv x9,x8 ; lw x10,0(x6) ; lw x11,0(x6) ; beqz x11,L ; sw x9,0(x6) ; L: \
                    lw x12,0(x6) ; amoadd.w x13,x5,(x6) ;";
        let test = read(&format!("RISCV a\n{{ 0:x6=x; }}\nP0 ;\n{rows}\nexists (true)")).unwrap();
        let flow = Flow::of(&test.harts[0].program);
        let used: Vec<usize> = (0..8).filter(|&index| flow.is_used(index)).collect();
        assert_eq!(used, [0, 3, 7]);
        let register = |name| Register::of(name).unwrap();
        assert!(flow.is_settled(register("x5"), 0) && flow.is_settled(register("x8"), 1));
        assert!(!flow.is_settled(register("x12"), 6) && flow.is_settled(register("x12"), 7));
    }
}
