//! The registers of a hart, by both of their names.

use std::fmt;

/// How many there are.
pub const REGISTERS: usize = 32;

/// The names that the calling convention gives them, from x0.
const CONVENTION: [&str; REGISTERS] = [
    "zero", "ra", "sp", "gp", "tp", "t0", "t1", "t2", "s0", "s1", "a0", "a1", "a2", "a3", "a4", "a5", "a6", "a7", "s2",
    "s3", "s4", "s5", "s6", "s7", "s8", "s9", "s10", "s11", "t3", "t4", "t5", "t6",
];

/// The other name of s0.
const FRAME_POINTER: &str = "fp";
const FRAME_POINTER_NUMBER: u8 = 8;

/// A register by its number, and by the name that the file uses for it.
#[derive(Clone, Copy, Debug)]
pub struct Register {
    number: u8,
    by_convention: bool,
}

impl Register {
    /// x0, which is always 0 and carries no dependency.
    pub const ZERO: Register = Register { number: 0, by_convention: false };

    /// The register of a name, such as `x10` or `a0`.
    pub fn of(name: &str) -> Option<Register> {
        if name == FRAME_POINTER {
            return Some(Register { number: FRAME_POINTER_NUMBER, by_convention: true });
        }
        if let Some(number) = CONVENTION.iter().position(|&known| known == name) {
            return Some(Register { number: number as u8, by_convention: true });
        }
        let digits = name.strip_prefix('x')?;
        let number: u8 = digits.parse().ok()?;
        let is_plain = number.to_string() == digits && usize::from(number) < REGISTERS;
        is_plain.then_some(Register { number, by_convention: false })
    }

    /// Its place among the registers.
    pub fn index(self) -> usize {
        self.number.into()
    }

    /// Whether it is x0.
    pub fn is_zero(self) -> bool {
        self.number == 0
    }
}

impl PartialEq for Register {
    fn eq(&self, other: &Register) -> bool {
        self.number == other.number
    }
}

impl Eq for Register {}

impl fmt::Display for Register {
    fn fmt(&self, f: &mut fmt::Formatter) -> fmt::Result {
        if self.by_convention {
            write!(f, "{}", CONVENTION[self.index()])
        } else {
            write!(f, "x{}", self.number)
        }
    }
}

#[cfg(test)]
mod tests {
    use super::*;

    #[test]
    fn both_names_are_read() {
        for (number, name) in CONVENTION.iter().enumerate() {
            let register = Register::of(name).unwrap();
            assert_eq!(register.index(), number);
            assert_eq!(register.to_string(), *name);
            assert_eq!(Register::of(&format!("x{number}")), Some(register));
        }
        assert_eq!(Register::of("fp"), Register::of("s0"));
    }

    #[test]
    fn other_names_are_none() {
        for name in ["x32", "x05", "x", "x+5", "a8", "w0", "s12", "X5", ""] {
            assert_eq!(Register::of(name), None, "{name}");
        }
    }
}
