//! The operations of AMOs.

/// What an AMO makes of the value that it reads, of 16 bits, and of an operand of 8; both are unsigned.
#[derive(Clone, Copy, PartialEq, Eq, Hash, Debug)]
pub enum Operation {
    /// `amoadd`: the sum, modulo 65,536.
    Add = 1,
    /// `amoand`: the bits that both have, so that the high byte is cleared.
    And = 2,
    /// `amoor`: the bits that either has.
    Or = 3,
    /// `amoxor`: the bits that one of them has.
    Xor = 4,
    /// `amomaxu`: the larger one.
    Larger = 5,
    /// `amominu`: the smaller one.
    Smaller = 6,
}

impl Operation {
    /// The value that is written.
    ///
    /// ```
    /// use cogthunder::Operation;
    ///
    /// assert_eq!(Operation::Add.apply(65_535, 1), 0);
    /// assert_eq!(Operation::And.apply(0x1234, 255), 0x34);
    /// ```
    pub fn apply(self, read: u16, operand: u8) -> u16 {
        let operand = u16::from(operand);
        match self {
            Operation::Add => read.wrapping_add(operand),
            Operation::And => read & operand,
            Operation::Or => read | operand,
            Operation::Xor => read ^ operand,
            Operation::Larger => read.max(operand),
            Operation::Smaller => read.min(operand),
        }
    }
}
