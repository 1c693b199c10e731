//! What the arithmetic instructions, the branches and the AMOs do with numbers.

/// An arithmetic operation on numbers of 64 bits.
#[derive(Clone, Copy, PartialEq, Eq, Debug)]
pub enum Op {
    Add,
    Sub,
    And,
    Or,
    Xor,
    ShiftLeft,
    ShiftRight,
    ShiftRightSigned,
    Less,
    LessUnsigned,
    Multiply,
    AddWord,
    SubWord,
}

impl Op {
    /// The result; shifts take the low six bits of the right side, as the hart does.
    pub fn apply(self, left: u64, right: u64) -> u64 {
        let (signed_left, shift) = (left as i64, (right & 63) as u32);
        match self {
            Op::Add => left.wrapping_add(right),
            Op::Sub => left.wrapping_sub(right),
            Op::And => left & right,
            Op::Or => left | right,
            Op::Xor => left ^ right,
            Op::ShiftLeft => left << shift,
            Op::ShiftRight => left >> shift,
            Op::ShiftRightSigned => (signed_left >> shift) as u64,
            Op::Less => (signed_left < right as i64).into(),
            Op::LessUnsigned => (left < right).into(),
            Op::Multiply => left.wrapping_mul(right),
            Op::AddWord => sign_extended(left.wrapping_add(right), 4),
            Op::SubWord => sign_extended(left.wrapping_sub(right), 4),
        }
    }
}

/// What a branch asks of two registers.
#[derive(Clone, Copy, PartialEq, Eq, Debug)]
pub enum Comparison {
    Equal,
    NotEqual,
    Less,
    NotLess,
    LessUnsigned,
    NotLessUnsigned,
}

impl Comparison {
    /// Whether the branch is taken.
    pub fn holds(self, left: u64, right: u64) -> bool {
        match self {
            Comparison::Equal => left == right,
            Comparison::NotEqual => left != right,
            Comparison::Less => (left as i64) < right as i64,
            Comparison::NotLess => left as i64 >= right as i64,
            Comparison::LessUnsigned => left < right,
            Comparison::NotLessUnsigned => left >= right,
        }
    }
}

/// What an AMO does with the value that it reads and its operand.
#[derive(Clone, Copy, PartialEq, Eq, Debug)]
pub enum AmoOp {
    Swap,
    Add,
    And,
    Or,
    Xor,
    Larger,
    Smaller,
    LargerUnsigned,
    SmallerUnsigned,
}

impl AmoOp {
    /// The value written, of both sides sign-extended to 64 bits.
    pub fn apply(self, read: u64, operand: u64) -> u64 {
        match self {
            AmoOp::Swap => operand,
            AmoOp::Add => read.wrapping_add(operand),
            AmoOp::And => read & operand,
            AmoOp::Or => read | operand,
            AmoOp::Xor => read ^ operand,
            AmoOp::Larger => (read as i64).max(operand as i64) as u64,
            AmoOp::Smaller => (read as i64).min(operand as i64) as u64,
            AmoOp::LargerUnsigned => read.max(operand),
            AmoOp::SmallerUnsigned => read.min(operand),
        }
    }
}

/// The low `bytes` bytes of a number, with the sign that they have.
pub fn sign_extended(number: u64, bytes: u32) -> u64 {
    let unused = u64::BITS - 8 * bytes;
    ((number << unused) as i64 >> unused) as u64
}

/// The low `bytes` bytes of a number.
pub fn truncated(number: u64, bytes: u32) -> u64 {
    let unused = u64::BITS - 8 * bytes;
    number << unused >> unused
}

#[cfg(test)]
mod tests {
    use super::*;

    const MINUS_ONE: u64 = u64::MAX;

    #[test]
    fn arithmetic() {
        assert_eq!(Op::Sub.apply(0, 1), MINUS_ONE);
        assert_eq!(Op::ShiftRightSigned.apply(MINUS_ONE, 65), MINUS_ONE);
        assert_eq!(Op::ShiftRight.apply(MINUS_ONE, 63), 1);
        assert_eq!((Op::Less.apply(MINUS_ONE, 0), Op::LessUnsigned.apply(MINUS_ONE, 0)), (1, 0));
        assert_eq!(Op::AddWord.apply(0x7fff_ffff, 1), 0xffff_ffff_8000_0000);
        assert_eq!(Op::SubWord.apply(0x1_0000_0000, 0), 0);
    }

    #[test]
    fn comparisons() {
        assert!(Comparison::Less.holds(MINUS_ONE, 0) && Comparison::NotLessUnsigned.holds(MINUS_ONE, 0));
        assert!(Comparison::NotLess.holds(3, 3) && !Comparison::LessUnsigned.holds(3, 3));
    }

    #[test]
    fn amos_and_widths() {
        assert_eq!((AmoOp::Larger.apply(MINUS_ONE, 3), AmoOp::LargerUnsigned.apply(MINUS_ONE, 3)), (3, MINUS_ONE));
        assert_eq!((AmoOp::Smaller.apply(MINUS_ONE, 3), AmoOp::SmallerUnsigned.apply(MINUS_ONE, 3)), (MINUS_ONE, 3));
        assert_eq!((sign_extended(0x1_ff, 1), truncated(0x1_ff, 1)), (MINUS_ONE, 0xff));
        assert_eq!((sign_extended(5, 8), truncated(MINUS_ONE, 8)), (5, MINUS_ONE));
    }
}
