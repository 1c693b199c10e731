//! What an AMO makes of the value that it reads.

/// "an operation and an operand from 0 to 255: 0 none (the written value is as stated, operand
/// 0), 1 add modulo 65,536, 2 and, 3 or, 4 exclusive or, 5 larger, 6 smaller (both unsigned)"
#[derive(Clone, Copy, PartialEq, Eq, Debug)]
pub enum Operation {
    None = 0,
    Add = 1,
    And = 2,
    Or = 3,
    Xor = 4,
    Larger = 5,
    Smaller = 6,
}

/// How many values two bytes have.
const VALUES: u32 = 65_536;

impl Operation {
    /// All but none.
    pub const SOME: [Operation; 6] = [
        Operation::Add,
        Operation::And,
        Operation::Or,
        Operation::Xor,
        Operation::Larger,
        Operation::Smaller,
    ];

    pub fn from_number(number: u8) -> Option<Operation> {
        let all = [&[Operation::None], &Operation::SOME[..]].concat();
        all.into_iter().find(|&operation| operation as u8 == number)
    }

    /// "the operation applied to the value read"; nothing where there is none, and "the written
    /// value is as stated".
    pub fn applied(self, read: u16, operand: u8) -> Option<u16> {
        let operand = u16::from(operand);
        Some(match self {
            Operation::None => return None,
            Operation::Add => ((u32::from(read) + u32::from(operand)) % VALUES) as u16,
            Operation::And => read & operand,
            Operation::Or => read | operand,
            Operation::Xor => read ^ operand,
            Operation::Larger => read.max(operand),
            Operation::Smaller => read.min(operand),
        })
    }
}

#[cfg(test)]
mod tests {
    use super::*;

    /// Values read, operands, and what the operation makes of them.
    fn assert_all(operation: Operation, worked: &[(u16, u8, u16)]) {
        for &(read, operand, written) in worked {
            let applied = operation.applied(read, operand);
            assert_eq!(applied, Some(written), "{operation:?} {read} {operand}");
        }
    }

    #[test]
    fn numbers_from_0_to_6_are_operations() {
        assert_eq!(Operation::from_number(0), Some(Operation::None));
        assert_eq!(Operation::from_number(1), Some(Operation::Add));
        assert_eq!(Operation::from_number(6), Some(Operation::Smaller));
        for above in 7..=255 {
            assert_eq!(Operation::from_number(above), None);
        }
    }

    #[test]
    fn without_an_operation_the_written_value_is_as_stated() {
        assert_eq!(Operation::None.applied(7, 0), None);
    }

    #[test]
    fn add_is_modulo_65536() {
        assert_all(
            Operation::Add,
            &[
                (0, 0, 0),
                (0, 255, 255),
                (255, 1, 256),
                (65535, 0, 65535),
                (65535, 1, 0),
                (65535, 255, 254),
                (65280, 255, 65535),
                (65281, 255, 0),
            ],
        );
    }

    #[test]
    fn and_clears_the_high_byte() {
        assert_all(
            Operation::And,
            &[
                (0, 255, 0),
                (255, 255, 255),
                (256, 255, 0),
                (0x1234, 255, 0x34),
                (65535, 255, 255),
                (65535, 0, 0),
                (0b0110, 0b0011, 0b0010),
            ],
        );
    }

    #[test]
    fn or_sets_bits_of_the_low_byte_alone() {
        assert_all(
            Operation::Or,
            &[
                (0, 0, 0),
                (0, 255, 255),
                (256, 0, 256),
                (0x1234, 255, 0x12FF),
                (65280, 255, 65535),
                (65535, 255, 65535),
                (0b0110, 0b0011, 0b0111),
            ],
        );
    }

    #[test]
    fn exclusive_or_turns_bits_of_the_low_byte_alone() {
        assert_all(
            Operation::Xor,
            &[
                (0, 0, 0),
                (0, 255, 255),
                (255, 255, 0),
                (0x1234, 0, 0x1234),
                (0x1234, 255, 0x12CB),
                (65535, 255, 65280),
                (0b0110, 0b0011, 0b0101),
            ],
        );
    }

    #[test]
    fn larger_compares_unsigned() {
        assert_all(
            Operation::Larger,
            &[
                (0, 0, 0),
                (0, 255, 255),
                (254, 255, 255),
                (255, 255, 255),
                (256, 255, 256),
                (32768, 255, 32768),
                (65535, 0, 65535),
                (65535, 255, 65535),
            ],
        );
    }

    #[test]
    fn smaller_compares_unsigned() {
        assert_all(
            Operation::Smaller,
            &[
                (0, 0, 0),
                (0, 255, 0),
                (254, 255, 254),
                (255, 255, 255),
                (256, 255, 255),
                (32768, 255, 255),
                (65535, 0, 0),
                (65535, 255, 255),
            ],
        );
    }
}
