//! What a register holds: a number of 64 bits, or the address of a location with an offset.

use crate::litmus::Op;

/// A number, or an address where there is a location. Addresses have no number here, so that no verdict depends on where
/// locations lie.
#[derive(Clone, Copy, PartialEq, Eq, PartialOrd, Ord, Hash, Default, Debug)]
pub struct Value {
    /// The location that the address is of, by its number.
    pub location: Option<usize>,
    /// The number, or the offset in bytes.
    pub number: u64,
}

impl Value {
    /// A number.
    pub fn number(number: u64) -> Value {
        Value { location: None, number }
    }

    /// The address of a location.
    pub fn address(location: usize) -> Value {
        Value { location: Some(location), number: 0 }
    }

    /// What an operation makes of two values. Addresses can be added to and subtracted from, and compared by subtraction
    /// with one of the same location; None for other uses of them.
    pub fn compute(op: Op, left: Value, right: Value) -> Option<Value> {
        match (op, left.location, right.location) {
            (_, None, None) => Some(Value::number(op.apply(left.number, right.number))),
            (Op::Add, location, None) | (Op::Add, None, location) | (Op::Sub, location, None) => {
                Some(Value { location, number: op.apply(left.number, right.number) })
            }
            (Op::Sub | Op::Xor, one, other) if one == other && left == right => Some(Value::number(0)),
            (Op::Sub, one, other) if one == other => Some(Value::number(op.apply(left.number, right.number))),
            (Op::And, None, _) if left.number == 0 => Some(left),
            (Op::And, _, None) if right.number == 0 => Some(right),
            _ => None,
        }
    }
}

#[cfg(test)]
mod tests {
    use super::*;

    #[test]
    fn addresses_take_offsets() {
        let x = Value::address(0);
        let four = Value::compute(Op::Add, Value::number(4), x);
        assert_eq!(four, Some(Value { location: Some(0), number: 4 }));
        assert_eq!(Value::compute(Op::Sub, four.unwrap(), Value::number(4)), Some(x));
        assert_eq!(Value::compute(Op::Sub, four.unwrap(), x), Some(Value::number(4)));
        assert_eq!(Value::compute(Op::Xor, x, x), Some(Value::number(0)));
        assert_eq!(Value::compute(Op::And, x, Value::number(0)), Some(Value::number(0)));
    }

    #[test]
    fn other_arithmetic_on_addresses_has_no_value() {
        let (x, y) = (Value::address(0), Value::address(1));
        assert_eq!(Value::compute(Op::Add, x, y), None);
        assert_eq!(Value::compute(Op::Sub, x, y), None);
        assert_eq!(Value::compute(Op::Sub, Value::number(1), x), None);
        assert_eq!(Value::compute(Op::Or, x, Value::number(1)), None);
    }
}
