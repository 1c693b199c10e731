//! The condition of a text: when an order makes it true, what it names, and how it is printed.

use crate::following::{value_at_end, value_returned};
use crate::table::Table;
use std::fmt;

/// "A condition is `r3=1` (event 3 returns 1), `x0=2` (location 0 ends at 2), `not` and a
/// condition, or `(`, a condition, `and` or `or`, a condition, `)`". "event and location numbers in
/// a condition go to 255".
#[derive(Clone, PartialEq, Eq, Debug)]
pub enum Condition {
    Returns { event: u8, value: u16 },
    Ends { location: u8, value: u16 },
    Not(Box<Condition>),
    And(Box<Condition>, Box<Condition>),
    Or(Box<Condition>, Box<Condition>),
}

impl Condition {
    /// Whether a lawful order makes it true.
    pub fn holds(&self, table: &Table, order: &[usize]) -> bool {
        match self {
            Condition::Returns { event, value } => {
                value_returned(table, order, usize::from(*event)) == *value
            }
            Condition::Ends { location, value } => {
                value_at_end(table, order, usize::from(*location)) == *value
            }
            Condition::Not(inner) => !inner.holds(table, order),
            Condition::And(left, right) => left.holds(table, order) && right.holds(table, order),
            Condition::Or(left, right) => left.holds(table, order) || right.holds(table, order),
        }
    }

    /// 23: "the condition names an event that doesn't read or a location not in the test"
    pub fn names_wrong(&self, table: &Table) -> bool {
        match self {
            Condition::Returns { event, .. } => {
                let named = table.events.get(usize::from(*event));
                !named.is_some_and(|event| event.reads())
            }
            Condition::Ends { location, .. } => usize::from(*location) >= table.locations,
            Condition::Not(inner) => inner.names_wrong(table),
            Condition::And(left, right) | Condition::Or(left, right) => {
                left.names_wrong(table) || right.names_wrong(table)
            }
        }
    }

    /// "a location named by `x`", wherever in the condition
    pub fn names_end_of(&self, other: usize) -> bool {
        match self {
            Condition::Returns { .. } => false,
            Condition::Ends { location, .. } => usize::from(*location) == other,
            Condition::Not(inner) => inner.names_end_of(other),
            Condition::And(left, right) | Condition::Or(left, right) => {
                left.names_end_of(other) || right.names_end_of(other)
            }
        }
    }
}

impl fmt::Display for Condition {
    fn fmt(&self, out: &mut fmt::Formatter) -> fmt::Result {
        match self {
            Condition::Returns { event, value } => write!(out, "r{event}={value}"),
            Condition::Ends { location, value } => write!(out, "x{location}={value}"),
            Condition::Not(inner) => write!(out, "not {inner}"),
            Condition::And(left, right) => write!(out, "( {left} and {right} )"),
            Condition::Or(left, right) => write!(out, "( {left} or {right} )"),
        }
    }
}
