//! The condition of a test as text.

use std::collections::BTreeSet;
use std::fmt;

/// What is asked of the outcome.
#[derive(Clone, PartialEq, Eq, Debug)]
pub enum Condition {
    /// `r2=1`: event 2 returns 1.
    Reads(u8, u16),
    /// `x0=2`: location 0 ends at 2.
    Ends(u8, u16),
    Not(Box<Condition>),
    Both(Box<Condition>, Box<Condition>),
    Either(Box<Condition>, Box<Condition>),
}

impl Condition {
    /// Reads a line that the library has accepted; None for another.
    pub fn read(line: &str) -> Option<Condition> {
        let mut words = line.split(' ');
        let condition = part(&mut words)?;
        words.next().is_none().then_some(condition)
    }

    /// Whether it holds, as far as what is known decides that.
    pub fn holds(&self, reads: &dyn Fn(u8) -> Option<u16>, ends: &dyn Fn(u8) -> Option<u16>) -> Option<bool> {
        match self {
            Condition::Reads(event, value) => reads(*event).map(|read| read == *value),
            Condition::Ends(location, value) => ends(*location).map(|end| end == *value),
            Condition::Not(inner) => inner.holds(reads, ends).map(|holds| !holds),
            Condition::Both(left, right) => joined(left.holds(reads, ends), right.holds(reads, ends), false),
            Condition::Either(left, right) => joined(left.holds(reads, ends), right.holds(reads, ends), true),
        }
    }

    /// The locations whose ends it names.
    pub fn locations(&self) -> BTreeSet<u8> {
        match self {
            Condition::Reads(..) => BTreeSet::new(),
            Condition::Ends(location, _) => BTreeSet::from([*location]),
            Condition::Not(inner) => inner.locations(),
            Condition::Both(left, right) | Condition::Either(left, right) => &left.locations() | &right.locations(),
        }
    }
}

impl fmt::Display for Condition {
    fn fmt(&self, f: &mut fmt::Formatter) -> fmt::Result {
        match self {
            Condition::Reads(event, value) => write!(f, "r{event}={value}"),
            Condition::Ends(location, value) => write!(f, "x{location}={value}"),
            Condition::Not(inner) => write!(f, "not {inner}"),
            Condition::Both(left, right) => write!(f, "( {left} and {right} )"),
            Condition::Either(left, right) => write!(f, "( {left} or {right} )"),
        }
    }
}

/// One side that is `decisive` decides; else both have to be known.
fn joined(left: Option<bool>, right: Option<bool>, decisive: bool) -> Option<bool> {
    if left == Some(decisive) || right == Some(decisive) {
        return Some(decisive);
    }
    left.and(right)
}

fn part(words: &mut std::str::Split<char>) -> Option<Condition> {
    match words.next()? {
        "not" => Some(Condition::Not(Box::new(part(words)?))),
        "(" => {
            let left = Box::new(part(words)?);
            let joins_both = words.next()? == "and";
            let right = Box::new(part(words)?);
            words.next().filter(|&word| word == ")")?;
            Some(if joins_both { Condition::Both(left, right) } else { Condition::Either(left, right) })
        }
        word => {
            let (name, value) = word.split_once('=')?;
            let (number, value) = (name.get(1..)?.parse().ok()?, value.parse().ok()?);
            Some(if name.starts_with('r') { Condition::Reads(number, value) } else { Condition::Ends(number, value) })
        }
    }
}

#[cfg(test)]
mod tests {
    use super::*;

    #[test]
    fn a_condition_is_read_and_tested() {
        let line = "( ( r2=1 and not r3=0 ) or x0=2 )";
        let condition = Condition::read(line).unwrap();
        assert_eq!(condition.to_string(), line);
        assert_eq!(condition.locations(), BTreeSet::from([0]));
        let holds = |two: Option<u16>, three: Option<u16>, end: Option<u16>| {
            condition.holds(&|event| if event == 2 { two } else { three }, &|_| end)
        };
        assert_eq!(holds(Some(1), Some(1), None), Some(true));
        assert_eq!(holds(Some(0), None, Some(2)), Some(true));
        assert_eq!(holds(Some(0), None, Some(3)), Some(false));
        assert_eq!(holds(Some(1), None, Some(3)), None);
        assert_eq!(Condition::read("( r2=1 and r3=0"), None);
    }
}
