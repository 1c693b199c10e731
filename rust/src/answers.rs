//! What the bench answers, and each answer in words.

use crate::rules::Rules;
use crate::{INITIALLY, NOTHING};
use std::error::Error;
use std::fmt;

/// A line `N<TAB>words` for each refusal, by number.
const REFUSALS: &str = include_str!("../../docs/refusals.txt");

/// Why the bench declines its input. Nothing was altered.
///
/// ```
/// let block = include_bytes!(concat!(env!("CARGO_MANIFEST_DIR"), "/../samples/C1-edition-9.block"));
/// let refusal = cogthunder::read(block).unwrap_err();
/// assert_eq!(refusal.number, 4);
/// assert_eq!(refusal.to_string(), "refused 4: the edition in byte 4 is neither 1 nor 2");
/// ```
///
/// In a text, 19 and 20 say at which byte:
///
/// ```
/// let refusal = cogthunder::read_text(b"1 0 0 07 0 0 0 0 0 0 0\n\n0\nr0=0\n").unwrap_err();
/// assert_eq!((refusal.number, refusal.place), (19, Some(7)));
/// assert_eq!(
///     refusal.to_string(),
///     "refused 19 at byte 7: no legal text has this byte in this place, or the text ends too soon"
/// );
/// ```
#[derive(Clone, Copy, PartialEq, Eq, Hash, Debug)]
#[non_exhaustive]
pub struct Refusal {
    /// The number of the refusal, from 1.
    pub number: u8,
    /// The lowest record that breaks the line, for refusals 7 to 10. In a text event k has record k.
    pub record: Option<u8>,
    /// The byte of a text where refusals 19 and 20 find it wrong, from 0. Where the text ends too soon, it is the length.
    pub place: Option<u32>,
}

impl Refusal {
    /// What is wrong, in a sentence.
    pub fn words(&self) -> &'static str {
        let mut lines = REFUSALS.lines().filter_map(|line| line.split_once('\t'));
        lines.find(|(number, _)| number.parse() == Ok(self.number)).expect("each refusal has its line").1
    }
}

impl fmt::Display for Refusal {
    fn fmt(&self, f: &mut fmt::Formatter) -> fmt::Result {
        write!(f, "refused {}", self.number)?;
        if let Some(record) = self.record {
            write!(f, " at record {record}")?;
        }
        if let Some(place) = self.place {
            write!(f, " at byte {place}")?;
        }
        write!(f, ": {}", self.words())
    }
}

impl Error for Refusal {}

/// Whether a candidate, an order with a returned list, shows the stated outcome.
#[derive(Clone, Copy, PartialEq, Eq, Hash, Debug)]
pub enum Verdict {
    /// The rules allow it, and it has the stated values.
    Allowed,
    /// The first axiom or stated value that it breaks.
    Broken(Axiom),
}

impl fmt::Display for Verdict {
    fn fmt(&self, f: &mut fmt::Formatter) -> fmt::Result {
        match self {
            Verdict::Allowed => write!(f, "allowed"),
            Verdict::Broken(axiom) => write!(f, "not allowed: {axiom}"),
        }
    }
}

/// What a candidate breaks, and where; a stated value that isn't met is given as an axiom is.
#[derive(Clone, Copy, PartialEq, Eq, Hash, Debug)]
pub enum Axiom {
    /// Preserved program order puts event `a` before event `b`, and the order doesn't.
    PreservedOrder {
        /// The lowest event that stands after one which it has to precede.
        a: u8,
        /// The lowest event that `a` has to precede and stands after.
        b: u8,
        /// All rules that put `a` before `b`.
        rules: Rules,
    },
    /// A reader doesn't return from the write that the order gives it.
    LoadValue {
        /// The lowest such reader.
        reader: u8,
    },
    /// An LR and its SC are parted by another hart's write.
    Atomicity {
        /// The lowest such LR.
        lr: u8,
        /// The lowest write that parts it from its SC.
        writer: u8,
    },
    /// A reader doesn't get its stated value.
    ValueRead {
        /// The lowest such reader.
        reader: u8,
    },
    /// A location doesn't end with its stated value.
    FinalValue {
        /// The lowest such location.
        location: u8,
    },
}

impl fmt::Display for Axiom {
    fn fmt(&self, f: &mut fmt::Formatter) -> fmt::Result {
        match *self {
            Axiom::PreservedOrder { a, b, rules } => {
                write!(f, "event {a} has to come before event {b} by {rules}, and doesn't")
            }
            Axiom::LoadValue { reader } => {
                write!(f, "event {reader} doesn't return from the latest write to its location that it sees")
            }
            Axiom::Atomicity { lr, writer } => {
                write!(f, "event {writer} parts the LR of event {lr} from its SC")
            }
            Axiom::ValueRead { reader } => write!(f, "event {reader} doesn't read its stated value"),
            Axiom::FinalValue { location } => write!(f, "location {location} doesn't end with its stated value"),
        }
    }
}

/// What a search found, and how many prefixes of its engine's list it visited.
#[derive(Clone, Copy, PartialEq, Eq, Hash, Debug)]
pub enum Answer {
    /// A witness; its order is written.
    Found {
        /// The number of bytes written: the length of the order.
        len: usize,
        /// The place of the witness in the list of prefixes after the start, from 1.
        visited: u64,
    },
    /// No witness is left after the start; nothing is written.
    NoneLeft {
        /// The number of prefixes after the start.
        visited: u64,
    },
    /// No witness is among the first prefixes, as many as the allowance; the last of them is written.
    Spent {
        /// The number of bytes written: the length of the prefix.
        len: usize,
        /// The allowance.
        visited: u64,
    },
}

impl fmt::Display for Answer {
    fn fmt(&self, f: &mut fmt::Formatter) -> fmt::Result {
        match self {
            Answer::Found { visited, .. } => write!(f, "a witness, {visited} prefixes visited"),
            Answer::NoneLeft { visited } => write!(f, "no witness left, {visited} prefixes visited"),
            Answer::Spent { visited, .. } => write!(f, "undecided, the allowance of {visited} prefixes is spent"),
        }
    }
}

/// What a decision finds.
#[derive(Clone, Copy, PartialEq, Eq, Hash, Debug)]
pub enum Decision {
    /// The least witness above the start; its order is written.
    Found {
        /// The number of bytes written: the length of the order.
        len: usize,
    },
    /// No witness is above the start; nothing is written.
    NoneLeft,
}

impl fmt::Display for Decision {
    fn fmt(&self, f: &mut fmt::Formatter) -> fmt::Result {
        match self {
            Decision::Found { .. } => write!(f, "a witness"),
            Decision::NoneLeft => write!(f, "no witness left"),
        }
    }
}

/// What a call for outcomes gives.
#[derive(Clone, Copy, PartialEq, Eq, Hash, Debug)]
pub enum Listing {
    /// The least outcomes above the previous one; they are written one behind the other.
    Listed {
        /// How many outcomes are written.
        outcomes: usize,
        /// How many values each of them has.
        values: usize,
    },
    /// No outcome is above the previous one; nothing is written.
    NoneLeft,
    /// The test has more clean prefixes than the allowance, whatever the previous outcome; nothing is written.
    Spent,
}

impl fmt::Display for Listing {
    fn fmt(&self, f: &mut fmt::Formatter) -> fmt::Result {
        match self {
            Listing::Listed { outcomes: 1, values } => write!(f, "an outcome of {values} values"),
            Listing::Listed { outcomes, values } => write!(f, "{outcomes} outcomes of {values} values"),
            Listing::NoneLeft => write!(f, "no outcome left"),
            Listing::Spent => write!(f, "undecided, the allowance is spent"),
        }
    }
}

/// A step that the machine for RVTSO took.
#[derive(Clone, Copy, PartialEq, Eq, Hash, Debug)]
pub struct Taken {
    /// The event that was issued or drained.
    pub event: u8,
    /// What a returned list holds for the event: of a reader the event whose write it returns from, or
    /// [`INITIALLY`](crate::INITIALLY); of a store or fence [`NOTHING`](crate::NOTHING).
    pub entry: u8,
}

impl fmt::Display for Taken {
    fn fmt(&self, f: &mut fmt::Formatter) -> fmt::Result {
        match *self {
            Taken { event, entry: NOTHING } => write!(f, "event {event}"),
            Taken { event, entry: INITIALLY } => write!(f, "event {event}, which returns the initial value"),
            Taken { event, entry } => write!(f, "event {event}, which returns from event {entry}"),
        }
    }
}

/// Which fences a test lacks: a set of its empty ones, as their event numbers, ascending.
#[derive(Clone, PartialEq, Eq, Hash, Debug)]
pub enum Advice {
    /// With these fences full the outcome is forbidden, and with no fewer; without any, as it is.
    Advised(Vec<u8>),
    /// With these fences full the allowance is spent; with each set before this one the outcome is allowed.
    Undecided(Vec<u8>),
    /// The outcome is allowed, whichever of the clear fences are full.
    NoHelp,
}

impl fmt::Display for Advice {
    fn fmt(&self, f: &mut fmt::Formatter) -> fmt::Result {
        let (verdict, fences) = match self {
            Advice::Advised(fences) => ("forbidden", fences),
            Advice::Undecided(fences) => ("undecided", fences),
            Advice::NoHelp => return write!(f, "fences don't help"),
        };
        let numbers: Vec<String> = fences.iter().map(u8::to_string).collect();
        match numbers.split_last() {
            None => write!(f, "{verdict} as it is"),
            Some((only, [])) => write!(f, "{verdict} with fence {only} full"),
            Some((last, others)) => write!(f, "{verdict} with fences {} and {last} full", others.join(", ")),
        }
    }
}

#[cfg(test)]
mod tests {
    use super::*;

    #[test]
    fn each_refusal_has_its_line() {
        let numbers: Vec<u8> = (1..=24).collect();
        let listed: Vec<u8> =
            REFUSALS.lines().map(|line| line.split_once('\t').expect("a tab").0.parse().expect("a number")).collect();
        assert_eq!(listed, numbers);
        for number in numbers {
            assert!(!Refusal { number, record: None, place: None }.words().is_empty());
        }
    }

    #[test]
    fn answers_are_words() {
        let refusal = Refusal { number: 10, record: Some(3), place: None };
        assert_eq!(
            refusal.to_string(),
            "refused 10 at record 3: the SC isn't paired: the nearest earlier LR or SC on its hart isn't an LR to the \
             same location"
        );
        let refusal = Refusal { number: 20, record: None, place: Some(0) };
        assert_eq!(
            refusal.to_string(),
            "refused 20 at byte 0: a `not` or a bracket begins a ninth level here, and a condition has at most eight"
        );
        let rules = Rules::from_iter([4, 5]);
        let broken = Verdict::Broken(Axiom::PreservedOrder { a: 0, b: 2, rules });
        assert_eq!(
            broken.to_string(),
            "not allowed: event 0 has to come before event 2 by rules 4 (a fence between) and 5 (an acquire before), and \
             doesn't"
        );
        assert_eq!(Verdict::Allowed.to_string(), "allowed");
        assert_eq!(Answer::NoneLeft { visited: 18 }.to_string(), "no witness left, 18 prefixes visited");
        assert_eq!(Decision::Found { len: 4 }.to_string(), "a witness");
        assert_eq!(Decision::NoneLeft.to_string(), "no witness left");
        assert_eq!(Listing::Listed { outcomes: 1, values: 4 }.to_string(), "an outcome of 4 values");
        assert_eq!(Listing::Listed { outcomes: 3, values: 4 }.to_string(), "3 outcomes of 4 values");
        assert_eq!(Taken { event: 3, entry: NOTHING }.to_string(), "event 3");
        assert_eq!(Taken { event: 3, entry: INITIALLY }.to_string(), "event 3, which returns the initial value");
        assert_eq!(Taken { event: 3, entry: 2 }.to_string(), "event 3, which returns from event 2");
        assert_eq!(Advice::Advised(vec![]).to_string(), "forbidden as it is");
        assert_eq!(Advice::Advised(vec![1, 4, 7]).to_string(), "forbidden with fences 1, 4 and 7 full");
        assert_eq!(Advice::Undecided(vec![4]).to_string(), "undecided with fence 4 full");
        assert_eq!(Advice::NoHelp.to_string(), "fences don't help");
    }
}
