//! All outcomes of a test, one after the other.

use crate::answers::{Listing, Refusal};
use crate::library::outcomes;
use crate::{OUTCOMES, VALUES};
use std::collections::VecDeque;
use std::error::Error;
use std::fmt;
use std::iter::FusedIterator;

/// All outcomes of a test, ascending, each once: for each event that reads its value, in the order of the events, then for
/// each location the value that it ends at. The reads and final values that the test states aren't asked for
/// ([`outcome`](crate::outcome)).
///
/// The clean prefixes of the test are walked once for [`OUTCOMES`] of them. [`previous`](Outcomes::previous) is what has to
/// be kept so that [`resume`](Outcomes::resume) goes on from there.
///
/// ```
/// use cogthunder::Outcomes;
///
/// // Message passing: events 2 and 3 read, and there are two locations.
/// let block = include_bytes!(concat!(env!("CARGO_MANIFEST_DIR"), "/../samples/C1.block"));
/// let all: Vec<Vec<u16>> = Outcomes::of(block, 1_000_000)?.collect();
/// assert_eq!(all, [[0, 0, 1, 1], [0, 1, 1, 1], [1, 0, 1, 1], [1, 1, 1, 1]]);
///
/// // With fences event 5 can't miss the data that event 3 was told of.
/// let block = include_bytes!(concat!(env!("CARGO_MANIFEST_DIR"), "/../samples/C2.block"));
/// let mut some = Outcomes::of(block, 1_000_000)?;
/// assert_eq!(some.next(), Some(vec![0, 0, 1, 1]));
/// let saved = some.previous().to_vec();
/// let rest = Outcomes::resume(block, &saved, 1_000_000)?;
/// assert!(rest.eq([[0, 1, 1, 1], [1, 1, 1, 1]]));
/// # Ok::<(), cogthunder::Unlisted>(())
/// ```
#[derive(Clone, Debug)]
pub struct Outcomes<'a> {
    test: &'a [u8],
    allowance: u64,
    /// What the last call listed and wasn't handed out yet.
    listed: VecDeque<Vec<u16>>,
    /// Whether a further call could list more.
    goes_on: bool,
    previous: Vec<u16>,
}

impl<'a> Outcomes<'a> {
    /// From the beginning. The allowance has to be as large as the number of the test's clean prefixes; up to
    /// [`LARGEST_ALLOWANCE`](crate::LARGEST_ALLOWANCE), and the larger the list, the longer it takes.
    ///
    /// ```
    /// use cogthunder::{Outcomes, Unlisted};
    ///
    /// let block = include_bytes!(concat!(env!("CARGO_MANIFEST_DIR"), "/../samples/C1.block"));
    /// assert!(Outcomes::of(block, 64).is_ok());
    /// assert_eq!(Outcomes::of(block, 63).unwrap_err(), Unlisted::Spent);
    /// ```
    pub fn of(test: &'a [u8], allowance: u64) -> Result<Outcomes<'a>, Unlisted> {
        Outcomes::resume(test, &[], allowance)
    }

    /// Those above a list of as many values as an outcome has, or above the empty list. It is refused by 1 to 11, 21, 12 and 17.
    pub fn resume(test: &'a [u8], previous: &[u16], allowance: u64) -> Result<Outcomes<'a>, Unlisted> {
        let (listed, previous) = (VecDeque::new(), previous.to_vec());
        let mut outcomes = Outcomes { test, allowance, listed, goes_on: true, previous };
        outcomes.list()?;
        Ok(outcomes)
    }

    /// The outcome that was handed out last, or what the iterator was resumed from.
    pub fn previous(&self) -> &[u16] {
        &self.previous
    }

    /// Asks for as many outcomes as one call lists; where these are fewer, none are left.
    fn list(&mut self) -> Result<(), Unlisted> {
        let mut out = [0; OUTCOMES * VALUES];
        self.goes_on = false;
        match outcomes(self.test, &self.previous, &mut out, self.allowance)? {
            Listing::Listed { outcomes, values } => {
                self.listed = out.chunks(values).take(outcomes).map(<[u16]>::to_vec).collect();
                self.goes_on = outcomes == OUTCOMES;
            }
            Listing::NoneLeft => {}
            Listing::Spent => return Err(Unlisted::Spent),
        }
        Ok(())
    }
}

impl Iterator for Outcomes<'_> {
    type Item = Vec<u16>;

    fn next(&mut self) -> Option<Vec<u16>> {
        if self.listed.is_empty() && self.goes_on {
            self.list().expect(
                "the arguments are those of a call that listed outcomes, but for an outcome as the previous one",
            );
        }
        self.previous = self.listed.pop_front()?;
        Some(self.previous.clone())
    }
}

impl FusedIterator for Outcomes<'_> {}

/// Why the outcomes of a test aren't listed.
#[derive(Clone, Copy, PartialEq, Eq, Hash, Debug)]
pub enum Unlisted {
    /// The test or another argument is refused.
    Refused(Refusal),
    /// The test has more clean prefixes than the allowance.
    Spent,
}

impl fmt::Display for Unlisted {
    fn fmt(&self, f: &mut fmt::Formatter) -> fmt::Result {
        match self {
            Unlisted::Refused(refusal) => refusal.fmt(f),
            Unlisted::Spent => write!(f, "the test has more clean prefixes than the allowance"),
        }
    }
}

impl Error for Unlisted {}

impl From<Refusal> for Unlisted {
    fn from(refusal: Refusal) -> Unlisted {
        Unlisted::Refused(refusal)
    }
}

#[cfg(test)]
mod tests {
    use super::*;
    use crate::{outcome, Operation, Table};

    const ALLOWANCE: u64 = 1_000_000;

    /// So many harts add different powers of two to x, so often each.
    fn adds(harts: u8, times: u8) -> Vec<u8> {
        let mut table = Table::new(harts, 1);
        for hart in 0..harts {
            for time in 0..times {
                table.amo_with(hart, 0, 0, Operation::Add, 1 << (hart + harts * time));
            }
        }
        table.block().expect("the table is good").to_vec()
    }

    #[test]
    fn more_outcomes_than_one_call_lists_come_each_once_and_ascending() {
        for (test, count) in [(adds(2, 1), 2), (adds(3, 1), 6), (adds(4, 1), 24), (adds(4, 2), 2520)] {
            let all: Vec<Vec<u16>> = Outcomes::of(&test, ALLOWANCE).expect("the list is short").collect();
            assert_eq!(all.len(), count);
            assert!(all.windows(2).all(|pair| pair[0] < pair[1]));
            for (place, previous) in all.iter().enumerate().step_by(97) {
                let rest = Outcomes::resume(&test, previous, ALLOWANCE).expect("the list is short");
                assert!(rest.eq(all[place + 1..].iter().cloned()));
            }
        }
    }

    #[test]
    fn the_outcomes_are_those_that_single_calls_give() {
        let test = adds(2, 4);
        let (mut previous, mut out) = (Vec::new(), [0; VALUES]);
        let mut all = Outcomes::of(&test, ALLOWANCE).expect("the list is short");
        while let Listing::Listed { values, .. } =
            outcome(&test, &previous, &mut out, ALLOWANCE).expect("no line refuses")
        {
            previous = out[..values].to_vec();
            assert_eq!(all.next(), Some(previous.clone()));
            assert_eq!(all.previous(), previous);
        }
        assert_eq!(all.next(), None);
        assert_eq!(all.next(), None);
        assert_eq!(all.previous(), previous);
    }

    #[test]
    fn what_is_refused_or_spent_is_said_at_once() {
        let test = include_bytes!("../../samples/C1.block");
        let number = |test: &[u8], previous: &[u16], allowance: u64| match Outcomes::resume(test, previous, allowance) {
            Err(Unlisted::Refused(refusal)) => refusal.number,
            other => panic!("{other:?}"),
        };
        assert_eq!(number(&test[1..], &[1], u64::MAX), 1);
        assert_eq!(number(test, &[1], u64::MAX), 12);
        assert_eq!(number(test, &[1; 4], u64::MAX), 17);
        assert_eq!(Outcomes::resume(test, &[u16::MAX; 4], 63).unwrap_err(), Unlisted::Spent);
        assert!(Outcomes::resume(test, &[u16::MAX; 4], 64).is_ok_and(|mut none| none.next().is_none()));
    }
}
