//! The outcomes of a test: the values that its lawful orders give.

use crate::following::{value_at_end, value_returned};
use crate::layout::MOST_EVENTS;
use crate::rules::is_lawful;
use crate::search::{Answer, Engine, Prefixes, MAX_ALLOWANCE};
use crate::table::{read, refuse_if, Line, Refusal, Table};
use std::cell::RefCell;
use std::collections::BTreeSet;

/// "each reader's value in event order, then each location's final value". Lists compare as the
/// paper compares prefixes, so that the empty one is below every outcome.
pub type Outcome = Vec<u16>;

/// Which entry is called: for the next outcome, or for as many of the next ones as have room.
#[derive(Clone, Copy, PartialEq, Eq, Debug)]
pub enum Asked {
    One,
    Some,
}

/// No call gives more outcomes than this.
pub const MOST_OUTCOMES: usize = 64;

impl Asked {
    pub const ALL: [Asked; 2] = [Asked::One, Asked::Some];

    /// How many outcomes of so many values a call gives at most.
    fn most(self, places: usize, values: usize) -> usize {
        match self {
            Asked::One => 1,
            Asked::Some => MOST_OUTCOMES.min(places / values),
        }
    }
}

#[derive(Clone, PartialEq, Eq, Debug)]
pub enum Listing {
    Listed(Vec<Outcome>),
    NoneLeft,
    Spent,
}

/// What an order gives. "AMOs with an operation write as in T-08."
pub fn outcome_of(table: &Table, order: &[usize]) -> Outcome {
    let read = readers(table).map(|reader| value_returned(table, order, reader));
    let ends = (0..table.locations).map(|location| value_at_end(table, order, location));
    read.chain(ends).collect()
}

fn readers(table: &Table) -> impl Iterator<Item = usize> + '_ {
    (0..table.events.len()).filter(|&event| table.events[event].reads())
}

/// How many values an outcome has.
pub fn outcome_length(table: &Table) -> usize {
    readers(table).count() + table.locations
}

/// The outcomes that a call with some allowance may look at: "every outcome that some lawful order
/// gives", ascending, each once. There are none where "the first engine's list from the empty start
/// is longer" than the allowance.
pub struct Within {
    outcomes: Option<BTreeSet<Outcome>>,
    /// How many entries of that list were visited.
    pub prefixes: u64,
}

impl Within {
    /// Goes over that list: a search in which no order is a witness.
    pub fn of(table: &Table, allowance: u64) -> Within {
        let found = RefCell::new(BTreeSet::new());
        let take_note = |order: &[usize]| {
            if is_lawful(table, order) {
                found.borrow_mut().insert(outcome_of(table, order));
            }
            false
        };
        let prefixes = Prefixes::of(table, Engine::First);
        match prefixes.search(&take_note, &[], &mut [0; MOST_EVENTS], allowance) {
            Ok(Answer::NoneLeft { visited }) => {
                Within { outcomes: Some(found.into_inner()), prefixes: visited }
            }
            Ok(Answer::Spent { visited, .. }) => Within { outcomes: None, prefixes: visited },
            answer => panic!("no order is a witness, and no line refuses: {answer:?}"),
        }
    }

    pub fn all(&self) -> Option<&BTreeSet<Outcome>> {
        self.outcomes.as_ref()
    }

    /// The next outcomes, so many at most: "the least above" the previous one, "or says none are
    /// left".
    pub fn above(&self, previous: &[u16], most: usize) -> Listing {
        let Some(outcomes) = &self.outcomes else { return Listing::Spent };
        let above = outcomes.iter().filter(|outcome| outcome[..] > *previous);
        let next: Vec<Outcome> = above.take(most).cloned().collect();
        if next.is_empty() {
            return Listing::NoneLeft;
        }
        Listing::Listed(next)
    }
}

/// A call's arguments beside the test; the buffer is by its number of places.
#[derive(Clone, Copy, Debug)]
pub struct Arguments<'a> {
    pub asked: Asked,
    pub previous: &'a [u16],
    pub places: usize,
    pub allowance: u64,
}

/// "Refusals: 1 to 11, 21; then 12 for a previous outcome that is neither empty nor of the right
/// length, 16 for a buffer with too few places, 17": those behind the test's own.
pub fn refuse_arguments(table: &Table, arguments: Arguments) -> Result<(), Refusal> {
    let values = outcome_length(table);
    let Arguments { previous, places, allowance, .. } = arguments;
    refuse_if(!previous.is_empty() && previous.len() != values, Line::ListLength)?;
    refuse_if(places < values, Line::Buffer)?;
    refuse_if(allowance > MAX_ALLOWANCE, Line::Allowance)
}

/// The tests of one call after the other: what a call went over is kept for the next one, if that is
/// of the same test and has the same allowance.
#[derive(Default)]
pub struct Lister {
    last: Option<(Vec<u8>, u64, Within)>,
}

impl Lister {
    /// "only then spent, found or none left"
    pub fn list(&mut self, test: &[u8], arguments: Arguments) -> Result<Listing, Refusal> {
        let table = read(test)?;
        refuse_arguments(&table, arguments)?;
        let Arguments { asked, previous, places, allowance } = arguments;
        let most = asked.most(places, outcome_length(&table));
        Ok(self.within(test, &table, allowance).above(previous, most))
    }

    fn within(&mut self, test: &[u8], table: &Table, allowance: u64) -> &Within {
        let is_last = |last: &(Vec<u8>, u64, Within)| last.0 == test && last.1 == allowance;
        if !self.last.as_ref().is_some_and(is_last) {
            self.last = Some((test.to_vec(), allowance, Within::of(table, allowance)));
        }
        &self.last.as_ref().expect("it was just put there").2
    }
}

/// Writes what a call gives: outcomes one behind the other to the front of a buffer with room for
/// them; "spent, none left and refusals write nothing, places past an outcome stay".
pub fn write(listing: &Listing, buffer: &mut [u16]) {
    if let Listing::Listed(outcomes) = listing {
        for (place, value) in buffer.iter_mut().zip(outcomes.iter().flatten()) {
            *place = *value;
        }
    }
}

#[cfg(test)]
mod tests {
    use super::*;
    use crate::encode::encode;
    use crate::litmus::*;
    use crate::operation::Operation;
    use crate::table::Model;

    /// How many clean prefixes four unordered events have.
    const PREFIXES: u64 = 64;

    fn all(test: &Table) -> Vec<Outcome> {
        let within = Within::of(test, MAX_ALLOWANCE);
        within.all().expect("the list is short").iter().cloned().collect()
    }

    /// One call.
    fn list(
        test: &[u8],
        asked: Asked,
        previous: &[u16],
        buffer: &mut [u16],
        allowance: u64,
    ) -> Result<Listing, Refusal> {
        let arguments = Arguments { asked, previous, places: buffer.len(), allowance };
        let listing = Lister::default().list(test, arguments)?;
        write(&listing, buffer);
        Ok(listing)
    }

    fn next(test: &Table, previous: &[u16], allowance: u64) -> Listing {
        let mut buffer = vec![7; outcome_length(test)];
        let listing = list(&encode(test), Asked::One, previous, &mut buffer, allowance);
        listing.expect("no line refuses")
    }

    fn listed(outcome: &[u16]) -> Listing {
        Listing::Listed(vec![outcome.to_vec()])
    }

    #[test]
    fn message_passing_has_four_outcomes_and_three_with_fences() {
        assert_eq!(all(&c1()), [[0, 0, 1, 1], [0, 1, 1, 1], [1, 0, 1, 1], [1, 1, 1, 1]]);
        assert_eq!(all(&c2()), [[0, 0, 1, 1], [0, 1, 1, 1], [1, 1, 1, 1]]);
        let in_tso = c1().in_model(Model::Rvtso);
        assert_eq!(all(&in_tso), all(&c2()));
    }

    #[test]
    fn one_load_has_one_outcome() {
        assert_eq!(all(&c10()), [[0, 0]]);
        assert_eq!(next(&c10(), &[], 1), listed(&[0, 0]));
        assert_eq!(next(&c10(), &[0, 0], 1), Listing::NoneLeft);
        assert_eq!(next(&c10(), &[], 0), Listing::Spent);
    }

    #[test]
    fn a_previous_outcome_need_not_be_one() {
        assert_eq!(next(&c1(), &[0, 1, 7, 7], PREFIXES), listed(&[1, 0, 1, 1]));
        assert_eq!(next(&c1(), &[0, 1, 1, 0], PREFIXES), listed(&[0, 1, 1, 1]));
        assert_eq!(next(&c1(), &[1, 1, 1, 1], PREFIXES), Listing::NoneLeft);
        assert_eq!(next(&c1(), &[u16::MAX; 4], PREFIXES), Listing::NoneLeft);
    }

    #[test]
    fn spent_is_by_the_list_and_the_allowance_alone() {
        for previous in [&[][..], &[0, 0, 1, 1], &[u16::MAX; 4]] {
            assert_ne!(next(&c1(), previous, PREFIXES), Listing::Spent);
            assert_eq!(next(&c1(), previous, PREFIXES - 1), Listing::Spent);
        }
    }

    #[test]
    fn stated_values_are_not_looked_at() {
        assert_eq!(all(&c4(1)), all(&c4(0)));
        assert_eq!(all(&c7(1)), all(&c7(2)));
        assert_eq!(all(&counter()), all(&counter_lost()));
        assert_eq!(all(&counter()), [[0, 1, 2], [1, 0, 2]]);
    }

    #[test]
    fn amos_write_what_follows_from_the_order() {
        let add = |hart, operand| amo_with(hart, X, 0, Operation::Add, operand);
        let three = table(vec![add(0, 1), add(1, 2), add(2, 4)]);
        let outcomes =
            [[0, 1, 3, 7], [0, 5, 1, 7], [2, 0, 3, 7], [4, 5, 0, 7], [6, 0, 2, 7], [6, 4, 0, 7]];
        assert_eq!(all(&three), outcomes);
    }

    #[test]
    fn as_many_as_have_room_are_listed() {
        let (block, outcomes) = (encode(&c1()), all(&c1()));
        for (places, count) in [(4, 1), (7, 1), (8, 2), (15, 3), (16, 4), (100, 4)] {
            let mut buffer = vec![9; places];
            let listing = list(&block, Asked::Some, &[], &mut buffer, PREFIXES);
            assert_eq!(listing, Ok(Listing::Listed(outcomes[..count].to_vec())));
            assert_eq!(buffer[..4 * count], outcomes[..count].concat());
            assert!(buffer[4 * count..].iter().all(|&value| value == 9));
        }
    }

    #[test]
    fn the_lowest_line_refuses_a_call() {
        let too_much = MAX_ALLOWANCE + 1;
        for asked in Asked::ALL {
            let line = |previous: &[u16], places: usize, allowance: u64| {
                let mut buffer = vec![7; places];
                let answer = list(&encode(&c1()), asked, previous, &mut buffer, allowance);
                assert!(buffer.iter().all(|&value| value == 7));
                answer.unwrap_err().line
            };
            for length in [1, 2, 3, 5, 8] {
                assert_eq!(line(&vec![0; length], 0, too_much), Line::ListLength);
            }
            assert_eq!(line(&[0; 4], 3, too_much), Line::Buffer);
            assert_eq!(line(&[], 3, 0), Line::Buffer);
            assert_eq!(line(&[0; 4], 4, too_much), Line::Allowance);
        }
    }
}
