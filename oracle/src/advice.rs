//! Advice on a test: which of its clear fences have to order everything for its outcome to be
//! forbidden.

use crate::layout::MOST_EVENTS;
use crate::rules::is_witness;
use crate::search::{Answer, Engine, Prefixes, MAX_ALLOWANCE};
use crate::table::{read, refuse_if, Event, Kind, Line, Refusal, Table, ALL_FLAGS};

/// "up to eight ordinary fences with all bits clear; more is refusal 22"
pub const MOST_EMPTY_FENCES: usize = 8;

/// A set of clear fences as its ascending list of event numbers.
pub type Fences = Vec<usize>;

#[derive(Clone, PartialEq, Eq, Debug)]
pub enum Advice {
    Advised(Fences),
    Undecided(Fences),
    NoHelp,
}

/// "an ordinary fence with all bits clear"
pub fn is_clear_fence(event: &Event) -> bool {
    event.kind == Kind::Fence && event.flags == 0
}

pub fn clear_fences(table: &Table) -> Fences {
    (0..table.events.len()).filter(|&e| is_clear_fence(&table.events[e])).collect()
}

/// "the empty set first, then by size, equal sizes by their ascending lists of event numbers,
/// compared as prefixes are", which is how lists compare.
pub fn sets_of(fences: &[usize]) -> Vec<Fences> {
    let mut sets = vec![Vec::new()];
    for &fence in fences {
        let with_it: Vec<Fences> = sets.iter().map(|set| [&set[..], &[fence]].concat()).collect();
        sets.extend(with_it);
    }
    sets.sort_by_key(|set| (set.len(), set.clone()));
    sets
}

/// "each set turned to all four bits"
pub fn filled(table: &Table, set: &[usize]) -> Table {
    let mut filled = table.clone();
    for &fence in set {
        filled.events[fence].flags = ALL_FLAGS;
    }
    filled
}

/// "searched afresh with the given allowance by the first engine"
fn searched(table: &Table, allowance: u64) -> Answer {
    let is_witness = |order: &[usize]| is_witness(table, order);
    let prefixes = Prefixes::of(table, Engine::First);
    let answer = prefixes.search(&is_witness, &[], &mut [0; MOST_EVENTS], allowance);
    answer.expect("the start is empty, the buffer long and the allowance good")
}

/// The sets that are tried, each with its answer: "the first set whose answer isn't found decides",
/// and is the last one here.
pub fn tried(table: &Table, allowance: u64) -> Vec<(Fences, Answer)> {
    let mut tried = Vec::new();
    for set in sets_of(&clear_fences(table)) {
        let answer = searched(&filled(table, &set), allowance);
        let decides = !matches!(answer, Answer::Found { .. });
        tried.push((set, answer));
        if decides {
            break;
        }
    }
    tried
}

/// "none left gives that set as advice, spent gives undecided with that set. If every set gives
/// found, the answer is fences don't help."
fn decided(tried: Vec<(Fences, Answer)>) -> Advice {
    match tried.into_iter().last() {
        Some((set, Answer::NoneLeft { .. })) => Advice::Advised(set),
        Some((set, Answer::Spent { .. })) => Advice::Undecided(set),
        Some((_, Answer::Found { .. })) => Advice::NoHelp,
        None => unreachable!("the empty set is tried"),
    }
}

/// "refusal 22, after the table's own checks and before 17"
pub fn advise(test: &[u8], allowance: u64) -> Result<Advice, Refusal> {
    let table = read(test)?;
    refuse_if(clear_fences(&table).len() > MOST_EMPTY_FENCES, Line::EmptyFences)?;
    refuse_if(allowance > MAX_ALLOWANCE, Line::Allowance)?;
    Ok(decided(tried(&table, allowance)))
}

/// "the set as the mask of its events"
pub fn mask_of(set: &[usize]) -> u32 {
    set.iter().fold(0, |mask, event| mask | 1 << event)
}

#[cfg(test)]
mod tests {
    use super::*;
    use crate::encode::encode;
    use crate::litmus::*;
    use crate::table::{Model, PR, SW};

    /// An allowance that no search here spends.
    const PLENTY: u64 = 1000;

    fn asked(test: &Table, allowance: u64) -> Result<Advice, Line> {
        advise(&encode(test), allowance).map_err(|refusal| refusal.line)
    }

    fn advised(set: &[usize]) -> Result<Advice, Line> {
        Ok(Advice::Advised(set.to_vec()))
    }

    /// C1 with a fence between each hart's accesses.
    fn message(first: Event, second: Event) -> Table {
        let mut test = c2();
        test.events[1] = first;
        test.events[4] = second;
        test
    }

    fn empty_message() -> Table {
        message(fence(0, 0), fence(1, 0))
    }

    #[test]
    fn sets_go_by_size_then_by_their_lists() {
        let sets: [&[usize]; 8] = [&[], &[1], &[4], &[6], &[1, 4], &[1, 6], &[4, 6], &[1, 4, 6]];
        assert_eq!(sets_of(&[1, 4, 6]), sets);
        let four = sets_of(&[0, 1, 2, 3]);
        let place = |set: &[usize]| four.iter().position(|other| other == set);
        // A mask's number would have it the other way round.
        assert!(place(&[0, 3]) < place(&[1, 2]));
        assert_eq!(sets_of(&[0, 1, 2, 3, 4, 5, 6, 7]).len(), 256);
    }

    #[test]
    fn message_passing_needs_both_fences_and_with_one_of_them_the_other() {
        assert_eq!(asked(&empty_message(), PLENTY), advised(&[1, 4]));
        assert_eq!(filled(&empty_message(), &[1, 4]), c2());
        assert_eq!(asked(&message(fence(0, FULL), fence(1, 0)), PLENTY), advised(&[4]));
        assert_eq!(asked(&message(fence(0, 0), fence(1, FULL)), PLENTY), advised(&[1]));
        assert_eq!(asked(&message(fence_tso(0), fence(1, 0)), PLENTY), advised(&[4]));
        assert_eq!(asked(&c2(), PLENTY), advised(&[]));
    }

    #[test]
    fn fences_with_some_bits_stay_as_they_are() {
        assert_eq!(asked(&message(fence(0, PR), fence(1, 0)), PLENTY), Ok(Advice::NoHelp));
        assert_eq!(asked(&message(fence(0, 0), fence(1, SW)), PLENTY), Ok(Advice::NoHelp));
    }

    #[test]
    fn what_order_alone_allows_no_fence_forbids() {
        assert_eq!(asked(&c1(), PLENTY), Ok(Advice::NoHelp));
        assert_eq!(asked(&c4(1), PLENTY), Ok(Advice::NoHelp));
        assert_eq!(asked(&c10(), PLENTY), Ok(Advice::NoHelp));
    }

    #[test]
    fn a_model_that_keeps_the_order_needs_no_fence() {
        assert_eq!(asked(&empty_message().in_model(Model::Rvtso), PLENTY), advised(&[]));
        let buffering = |model: Model| {
            let events = vec![store(0, X, 1), fence(0, 0), load(0, Y, 0)];
            let others = vec![store(1, Y, 1), fence(1, 0), load(1, X, 0)];
            table([events, others].concat()).in_model(model)
        };
        for model in Model::ALL {
            assert_eq!(asked(&buffering(model), PLENTY), advised(&[1, 4]));
        }
    }

    /// The four sets visit 27, 29, 18 and 18 prefixes.
    #[test]
    fn the_first_set_that_is_spent_is_undecided() {
        let undecided = |set: &[usize]| Ok(Advice::Undecided(set.to_vec()));
        assert_eq!(asked(&empty_message(), 0), undecided(&[]));
        assert_eq!(asked(&empty_message(), 26), undecided(&[]));
        assert_eq!(asked(&empty_message(), 27), undecided(&[1]));
        assert_eq!(asked(&empty_message(), 28), undecided(&[1]));
        assert_eq!(asked(&empty_message(), 29), advised(&[1, 4]));
    }

    #[test]
    fn line_22_stands_behind_the_tables_own_and_before_17() {
        let with_fences = |count: usize| {
            table([vec![store(0, X, 1)], vec![fence(0, 0); count], vec![fence_tso(0)]].concat())
        };
        let too_much = MAX_ALLOWANCE + 1;
        assert_eq!(asked(&with_fences(8), 1), Ok(Advice::NoHelp));
        assert_eq!(asked(&with_fences(8), too_much), Err(Line::Allowance));
        assert_eq!(asked(&with_fences(9), 1), Err(Line::EmptyFences));
        assert_eq!(asked(&with_fences(9), too_much), Err(Line::EmptyFences));
        let unused = Table { locations: 2, ..with_fences(9) };
        assert_eq!(asked(&unused, too_much), Err(Line::UnusedLocation));
    }

    #[test]
    fn a_mask_names_the_events_of_a_set() {
        assert_eq!(mask_of(&[]), 0);
        assert_eq!(mask_of(&[1, 4]), 18);
        assert_eq!(mask_of(&[29]), 1 << 29);
    }
}
