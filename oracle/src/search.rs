//! The search by either engine: its list of prefixes greater than a start, and the first witness in it.

use crate::rules::{is_witness, steady_rules};
use crate::settled::is_spoiled;
use crate::table::{read, refuse_if, Line, Refusal, Table};
use std::ops::ControlFlow;

/// 17: "allowance above 1,000,000,000"
pub const MAX_ALLOWANCE: u64 = 1_000_000_000;

/// "The number visited is part of the answer: the witness's place counted from 1, the list's
/// length, or B."
#[derive(Clone, PartialEq, Eq, Debug)]
pub enum Answer {
    Found { visited: u64, order: Vec<usize> },
    NoneLeft { visited: u64 },
    Spent { visited: u64, prefix: Vec<usize> },
}

/// "The first engine follows an order after a load has read the wrong value. Build a second
/// beside it."
#[derive(Clone, Copy, PartialEq, Eq, Debug)]
pub enum Engine {
    /// It visits every clean prefix.
    First,
    /// It "visits only those clean prefixes none of whose proper prefixes is spoiled".
    Second,
}

impl Engine {
    pub const ALL: [Engine; 2] = [Engine::First, Engine::Second];

    /// The search of a test given as its bytes.
    pub fn search(
        self,
        block: &[u8],
        start: &[u8],
        buffer: &mut [u8],
        allowance: u64,
    ) -> Result<Answer, Refusal> {
        let table = read(block)?;
        let is_witness = |order: &[usize]| is_witness(&table, order);
        Prefixes::of(&table, self).search(&is_witness, start, buffer, allowance)
    }
}

/// What decides which prefixes of a table an engine lists: the memory events, each with its
/// steady predecessors, and whether spoiled prefixes are extended.
pub struct Prefixes<'a> {
    table: &'a Table,
    engine: Engine,
    events: Vec<(usize, Vec<usize>)>,
}

impl Prefixes<'_> {
    pub fn of(table: &Table, engine: Engine) -> Prefixes<'_> {
        let events = table.memory_events();
        let is_before = |a: usize, b: usize| !steady_rules(table, a, b).is_empty();
        let before = |b: usize| events.iter().copied().filter(|&a| is_before(a, b)).collect();
        Prefixes { table, engine, events: events.iter().map(|&b| (b, before(b))).collect() }
    }

    /// The search for an order that is a witness. "Found writes the order; spent writes the last
    /// prefix visited; bytes past it stay; none left writes nothing."
    pub fn search(
        &self,
        is_witness: &dyn Fn(&[usize]) -> bool,
        start: &[u8],
        buffer: &mut [u8],
        allowance: u64,
    ) -> Result<Answer, Refusal> {
        let start: Vec<usize> = start.iter().map(|&event| event.into()).collect();
        refuse_if(!self.is_listed(&start), Line::Start)?;
        refuse_if(buffer.len() < self.events.len(), Line::Buffer)?;
        refuse_if(allowance > MAX_ALLOWANCE, Line::Allowance)?;
        let last = start.clone();
        let search = Search { is_witness, start: &start, allowance, visited: 0, last };
        let answer = search.run(self);
        if let Answer::Found { order: list, .. } | Answer::Spent { prefix: list, .. } = &answer {
            for (byte, &event) in buffer.iter_mut().zip(list) {
                *byte = event as u8;
            }
        }
        Ok(answer)
    }

    /// "refusal 15 read[s] over that list"; the empty start is always good.
    fn is_listed(&self, list: &[usize]) -> bool {
        let mut proper_prefixes = (0..list.len()).map(|length| &list[..length]);
        self.is_clean(list) && proper_prefixes.all(|prefix| self.is_extended(prefix))
    }

    /// Whether the engine lists extensions of a clean prefix that it lists itself.
    fn is_extended(&self, prefix: &[usize]) -> bool {
        match self.engine {
            Engine::First => true,
            Engine::Second => !is_spoiled(self.table, prefix),
        }
    }

    /// "A prefix is a list of different memory events. It is clean if no listed event has a
    /// steady predecessor missing or standing after it." So each event may follow those
    /// before it; the empty list is clean too.
    fn is_clean(&self, list: &[usize]) -> bool {
        list.iter().enumerate().all(|(place, &next)| {
            let entry = self.events.iter().find(|(event, _)| *event == next);
            entry.is_some_and(|(_, predecessors)| may_follow(&list[..place], next, predecessors))
        })
    }

    /// Visits the listed extensions of a listed prefix, ascending. "To go deeper, the
    /// lowest-numbered event that may come next is taken first."
    fn descend(&self, prefix: &mut Vec<usize>, search: &mut Search) -> ControlFlow<Answer> {
        if !self.is_extended(prefix) {
            return ControlFlow::Continue(());
        }
        for (event, predecessors) in &self.events {
            if may_follow(prefix, *event, predecessors) {
                prefix.push(*event);
                search.meet(prefix, self.events.len())?;
                if !search.is_past(prefix) {
                    self.descend(prefix, search)?;
                }
                prefix.pop();
            }
        }
        ControlFlow::Continue(())
    }
}

/// Whether an event is new to a prefix that has all its predecessors.
fn may_follow(prefix: &[usize], event: usize, predecessors: &[usize]) -> bool {
    !prefix.contains(&event) && predecessors.iter().all(|before| prefix.contains(before))
}

/// "From a start, the definition lists all nonempty clean prefixes greater than it,
/// ascending": for the second engine, those of its list.
struct Search<'a> {
    is_witness: &'a dyn Fn(&[usize]) -> bool,
    start: &'a [usize],
    allowance: u64,
    visited: u64,
    /// "the last prefix visited (the start, if B is 0)"
    last: Vec<usize>,
}

impl Search<'_> {
    /// "none left, if the list has at most B entries and no witness"
    fn run(mut self, prefixes: &Prefixes) -> Answer {
        match prefixes.descend(&mut Vec::new(), &mut self) {
            ControlFlow::Break(answer) => answer,
            ControlFlow::Continue(()) => Answer::NoneLeft { visited: self.visited },
        }
    }

    /// Whether all extensions of a prefix are smaller than the start too: the prefix is, and
    /// the start doesn't extend it.
    fn is_past(&self, prefix: &[usize]) -> bool {
        prefix < self.start && !self.start.starts_with(prefix)
    }

    /// Counts a prefix of the engine's list if it is greater than the start. "Prefixes are compared entry by entry, and
    /// a prefix comes before its extensions", which is how slices compare.
    fn meet(&mut self, prefix: &[usize], memory_events: usize) -> ControlFlow<Answer> {
        if prefix <= self.start {
            return ControlFlow::Continue(());
        }
        if self.visited == self.allowance {
            // One entry more than the allowance, and no witness so far.
            let prefix = self.last.clone();
            return ControlFlow::Break(Answer::Spent { visited: self.visited, prefix });
        }
        self.visited += 1;
        self.last = prefix.to_vec();
        if prefix.len() == memory_events && (self.is_witness)(prefix) {
            let order = prefix.to_vec();
            return ControlFlow::Break(Answer::Found { visited: self.visited, order });
        }
        ControlFlow::Continue(())
    }
}

#[cfg(test)]
mod tests {
    use super::*;
    use crate::encode::encode;
    use crate::layout::MOST_EVENTS;
    use crate::litmus::*;
    use crate::table::{RELEASE_RCPC, RELEASE_RCSC};

    fn run(test: &Table, start: &[u8], allowance: u64) -> Answer {
        let mut buffer = [0; MOST_EVENTS];
        Engine::First.search(&encode(test), start, &mut buffer, allowance).expect("no line refuses")
    }

    fn found(visited: u64, order: &[usize]) -> Answer {
        Answer::Found { visited, order: order.to_vec() }
    }

    fn none_left(visited: u64) -> Answer {
        Answer::NoneLeft { visited }
    }

    fn spent(visited: u64, prefix: &[usize]) -> Answer {
        Answer::Spent { visited, prefix: prefix.to_vec() }
    }

    /// All witnesses, as a walk to its end hands them out.
    fn witnesses(test: &Table) -> Vec<Vec<usize>> {
        let mut all = Vec::new();
        let mut start = Vec::new();
        while let Answer::Found { order, .. } = run(test, &start, MAX_ALLOWANCE) {
            start = order.iter().map(|&event| event as u8).collect();
            all.push(order);
        }
        all
    }

    #[test]
    fn c1_message_passing() {
        let orders =
            [[1, 2, 3, 0], [1, 3, 0, 2], [1, 3, 2, 0], [3, 0, 1, 2], [3, 1, 0, 2], [3, 1, 2, 0]];
        assert_eq!(witnesses(&c1()), orders);
        assert_eq!(run(&c1(), &[], MAX_ALLOWANCE), found(27, &[1, 2, 3, 0]));
        assert_eq!(run(&c1(), &[3, 1, 2, 0], MAX_ALLOWANCE), none_left(5));
    }

    #[test]
    fn c2_message_passing_with_fences() {
        assert_eq!(run(&c2(), &[], MAX_ALLOWANCE), none_left(18));
    }

    #[test]
    fn c3_store_buffering() {
        assert_eq!(run(&c3(), &[], MAX_ALLOWANCE), found(27, &[1, 2, 3, 0]));
    }

    #[test]
    fn c4_own_store() {
        assert_eq!(witnesses(&c4(1)), [[0, 1], [1, 0]]);
        assert_eq!(run(&c4(0), &[], MAX_ALLOWANCE), none_left(4));
    }

    #[test]
    fn c5_load_after_amo() {
        assert_eq!(witnesses(&c5()), [[0, 1]]);
    }

    #[test]
    fn c6_coherence_of_two_loads() {
        assert_eq!(run(&c6(), &[], MAX_ALLOWANCE), none_left(15));
    }

    #[test]
    fn c7_foreign_store_and_a_pair() {
        assert_eq!(run(&c7(1), &[], MAX_ALLOWANCE), none_left(8));
        assert_eq!(run(&c7(2), &[], MAX_ALLOWANCE), found(3, &[0, 1, 2]));
    }

    #[test]
    fn c8_own_store_and_a_pair() {
        assert_eq!(witnesses(&c8()), [[0, 1, 2]]);
    }

    #[test]
    fn c9_dependent_load() {
        assert_eq!(witnesses(&c9_control()), [[4, 0, 2, 3]]);
        assert_eq!(run(&c9_address(), &[], MAX_ALLOWANCE), none_left(18));
    }

    #[test]
    fn c10_one_load() {
        assert_eq!(run(&c10(), &[], MAX_ALLOWANCE), found(1, &[0]));
        assert_eq!(witnesses(&c10()), [[0]]);
    }

    #[test]
    fn an_amo_with_release_rcpc_alone() {
        assert_eq!(run(&amo_passes(RELEASE_RCPC), &[], MAX_ALLOWANCE), none_left(18));
        assert_eq!(run(&amo_passes(0), &[], MAX_ALLOWANCE), found(18, &[1, 2, 3, 0]));
        assert_eq!(run(&amo_passes(0), &[1, 2, 3, 0], MAX_ALLOWANCE), none_left(16));
    }

    #[test]
    fn amos_with_release_rcsc_alone() {
        assert_eq!(run(&amo_stores(RELEASE_RCSC), &[], MAX_ALLOWANCE), none_left(18));
        assert_eq!(run(&amo_stores(0), &[], MAX_ALLOWANCE), found(27, &[1, 2, 3, 0]));
        assert_eq!(witnesses(&amo_stores(0)).len(), 6);
        assert_eq!(run(&amo_stores(0), &[3, 1, 2, 0], MAX_ALLOWANCE), none_left(5));
    }

    /// The prefixes are 0, 01, 1, 10. In 01 event 1 reads what event 0 wrote, in 10 it is the
    /// other way round.
    #[test]
    fn a_counter_loses_no_update() {
        assert_eq!(witnesses(&counter()), [[0, 1]]);
        assert_eq!(run(&counter(), &[], MAX_ALLOWANCE), found(2, &[0, 1]));
        assert_eq!(run(&counter(), &[0, 1], MAX_ALLOWANCE), none_left(2));
        assert_eq!(run(&counter_lost(), &[], MAX_ALLOWANCE), none_left(4));
    }

    #[test]
    fn the_papers_edges() {
        assert_eq!(run(&c1(), &[], 26), spent(26, &[1, 2, 3]));
        assert_eq!(run(&c1(), &[], 0), spent(0, &[]));
        assert_eq!(run(&c1(), &[3, 2, 1, 0], 0), none_left(0));
    }

    #[test]
    fn a_list_of_just_the_allowance_is_none_left() {
        assert_eq!(run(&c2(), &[], 18), none_left(18));
        assert!(matches!(run(&c2(), &[], 17), Answer::Spent { visited: 17, .. }));
    }

    #[test]
    fn independent_accesses_have_e_times_factorial_prefixes() {
        let loads = table((0..6).map(|_| load(0, X, 1)).collect());
        let prefixes = (std::f64::consts::E * 720.0).floor() as u64 - 1;
        assert_eq!(run(&loads, &[], MAX_ALLOWANCE), none_left(prefixes));
    }

    #[test]
    fn the_lowest_line_refuses_a_search() {
        let refusal = |start: &[u8], length: usize, allowance: u64| {
            let mut buffer = [7; MOST_EVENTS];
            let answer =
                Engine::First.search(&encode(&c2()), start, &mut buffer[..length], allowance);
            assert_eq!(buffer, [7; MOST_EVENTS]);
            answer.unwrap_err().line
        };
        let too_much = MAX_ALLOWANCE + 1;
        for unclean in [&[1][..], &[6], &[255], &[0, 0], &[2], &[2, 0], &[0, 2, 3, 5, 5]] {
            assert_eq!(refusal(unclean, 0, too_much), Line::Start);
        }
        assert_eq!(refusal(&[0, 2], 3, too_much), Line::Buffer);
        assert_eq!(refusal(&[0, 2], 4, too_much), Line::Allowance);
    }

    #[test]
    fn found_and_spent_write_and_bytes_past_it_stay() {
        let block = encode(&c1());
        let mut buffer = [7; 5];
        Engine::First.search(&block, &[], &mut buffer, 26).expect("no line refuses");
        assert_eq!(buffer, [1, 2, 3, 7, 7]);
        Engine::First.search(&block, &[], &mut buffer, 27).expect("no line refuses");
        assert_eq!(buffer, [1, 2, 3, 0, 7]);
        let mut untouched = [7; 5];
        Engine::First.search(&block, &[3, 1, 2, 0], &mut untouched, 27).expect("no line refuses");
        assert_eq!(untouched, [7; 5]);
    }
}
