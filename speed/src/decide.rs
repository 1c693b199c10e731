//! The decision in plain Rust: the least witness above a list of events, by the same states as the proved one.

use crate::facts::{highest, Facts};
use crate::reading::{read, read_two, refuse_if, Refusal};
use crate::table::{Mask, Table, EDITION_AT, EDITION_TWO, LOCATIONS};

#[derive(Clone, Copy, Debug, PartialEq)]
pub enum Decision {
    Found { len: usize },
    NoneLeft,
}

/// How many states are remembered, of those from which no order leads to the end.
const MEMO: usize = 4096;

/// The events that are placed, and the others that would read no wrong value at their locations now.
#[derive(Clone, Copy)]
struct State {
    placed: u32,
    good: u32,
}

impl State {
    /// The two masks; 0 stands for no state.
    fn word(self) -> u64 {
        u64::from(self.good) << u32::BITS | u64::from(self.placed)
    }

    /// Where it is remembered.
    fn slot(self) -> usize {
        let mixed = (u64::from(self.placed) * 0x9E37_79B1) ^ (u64::from(self.good) * 0x85EB_CA77);
        (mixed >> 29) as usize % MEMO
    }
}

fn lowest(mask: u32) -> usize {
    mask.trailing_zeros() as usize
}

/// The events of a mask, ascending.
fn each(mut mask: u32) -> impl Iterator<Item = usize> {
    std::iter::from_fn(move || {
        let e = (mask != 0).then(|| lowest(mask))?;
        mask &= mask - 1;
        Some(e)
    })
}

/// The events after one.
fn above(e: u8) -> u32 {
    u32::MAX.checked_shl(u32::from(e) + 1).unwrap_or(0)
}

/// What the tests of a state read.
struct Board<const N: usize> {
    facts: Facts<N>,
    /// For each event the memory events at its location.
    place: [u32; N],
    writers: u32,
}

impl<const N: usize> Board<N> {
    fn of<M: Mask + Into<u32>>(t: &Table<M, N>) -> Board<N> {
        let facts = Facts::of(t);
        let (mut at, mut writers) = ([0; LOCATIONS], 0);
        for e in each(facts.memory) {
            at[usize::from(t.events[e].location)] |= 1 << e;
            writers |= u32::from(t.events[e].writes()) << e;
        }
        let place = t.events.map(|x| at[usize::from(x.location)]);
        Board { facts, place, writers }
    }

    fn start(&self) -> State {
        State { placed: 0, good: self.facts.good }
    }

    fn step(&self, s: State, e: usize) -> State {
        let placed = s.placed | 1 << e;
        State { placed, good: self.facts.good_after(e, s.good) & !placed }
    }

    /// The state after a list of events.
    fn after(&self, list: &[u8]) -> State {
        list.iter().fold(self.start(), |s, &e| self.step(s, e.into()))
    }

    /// The memory events that aren't placed.
    fn left(&self, s: State) -> u32 {
        self.facts.memory & !s.placed
    }

    /// An event that isn't placed may be placed next.
    fn accepts(&self, s: State, e: usize) -> bool {
        let facts = &self.facts;
        facts.pred[e] & !s.placed == 0
            && !facts.misreads(e, s.placed, s.good)
            && (facts.ends >> e & 1 == 1 || facts.peers[e] & !s.placed != 0)
            && facts.may_place(e, s.placed)
    }

    fn accepted(&self, s: State) -> u32 {
        each(self.left(s)).filter(|&e| self.accepts(s, e)).fold(0, |mask, e| mask | 1 << e)
    }

    /// How many entries of a list may be placed one after the other.
    fn followed(&self, list: &[u8]) -> usize {
        let mut s = self.start();
        let is_next = |&&e: &&u8| {
            let may = u64::from(self.left(s)).checked_shr(e.into()).unwrap_or(0) & 1 == 1 && self.accepts(s, e.into());
            if may {
                s = self.step(s, e.into());
            }
            may
        };
        list.iter().take_while(is_next).count()
    }

    /// A stated value can't come about any more: a reader would read a wrong one now, and no writer to come has its value; or the
    /// writers to come of a location all have wrong final values.
    fn is_lost(&self, s: State) -> bool {
        let (facts, left) = (&self.facts, self.left(s));
        let to_come = each(left & self.writers).fold(0, |mask, w| mask | facts.right[w]);
        each(left & !to_come).any(|r| facts.misreads(r, s.placed, s.good))
            || each(left & !facts.ends).any(|w| facts.peers[w] & left & facts.ends == 0)
    }

    /// The events that open a window that a writer to come may meet.
    fn opening(&self, s: State) -> u32 {
        let left = self.left(s);
        let watched = each(left & self.writers).fold(0, |mask, w| mask | self.facts.guards[w]);
        each(left & watched).fold(0, |mask, v| mask | self.facts.window[v])
    }

    /// A persisting set with the event: for one of it that has to wait the highest that it waits for, for any other all that could
    /// disturb it.
    fn grown(&self, s: State, e: usize) -> u32 {
        let mut set = 1 << e;
        let mut new = set;
        while new != 0 {
            let e = lowest(new);
            new &= new - 1;
            let wanted = match self.facts.pred[e] & !s.placed {
                0 => (self.place[e] | self.lacking(s, e)) & !s.placed,
                missing if missing & set == 0 => 1 << highest(missing),
                _ => 0,
            };
            new |= wanted & !set;
            set |= wanted;
        }
        set
    }

    /// What has to be placed before the event returns from the write of its hart that it would return from.
    fn lacking(&self, s: State, e: usize) -> u32 {
        match self.facts.own[e] & !s.placed {
            0 => 0,
            missing => self.facts.needs[highest(missing)],
        }
    }

    /// The events that need be tried: a reader that opens no window, or those that may be placed next of the persisting set that
    /// has fewest of them.
    fn choice(&self, s: State) -> u32 {
        let accepted = self.accepted(s);
        let quiet = accepted & !self.writers & !self.opening(s);
        if quiet != 0 {
            return 1 << lowest(quiet);
        }
        let sets = each(accepted).map(|e| self.grown(s, e) & accepted);
        sets.min_by_key(|set| set.count_ones()).unwrap_or(0)
    }
}

/// A decision that is being made, and how many states it has looked at; above so many it gives up.
struct Decider<'a, const N: usize> {
    board: &'a Board<N>,
    memo: [u64; MEMO],
    states: u64,
    most: u64,
}

impl<const N: usize> Decider<'_, N> {
    /// Some order of the events that are left leads to the end.
    fn completes(&mut self, s: State) -> bool {
        self.states += 1;
        if self.board.left(s) == 0 {
            return true;
        }
        let (word, slot) = (s.word(), s.slot());
        let is_known = word != 0 && self.memo[slot] == word;
        if is_known || self.states > self.most || self.board.is_lost(s) {
            return false;
        }
        if each(self.board.choice(s)).any(|e| self.completes(self.board.step(s, e))) {
            return true;
        }
        self.memo[slot] = word;
        false
    }

    /// The lowest event of some that may be placed next and leads to the end.
    fn leading(&mut self, s: State, among: u32) -> Option<usize> {
        each(self.board.accepted(s) & among).find(|&e| self.completes(self.board.step(s, e)))
    }

    /// Writes the least witness above the start, if there is one: the longest front of the start that a greater event can follow,
    /// and then the lowest event that leads to the end, again and again.
    fn find(&mut self, start: &[u8], order: &mut [u8]) -> Option<()> {
        let deepest = self.board.followed(start).min(order.len() - 1);
        let (kept, e) = (0..=deepest).rev().find_map(|kept| {
            let among = start.get(kept).map_or(u32::MAX, |&e| above(e));
            Some((kept, self.leading(self.board.after(&start[..kept]), among)?))
        })?;
        order[..kept].copy_from_slice(&start[..kept]);
        order[kept] = e as u8;
        let mut s = self.board.after(&order[..=kept]);
        for place in &mut order[kept + 1..] {
            let e = self.leading(s, u32::MAX)?;
            *place = e as u8;
            s = self.board.step(s, e);
        }
        Some(())
    }
}

/// The decision on a table, and how many states were looked at.
fn decide_table<M: Mask + Into<u32>, const N: usize>(
    t: &Table<M, N>,
    start: &[u8],
    out: &mut [u8],
    most: u64,
) -> Result<(Decision, u64), Refusal> {
    let board = Board::of(t);
    let len = board.facts.memory.count_ones() as usize;
    refuse_if(out.len() < len, 16)?;
    let mut decider = Decider { board: &board, memo: [0; MEMO], states: 0, most };
    let mut order = [0; N];
    if board.facts.unmet || decider.find(start, &mut order[..len]).is_none() {
        return Ok((Decision::NoneLeft, decider.states));
    }
    out[..len].copy_from_slice(&order[..len]);
    Ok((Decision::Found { len }, decider.states))
}

fn decide_up_to(test: &[u8], start: &[u8], out: &mut [u8], most: u64) -> Result<(Decision, u64), Refusal> {
    match test.get(EDITION_AT) {
        Some(&EDITION_TWO) => decide_table(&read_two(test)?, start, out, most),
        _ => decide_table(&read(test)?, start, out, most),
    }
}

/// The decision on a test of either edition.
pub fn decide(test: &[u8], start: &[u8], out: &mut [u8]) -> Result<Decision, Refusal> {
    decide_up_to(test, start, out, u64::MAX).map(|(decision, _)| decision)
}

/// How many states the first decision on a good test looks at; one that looks at more than so many is given up.
pub fn states(test: &[u8], most: u64) -> u64 {
    decide_up_to(test, &[], &mut [0; crate::table::EVENTS_TWO], most).expect("the test is good").1
}

#[cfg(test)]
mod tests {
    use super::*;
    use crate::table::EVENTS_TWO;
    use oracle::candidates::LEND;
    use oracle::decision::{Decider as Other, Decision as Stated};
    use oracle::encode::{encode, encode_in};
    use oracle::generate::calls::small_table_in;
    use oracle::generate::decide_calls::make_decide_calls;
    use oracle::generate::orders::{bytes, permutation, permutations};
    use oracle::generate::prng::Prng;
    use oracle::layout::Edition;
    use oracle::rules::is_witness;
    use oracle::stream::Stream;
    use oracle::table::Model;

    const TABLES: usize = 3_000;
    const CALLS: usize = 6;
    const UNTOUCHED: u8 = 0xEE;

    /// The decision is the least of the witnesses above the start.
    fn check(test: &[u8], witnesses: &[Vec<u8>], start: &[u8]) {
        let (mut out, mut stated) = ([UNTOUCHED; EVENTS_TWO], [UNTOUCHED; EVENTS_TWO]);
        let answer = decide(test, start, &mut out);
        let least = witnesses.iter().find(|witness| witness.as_slice() > start);
        let expected = least.map_or(Decision::NoneLeft, |witness| {
            stated[..witness.len()].copy_from_slice(witness);
            Decision::Found { len: witness.len() }
        });
        assert_eq!((answer, out), (Ok(expected), stated));
    }

    #[test]
    fn decisions_are_those_of_the_independent_program() {
        let mut prng = Prng::new(1);
        for _ in 0..TABLES {
            let table = small_table_in(*prng.pick(&Model::ALL), &mut prng);
            let test = if prng.one_in(2) { encode(&table) } else { encode_in(Edition::Two, &table) };
            let orders = permutations(&table.memory_events());
            let lawful = orders.iter().filter(|order| is_witness(&table, order));
            let witnesses: Vec<Vec<u8>> = lawful.map(|order| bytes(order)).collect();
            check(&test, &witnesses, &[]);
            for witness in &witnesses {
                check(&test, &witnesses, witness);
            }
            for _ in 0..CALLS {
                let mut start = bytes(&permutation(&mut prng, &table));
                start.truncate(prng.below(start.len() + 1));
                if prng.one_in(3) {
                    start.push(prng.bits() as u8);
                }
                check(&test, &witnesses, &start);
            }
        }
    }

    #[test]
    fn the_stored_calls_are_answered_as_by_the_independent_program() {
        let calls = make_decide_calls();
        let (mut stream, mut other) = (Stream::new(&calls), Other::default());
        let mut test: &[u8] = &[];
        while !stream.is_empty() {
            if stream.byte().expect("the stream is whole") == LEND {
                test = stream.frame().expect("the stream is whole");
                continue;
            }
            let start = stream.list().expect("the stream is whole");
            let mut out = vec![UNTOUCHED; stream.byte().expect("the stream is whole").into()];
            let mut stated = out.clone();
            let expected = match other.decide(test, start, &mut stated) {
                Ok(Stated::Found(order)) => Ok(Decision::Found { len: order.len() }),
                Ok(Stated::NoneLeft) => Ok(Decision::NoneLeft),
                Err(r) => Err(Refusal { line: r.line as u8, record: r.record }),
            };
            assert_eq!((decide(test, start, &mut out), out), (expected, stated));
        }
    }
}
