//! Both searches in plain Rust, by the same algorithm as the proved ones.

use crate::facts::{highest, Facts};
use crate::reading::{read, Refusal};
use crate::table::EVENTS;

#[derive(Clone, Copy, Debug, PartialEq)]
pub enum Answer {
    Found { len: usize, visited: u64 },
    NoneLeft { visited: u64 },
    Spent { len: usize, visited: u64 },
}

const NOT_LISTED: Refusal = Refusal { line: 15, record: None };

pub fn ready_of<const N: usize>(facts: &Facts<N>, rest: u32, placed: u32) -> u32 {
    let mut left = rest;
    let mut ready = 0;
    while left != 0 {
        let e = left.trailing_zeros() as usize;
        left &= left - 1;
        if facts.pred[e] & !placed == 0 {
            ready |= 1 << e;
        }
    }
    ready
}

impl<const N: usize> Facts<N> {
    /// With `good`, the readers that would read no wrong value at their locations now, the reader `e` reads a wrong one. An event
    /// that doesn't read does not.
    pub fn misreads(&self, e: usize, placed: u32, good: u32) -> bool {
        let missing = self.own[e] & !placed;
        let right = if missing == 0 { good } else { self.right[highest(missing)] };
        right >> e & 1 == 0
    }

    pub fn good_after(&self, e: usize, good: u32) -> u32 {
        good & !self.here[e] | self.right[e]
    }

    /// The event may be returned from, or may return, and write where it stands: rules 2, 3 and 12, and atomicity.
    pub fn may_place(&self, e: usize, placed: u32) -> bool {
        let missing = self.own[e] & !placed;
        if missing != 0 && self.needs[highest(missing)] & !placed != 0 {
            return false;
        }
        let mut left = self.guards[e] & !placed;
        while left != 0 {
            let v = left.trailing_zeros() as usize;
            left &= left - 1;
            if self.window[v] & placed != 0 && self.ground[v] & !placed == 0 {
                return false;
            }
        }
        true
    }
}

impl Facts {
    /// The last writer of each stated location leaves its final value. They are met soon from the end.
    fn has_finals(&self, order: &[u8]) -> bool {
        let mut left = self.stated;
        for &e in order.iter().rev() {
            if left == 0 {
                break;
            }
            if left >> e & 1 == 1 {
                if self.ends >> e & 1 == 0 {
                    return false;
                }
                left &= !(self.peers[usize::from(e)] | 1 << e);
            }
        }
        !self.unmet
    }

    /// A clean order of all memory events is a witness.
    fn is_witness(&self, order: &[u8]) -> bool {
        let (mut placed, mut good) = (0, self.good);
        self.has_finals(order)
            && order.iter().all(|&e| {
                let e = usize::from(e);
                let stands = !self.misreads(e, placed, good) && self.may_place(e, placed);
                good = self.good_after(e, good);
                placed |= 1 << e;
                stands
            })
    }
}

/// The path to the prefixes that are visited next: its events, those that may follow, those of them that weren't taken yet; and
/// for the second engine, for each length, the readers that would read no wrong value then.
struct Path<const PRUNED: bool> {
    order: [u8; EVENTS],
    keep: usize,
    placed: u32,
    can: u32,
    later: u32,
    goods: [u32; EVENTS + 1],
}

impl<const PRUNED: bool> Path<PRUNED> {
    fn empty(facts: &Facts) -> Path<PRUNED> {
        let can = ready_of(facts, facts.memory, 0);
        let mut goods = [0; EVENTS + 1];
        goods[0] = facts.good;
        Path { order: [0; EVENTS], keep: 0, placed: 0, can, later: can, goods }
    }

    /// Adds the event to the path; it stands in `order` already.
    fn enter(&mut self, facts: &Facts, e: usize) {
        if PRUNED {
            self.goods[self.keep + 1] = facts.good_after(e, self.goods[self.keep]);
        }
        self.keep += 1;
        self.placed |= 1 << e;
        self.can = self.can ^ 1 << e | ready_of(facts, facts.succ[e] & !self.placed, self.placed);
        self.later = self.can;
    }

    /// Takes the last event back, so that only higher ones follow.
    fn leave(&mut self, facts: &Facts) {
        self.keep -= 1;
        let e = usize::from(self.order[self.keep]);
        self.placed ^= 1 << e;
        self.can = self.can & !facts.succ[e] | 1 << e;
        self.later = self.can >> e >> 1 << e << 1;
    }

    /// The path with this event is spoiled, and isn't entered.
    fn spoils(&self, facts: &Facts, e: usize) -> bool {
        PRUNED && facts.misreads(e, self.placed, self.goods[self.keep])
    }

    /// The path to the extensions of a start; of a start that is spoiled or whole, to what is greater than it.
    fn load(facts: &Facts, start: &[u8]) -> Option<Path<PRUNED>> {
        let mut path = Path::empty(facts);
        for (i, &e) in start.iter().enumerate() {
            if e as usize >= EVENTS || path.can >> e & 1 == 0 {
                return None;
            }
            path.order[i] = e;
            let spoiled = path.spoils(facts, e.into());
            if spoiled && i + 1 < start.len() {
                return None;
            }
            if spoiled {
                path.later = path.can >> e >> 1 << e << 1;
            } else {
                path.enter(facts, e.into());
            }
        }
        Some(path)
    }
}

fn walk<const PRUNED: bool>(facts: &Facts, start: &[u8], out: &mut [u8], allowance: u64) -> Option<Answer> {
    let total = facts.memory.count_ones() as usize;
    let mut path: Path<PRUNED> = Path::load(facts, start)?;
    let mut len = start.len();
    let mut visited = 0;
    loop {
        if path.later == 0 {
            if path.keep == 0 {
                return Some(Answer::NoneLeft { visited });
            }
            path.leave(facts);
            continue;
        }
        if visited == allowance {
            out[..len].copy_from_slice(&path.order[..len]);
            return Some(Answer::Spent { len, visited });
        }
        let e = path.later.trailing_zeros() as usize;
        path.later &= path.later - 1;
        path.order[path.keep] = e as u8;
        len = path.keep + 1;
        visited += 1;
        if path.spoils(facts, e) {
            continue;
        }
        if len < total {
            path.enter(facts, e);
        } else if facts.is_witness(&path.order[..total]) {
            out[..total].copy_from_slice(&path.order[..total]);
            return Some(Answer::Found { len, visited });
        }
    }
}

/// Calls `each` with every clean order of all memory events, ascending. False if there are more clean prefixes than may be visited.
pub fn each_order(facts: &Facts, allowance: u64, mut each: impl FnMut(&[u8])) -> bool {
    let total = facts.memory.count_ones() as usize;
    let mut path: Path<false> = Path::empty(facts);
    let mut visited = 0;
    loop {
        if path.later == 0 {
            if path.keep == 0 {
                return true;
            }
            path.leave(facts);
            continue;
        }
        if visited == allowance {
            return false;
        }
        let e = path.later.trailing_zeros() as usize;
        path.later &= path.later - 1;
        path.order[path.keep] = e as u8;
        visited += 1;
        if path.keep + 1 < total {
            path.enter(facts, e);
        } else {
            each(&path.order[..total]);
        }
    }
}

fn call<const PRUNED: bool>(block: &[u8], start: &[u8], out: &mut [u8], allowance: u64) -> Result<Answer, Refusal> {
    let facts = Facts::of(&read(block)?);
    walk::<PRUNED>(&facts, start, out, allowance).ok_or(NOT_LISTED)
}

/// The first engine from the empty start, by facts that are there already.
pub fn search_facts(facts: &Facts, out: &mut [u8], allowance: u64) -> Answer {
    walk::<false>(facts, &[], out, allowance).expect("the empty start is good")
}

/// The first engine's call on a block, whose buffer and allowance are taken for good.
pub fn search(block: &[u8], start: &[u8], out: &mut [u8], allowance: u64) -> Result<Answer, Refusal> {
    call::<false>(block, start, out, allowance)
}

/// The second engine's.
pub fn search_pruned(block: &[u8], start: &[u8], out: &mut [u8], allowance: u64) -> Result<Answer, Refusal> {
    call::<true>(block, start, out, allowance)
}

#[cfg(test)]
mod tests {
    use super::*;
    use oracle::encode::encode;
    use oracle::generate::orders::{bytes, lawful_order, linear_extension, state_outcome};
    use oracle::generate::prng::Prng;
    use oracle::generate::random::random_table;
    use oracle::search::{Answer as Other, Engine, MAX_ALLOWANCE};
    use oracle::table::{Model, Table};

    const TABLES: usize = 20_000;
    const FEW_EVENTS: usize = 7;
    const CALLS: usize = 6;

    fn small_table(prng: &mut Prng) -> Table {
        let (harts, locations) = (1 + prng.below(4), 1 + prng.below(3));
        let events = 1 + prng.below(FEW_EVENTS);
        let mut table = random_table(prng, harts, locations, events).in_model(*prng.pick(&Model::ALL));
        if !prng.one_in(3) {
            if let Some(order) = lawful_order(prng, &table) {
                state_outcome(&mut table, &order);
            }
        }
        table
    }

    fn same(answer: Other) -> Answer {
        match answer {
            Other::Found { visited, order } => Answer::Found { len: order.len(), visited },
            Other::NoneLeft { visited } => Answer::NoneLeft { visited },
            Other::Spent { visited, prefix } => Answer::Spent { len: prefix.len(), visited },
        }
    }

    #[test]
    fn both_searches_answer_as_the_independent_program() {
        let mut prng = Prng::new(1);
        for _ in 0..TABLES {
            let table = small_table(&mut prng);
            let block = encode(&table);
            for _ in 0..CALLS {
                let mut start = bytes(&linear_extension(&mut prng, &table));
                start.truncate(prng.below(start.len() + 1));
                let allowance = *prng.pick(&[0, 1, 5, 20, MAX_ALLOWANCE, MAX_ALLOWANCE]);
                for (engine, ours) in [(Engine::First, search as crate::Search), (Engine::Second, search_pruned)] {
                    let (mut out, mut other) = ([0xEE; EVENTS], [0xEE; EVENTS]);
                    let stated = engine.search(&block, &start, &mut other, allowance);
                    let stated = stated.map(same).map_err(|r| Refusal { line: r.line as u8, record: r.record });
                    assert_eq!(ours(&block, &start, &mut out, allowance), stated);
                    assert_eq!(out, other);
                }
            }
        }
    }
}
