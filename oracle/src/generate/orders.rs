//! Orders of a table's memory events, and outcomes that orders have.

use super::prng::Prng;
use crate::rules::{determined_returns, is_lawful, last_value, steady_rules, value_of, Write};
use crate::table::{names_location, Kind, Table};

/// How many random orders are tried for a lawful one.
const TRIES: usize = 40;

/// A random order that no steady rule speaks against.
pub fn linear_extension(prng: &mut Prng, table: &Table) -> Vec<usize> {
    let is_before = |a, b| !steady_rules(table, a, b).is_empty();
    extension_of(prng, table, is_before).expect("steady rules follow program order")
}

/// A random order with one pair the wrong way round, if some pair is put in order by the
/// given steady rule alone, and the rest lets it be.
pub fn extension_against(prng: &mut Prng, table: &Table, rule: usize) -> Option<Vec<usize>> {
    let events = table.memory_events();
    let pairs = events.iter().flat_map(|&a| events.iter().map(move |&b| (a, b)));
    let ordered: Vec<_> = pairs.filter(|&(a, b)| steady_rules(table, a, b) == [rule]).collect();
    if ordered.is_empty() {
        return None;
    }
    let (first, second) = *prng.pick(&ordered);
    extension_of(prng, table, |a, b| {
        let is_pair = (a, b) == (first, second);
        (a, b) == (second, first) || !is_pair && !steady_rules(table, a, b).is_empty()
    })
}

/// A random order of the memory events that keeps to a relation, unless it has a cycle.
fn extension_of(
    prng: &mut Prng,
    table: &Table,
    is_before: impl Fn(usize, usize) -> bool,
) -> Option<Vec<usize>> {
    let mut left = table.memory_events();
    let mut order = Vec::new();
    while !left.is_empty() {
        let is_free = |&b: &usize| !left.iter().any(|&a| is_before(a, b));
        let free: Vec<usize> = left.iter().copied().filter(is_free).collect();
        if free.is_empty() {
            return None;
        }
        let next = *prng.pick(&free);
        left.retain(|&event| event != next);
        order.push(next);
    }
    Some(order)
}

/// A random order that is lawful, if one is met.
pub fn lawful_order(prng: &mut Prng, table: &Table) -> Option<Vec<usize>> {
    (0..TRIES).map(|_| linear_extension(prng, table)).find(|order| is_lawful(table, order))
}

/// A random order of all memory events.
pub fn permutation(prng: &mut Prng, table: &Table) -> Vec<usize> {
    let mut order = table.memory_events();
    for end in (1..order.len()).rev() {
        order.swap(end, prng.below(end + 1));
    }
    order
}

/// All orders of some events, ascending.
pub fn permutations(events: &[usize]) -> Vec<Vec<usize>> {
    if events.is_empty() {
        return vec![Vec::new()];
    }
    let mut all = Vec::new();
    for &first in events {
        let rest: Vec<usize> = events.iter().copied().filter(|&e| e != first).collect();
        let starting = permutations(&rest).into_iter().map(|order| [vec![first], order].concat());
        all.extend(starting);
    }
    all
}

/// Event numbers as the bytes that an entry is given.
pub fn bytes(events: &[usize]) -> Vec<u8> {
    events.iter().map(|&event| event as u8).collect()
}

/// Makes the table state the values that an order gives, one that no steady rule speaks
/// against. AMOs come first, for what they write may depend on what they read; by rule 1 each
/// returns from a write before it in the order. A load may return from one after it.
pub fn state_outcome(table: &mut Table, order: &[usize]) {
    let returns = determined_returns(table, order);
    let is_amo = |event: &usize| table.events[*event].kind == Kind::Amo;
    let (amos, others): (Vec<usize>, Vec<usize>) = order.iter().copied().partition(is_amo);
    for reader in [amos, others].concat() {
        if let Some(write) = returns[reader] {
            state_read(table, reader, write);
        }
    }
    for location in 0..table.locations {
        if names_location(table.stated, location) {
            table.finals[location] = last_value(table, order, location);
        }
    }
}

/// Makes a reader state the value of a write, and write what its operation makes of it.
fn state_read(table: &mut Table, reader: usize, write: Write) {
    let read = value_of(table, write, reader);
    let event = &mut table.events[reader];
    event.read = read;
    event.written = event.operation.applied(read, event.operand).unwrap_or(event.written);
}

#[cfg(test)]
mod tests {
    use super::*;
    use crate::encode::encode;
    use crate::generate::random::any_table;
    use crate::rules::is_witness;
    use crate::table::read;

    const TABLES: usize = 200;

    #[test]
    fn a_lawful_order_is_a_witness_of_the_outcome_that_it_gives() {
        let mut prng = Prng::new(1);
        for _ in 0..TABLES {
            let mut table = any_table(&mut prng);
            if let Some(order) = lawful_order(&mut prng, &table) {
                state_outcome(&mut table, &order);
                assert!(is_witness(&table, &order));
            }
            assert_eq!(read(&encode(&table)), Ok(table));
        }
    }
}
