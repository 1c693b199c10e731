//! Tables whose outcome one rule decides, or the place where atomicity begins, and twins in which
//! it doesn't; each with the order on which it turns.

use super::cases::Case;
use crate::litmus::*;
use crate::rules::Axiom;
use crate::table::{Event, Table};

/// A table, and an order that gives all its values, with the one axiom that the order breaks. If it
/// breaks none, it is a witness; if it breaks one, the table has no witness.
pub struct Decided {
    pub name: &'static str,
    pub table: Table,
    pub order: Vec<usize>,
    pub broken: Option<Axiom>,
}

/// The pair that one rule alone puts in order.
fn by_rule(rule: usize, a: usize, b: usize) -> Option<Axiom> {
    Some(Axiom::PreservedOrder { a, b, rules: vec![rule] })
}

pub fn decided() -> Vec<Decided> {
    let families =
        [by_location(), by_forwarding(), by_later_writes(), by_the_write_returned_from()];
    families.into_iter().flatten().collect()
}

/// Hart 0 has the events given, then a load of a further location that reads 0 and waits for event b.
/// Hart 1 stores to that one, then 2 to x, which event 0 reads: so b stands before event 0, if nothing
/// is against it.
fn read_early(name: &'static str, events: Vec<Event>, b: usize, broken: Option<Axiom>) -> Decided {
    let (last, further) = (events.len(), table(events.clone()).locations);
    let (first_store, second_store) = (last + 1, last + 3);
    let others = (0..last).filter(|&event| event != b).collect();
    let order = [vec![b, last, first_store, second_store], others].concat();
    let waiting = load(0, further, 0).address_from(b);
    let foreign = vec![store(1, further, 1), fence(1, FULL), store(1, X, 2)];
    Decided { name, table: table([events, vec![waiting], foreign].concat()), order, broken }
}

/// Rules 2 and 3.
fn by_location() -> Vec<Decided> {
    let loads = vec![load(0, X, 2), load(0, X, 0)];
    let elsewhere = vec![load(0, X, 2), load(0, Y, 0)];
    let store_between = vec![load(0, X, 2), store(0, X, 3), load(0, X, 3)];
    let pair_between = vec![lr(0, X, 2), sc(0, X, 3), load(0, X, 3)];
    vec![
        read_early("decided-by-rule-2", loads, 1, by_rule(2, 0, 1)),
        read_early("decided-not-by-rule-2-elsewhere", elsewhere, 1, None),
        read_early("decided-not-by-rules-2-and-3", store_between, 2, None),
        read_early("decided-by-rule-3", pair_between, 2, by_rule(3, 1, 2)),
    ]
}

/// Rule 12: a store between, which depends on the first event and is read back. An AMO or an SC in
/// its place would be put before its reader by rule 3.
fn by_forwarding() -> Vec<Decided> {
    let copied = |first: Event, m: Event| vec![first, m, load(0, Y, 1)];
    let (load_x, store_y) = (load(0, X, 2), store(0, Y, 1));
    let data = store_y.clone().data_from(0);
    let address = store_y.clone().address_from(0);
    let to_lr = vec![load_x.clone(), data.clone(), lr(0, Y, 1)];
    let after_sc = |m: Event| vec![lr(0, X, 2), sc(0, X, 3), m, load(0, Y, 1)];
    let rule_12 = || by_rule(12, 0, 2);
    vec![
        read_early("decided-by-rule-12-data", copied(load_x.clone(), data.clone()), 2, rule_12()),
        read_early("decided-by-rule-12-address", copied(load_x.clone(), address), 2, rule_12()),
        read_early("decided-by-rule-12-amo", copied(amo(0, X, 2, 3), data.clone()), 2, rule_12()),
        read_early("decided-by-rule-12-lr", copied(lr(0, X, 2), data), 2, rule_12()),
        read_early("decided-by-rule-12-to-lr", to_lr, 2, rule_12()),
        read_early("decided-not-by-rule-12", copied(load_x, store_y.clone()), 2, None),
        read_early(
            "decided-by-rule-12-sc",
            after_sc(store_y.clone().data_from(1)),
            3,
            by_rule(12, 1, 3),
        ),
        read_early("decided-not-by-rule-12-sc", after_sc(store_y), 3, None),
    ]
}

/// Hart 0 reads 1 from x, then has m, then b stores 1 to z, which hart 1 copies to x: so b stands
/// before event 0, if nothing is against it.
fn written_early(name: &'static str, m: Event, b: Event, broken: Option<Axiom>) -> Decided {
    let copied = [load(1, Z, 1), store(1, X, 1).data_from(3)];
    let table = table([&[load(0, X, 1), m, b], copied.as_slice()].concat());
    Decided { name, table, order: vec![2, 3, 4, 0, 1], broken }
}

/// Rule 13.
fn by_later_writes() -> Vec<Decided> {
    let (load_y, store_y, store_z) = (load(0, Y, 0), store(0, Y, 1), store(0, Z, 1));
    let dependent = |m: &Event| m.clone().address_from(0);
    let rule_13 = || by_rule(13, 0, 2);
    let swap_z = amo(0, Z, 0, 1);
    vec![
        written_early("decided-by-rule-13-load", dependent(&load_y), store_z.clone(), rule_13()),
        written_early("decided-by-rule-13-lr", dependent(&lr(0, Y, 0)), store_z.clone(), rule_13()),
        written_early("decided-by-rule-13-store", dependent(&store_y), store_z.clone(), rule_13()),
        written_early("decided-by-rule-13-amo", dependent(&load_y), swap_z, rule_13()),
        written_early("decided-not-by-rule-13-data", store_y.data_from(0), store_z.clone(), None),
        written_early("decided-not-by-rule-13", load_y, store_z, None),
    ]
}

/// An LR before a write of hart 1, which is an event of each writing kind and stands before the
/// SC. Without a store of the LR's own hart that breaks atomicity; with one, which the LR returns
/// from, the write stands before it.
fn by_the_write_returned_from() -> Vec<Decided> {
    let writers = [vec![store(1, X, 2)], vec![amo(1, X, 0, 2)], vec![lr(1, X, 0), sc(1, X, 2)]];
    let mut all = Vec::new();
    for foreign in writers {
        all.push(reserved_early("decided-by-atomicity", 0, foreign.clone()));
        all.push(reserved_early("decided-by-the-write-returned-from", 1, foreign));
    }
    all
}

/// LR and SC of x behind as many stores of their hart as given, and a load of y that reads 0 and
/// waits for the LR. Hart 1 stores to y, then has the writer to x. The last value is the SC's.
fn reserved_early(name: &'static str, stores: usize, foreign: Vec<Event>) -> Decided {
    let (lr_at, sc_at, load_at) = (stores, stores + 1, stores + 2);
    let (y, writer) = (load_at + 1, load_at + 2 + foreign.len());
    let read = if stores == 0 { 0 } else { 3 };
    let pair = vec![lr(0, X, read), sc(0, X, 1), load(0, Y, 0).address_from(lr_at)];
    let own = vec![store(0, X, 3); stores];
    let before = vec![store(1, Y, 1), fence(1, FULL)];
    let order =
        [vec![lr_at, load_at, y], (y + 2..=writer).collect(), (0..stores).collect(), vec![sc_at]];
    let broken = (stores == 0).then_some(Axiom::Atomicity { lr: lr_at, writer });
    let table = table([own, pair, before, foreign].concat()).with_final(X, 1);
    Decided { name, table, order: order.concat(), broken }
}

/// The tables alone.
pub fn decided_cases() -> Vec<Case> {
    decided().into_iter().map(|case| (case.name, case.table)).collect()
}

#[cfg(test)]
mod tests {
    use super::*;
    use crate::encode::encode;
    use crate::generate::orders::permutations;
    use crate::rules::{determined_returns, first_broken, is_witness, last_value, value_of};
    use crate::table::{names_location, read};

    /// Each reader returns its stated value, and each stated final value is left.
    fn gives_all_values(table: &Table, order: &[usize]) -> bool {
        let returns = determined_returns(table, order);
        let mut readers = returns.iter().enumerate().filter_map(|(r, write)| Some((r, (*write)?)));
        let mut stated = (0..table.locations).filter(|&l| names_location(table.stated, l));
        readers.all(|(r, write)| value_of(table, write, r) == table.events[r].read)
            && stated.all(|l| last_value(table, order, l) == table.finals[l])
    }

    #[test]
    fn each_order_breaks_what_is_stated_and_no_order_is_a_witness_then() {
        for Decided { name, table, order, broken } in decided() {
            assert_eq!(read(&encode(&table)).as_ref(), Ok(&table), "{name}");
            assert!(gives_all_values(&table, &order), "{name}");
            let returns = determined_returns(&table, &order);
            assert_eq!(first_broken(&table, &order, &returns), broken, "{name}");
            let orders = permutations(&table.memory_events());
            assert_eq!(orders.iter().any(|order| is_witness(&table, order)), broken.is_none());
        }
    }
}
