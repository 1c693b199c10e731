//! Tables of model 1 for the step machine: each shows what one wrong machine would do.

use super::cases::Case;
use super::prng::Prng;
use super::random::{random_table, state_untouched};
use crate::layout::MAX_HARTS;
use crate::litmus::*;
use crate::table::{
    refuse_table, Event, Kind, Model, Table, ACQUIRE_RCSC, PR, PW, RELEASE_RCSC, SR, SW,
};

fn of(name: &'static str, events: Vec<Event>) -> Case {
    (name, table(events).in_model(Model::Rvtso))
}

/// Small tables, each with what the machine has to get right there.
pub fn machine_cases() -> Vec<Case> {
    [steady_cases(), sc_cases(), forwarding_cases(), atomicity_cases(), buffer_cases()].concat()
}

/// "no store in its hart's buffer precedes it by a steady rule"
fn steady_cases() -> Vec<Case> {
    let fenced = |flags: u8| vec![store(0, X, 1), fence(0, flags), load(0, Y, 0)];
    vec![
        of("amo-behind-a-store", vec![store(0, X, 1), amo(0, Y, 0, 1)]),
        of("fence-of-all-bits", fenced(FULL)),
        of("fence-without-bits", fenced(0)),
        of("fence-of-other-bits", fenced(PR | SR | SW)),
        of("fence-of-writes-and-reads", fenced(PW | SR)),
        of("fence-tso", vec![store(0, X, 1), fence_tso(0), load(0, Y, 0)]),
        of("fence-of-another-hart", vec![store(0, X, 1), fence(1, FULL), load(0, Y, 0)]),
        of(
            "annotated-pair",
            vec![store(0, X, 1).flags(RELEASE_RCSC), load(0, Y, 0).flags(ACQUIRE_RCSC)],
        ),
        of("address-of-an-sc", vec![lr(0, X, 0), sc(0, X, 1), load(0, Y, 0).address_from(1)]),
    ]
}

/// "neither is an SC nor has an address or data dependency on a buffered SC"
fn sc_cases() -> Vec<Case> {
    let pair = || vec![lr(0, X, 0), sc(0, X, 1)];
    let behind = |events: Vec<Event>| [pair(), events].concat();
    let control = |event: Event| event.control_from(1);
    vec![
        of("load-behind-an-sc", behind(vec![load(0, X, 1)])),
        of("lr-behind-an-sc", behind(vec![lr(0, X, 1)])),
        of("load-of-another-location", behind(vec![load(0, Y, 0)])),
        of("store-with-data-of-an-sc", behind(vec![store(0, Y, 1).data_from(1), load(0, Y, 1)])),
        of("store-at-an-scs-address", behind(vec![store(0, Y, 1).address_from(1), load(0, Y, 1)])),
        of(
            "store-controlled-by-an-sc",
            behind(vec![control(store(0, Y, 1)), control(load(0, Y, 1))]),
        ),
        of("store-with-data-of-the-lr", behind(vec![store(0, Y, 1).data_from(0), load(0, Y, 1)])),
        of(
            "older-dependent-store",
            behind(vec![store(0, Y, 1).data_from(1), store(0, Y, 2), load(0, Y, 2)]),
        ),
        of(
            "newer-dependent-store",
            behind(vec![store(0, Y, 1), store(0, Y, 2).data_from(1), load(0, Y, 2)]),
        ),
        of("dependent-store-elsewhere", behind(vec![store(0, Y, 1).data_from(1), load(0, X, 1)])),
        of("sc-then-a-store", behind(vec![store(0, X, 2), load(0, X, 2)])),
        of("store-then-an-sc", [vec![store(0, X, 1)], pair(), vec![load(0, X, 1)]].concat()),
    ]
}

/// "a load or LR returns from that buffered store, else from the last write to memory. An AMO reads
/// and writes memory at once."
fn forwarding_cases() -> Vec<Case> {
    let two = |reader: Event| vec![store(0, X, 1), store(0, X, 2), reader];
    vec![
        of("newest-of-two-to-a-load", two(load(0, X, 2))),
        of("newest-of-two-to-an-lr", two(lr(0, X, 2))),
        of("last-of-two-to-an-amo", two(amo(0, X, 2, 3))),
        of("own-store", vec![store(0, X, 1), load(0, X, 1)]),
        of("own-store-past-a-fence", vec![store(0, X, 1), fence(0, 0), load(0, X, 1)]),
        of("stores-to-two-locations", vec![store(0, X, 1), store(0, Y, 2), load(0, X, 1)]),
        of("own-store-and-a-foreign-one", vec![store(0, X, 1), load(0, X, 1), store(1, X, 2)]),
        of("foreign-buffer", vec![store(0, X, 1), store(0, Y, 2), load(1, X, 0), load(1, Y, 0)]),
        of("amos-write", vec![amo(0, X, 0, 1), load(1, X, 1), amo(1, X, 1, 2)]),
    ]
}

/// "An SC drains only if atomicity allows it."
fn atomicity_cases() -> Vec<Case> {
    vec![
        of("lost-reservation", vec![lr(0, X, 0), sc(0, X, 1), store(1, X, 2)]),
        of("reservation-lost-to-an-amo", vec![lr(0, X, 0), sc(0, X, 1), amo(1, X, 0, 2)]),
        of("reservation-elsewhere", vec![lr(0, X, 0), sc(0, X, 1), store(1, Y, 2)]),
        of(
            "lr-of-a-buffered-store",
            vec![store(0, X, 1), lr(0, X, 1), sc(0, X, 2), store(1, X, 3)],
        ),
        of("own-store-between", vec![lr(0, X, 0), store(0, X, 1), sc(0, X, 2)]),
        of("own-amo-between", vec![lr(0, X, 0), amo(0, X, 0, 1), sc(0, X, 2)]),
        of("two-pairs", vec![lr(0, X, 0), sc(0, X, 1), lr(1, X, 0), sc(1, X, 2)]),
        of("pair-then-a-pair", vec![lr(0, X, 0), sc(0, X, 1), lr(0, X, 1), sc(0, X, 2)]),
    ]
}

/// "a hart issues its next event, or drains its oldest buffered store"
fn buffer_cases() -> Vec<Case> {
    vec![
        of("one-store", vec![store(0, X, 1)]),
        of("two-stores", vec![store(0, X, 1), store(0, Y, 1)]),
        of("fences-at-the-ends", vec![fence(0, FULL), store(0, X, 1), fence_tso(0)]),
        of("events-by-turns", vec![store(0, X, 1), store(1, Y, 1), load(0, Y, 0), load(1, X, 0)]),
        of("four-harts", (0..MAX_HARTS).map(|hart| store(hart, X, 1)).collect()),
        of("hart-without-events", vec![store(0, X, 1), load(2, X, 1)]),
        of("last-hart-alone", vec![store(3, X, 1), load(3, X, 1)]),
    ]
}

/// An SC that a store may depend on: an LR and SC to x, one or two stores that may depend on it, a
/// fence or none, a reader, and another hart's write or none.
pub fn sc_shapes() -> Vec<Table> {
    let fences = [None, Some(fence(0, FULL)), Some(fence(0, PR | SW))];
    let others = [None, Some(store(1, X, 7)), Some(store(1, Y, 7)), Some(amo(1, X, 0, 7))];
    let mut shapes = Vec::new();
    for stores in one_or_two(&dependent_stores()) {
        for fence in &fences {
            for reader in readers() {
                for other in &others {
                    let own = [vec![lr(0, X, 0), sc(0, X, 1)], stores.clone()].concat();
                    let rest = [fence.clone(), Some(reader.clone()), other.clone()];
                    shapes.push(shape([own, rest.into_iter().flatten().collect()].concat()));
                }
            }
        }
    }
    shapes
}

fn dependent_stores() -> Vec<Event> {
    let to = |location: usize| {
        let plain = store(0, location, 2);
        let dependent = [
            plain.clone().address_from(1),
            plain.clone().data_from(1),
            plain.clone().control_from(1),
        ];
        [vec![plain], dependent.to_vec()].concat()
    };
    [to(X), to(Y)].concat()
}

fn one_or_two(stores: &[Event]) -> Vec<Vec<Event>> {
    let one = stores.iter().map(|store| vec![store.clone()]);
    let two = stores.iter().flat_map(|a| stores.iter().map(|b| vec![a.clone(), b.clone()]));
    one.chain(two).collect()
}

fn readers() -> Vec<Event> {
    [X, Y].into_iter().flat_map(|l| [load(0, l, 0), lr(0, l, 0), amo(0, l, 0, 9)]).collect()
}

/// The table of a shape: control masks reach all later memory events of the hart, as line 9 wants it.
fn shape(mut events: Vec<Event>) -> Table {
    let mut control = 0;
    for event in events.iter_mut().filter(|event| event.hart == 0 && event.is_memory()) {
        control |= event.control;
        event.control = control;
    }
    table(events).in_model(Model::Rvtso)
}

/// A random table of model 1 in which stores are often SCs, or depend on them.
pub fn machine_table(prng: &mut Prng, harts: usize, events: usize) -> Table {
    let locations = 1 + prng.below(3);
    let mut table = random_table(prng, harts, locations, events).in_model(Model::Rvtso);
    for number in 0..events {
        let changed = with_sc(prng, &table, number);
        if table.events[number].kind == Kind::Store && refuse_table(&changed).is_ok() {
            table = changed;
        }
    }
    state_untouched(&mut table);
    table
}

/// The table with a store that is the SC of the hart's latest LR, or depends on its latest SC.
fn with_sc(prng: &mut Prng, table: &Table, number: usize) -> Table {
    let mut changed = table.clone();
    let latest = |kind: Kind| {
        (0..number)
            .rev()
            .find(|&e| table.in_program_order(e, number) && table.events[e].kind == kind)
    };
    let event = &mut changed.events[number];
    match (prng.below(4), latest(Kind::Lr), latest(Kind::Sc)) {
        (0 | 1, Some(lr), _) => {
            (event.kind, event.location) = (Kind::Sc, table.events[lr].location)
        }
        (2, _, Some(sc)) => event.address |= 1 << sc,
        (3, _, Some(sc)) => event.data |= 1 << sc,
        _ => {}
    }
    changed
}

#[cfg(test)]
mod tests {
    use super::*;
    use crate::encode::encode_fitting;
    use crate::table::read;

    #[test]
    fn the_tables_are_good_and_of_model_1() {
        let mut prng = Prng::new(1);
        let cases = machine_cases().into_iter().map(|(_, table)| table);
        let random = (0..200).map(|_| machine_table(&mut prng, 2, 12)).collect::<Vec<_>>();
        for table in cases.chain(sc_shapes()).chain(random) {
            assert_eq!(read(&encode_fitting(&table)), Ok(table.clone()));
            assert_eq!(table.model, Model::Rvtso);
        }
    }
}
