//! Small tables, each with a name that says what it is there for.

use crate::litmus::*;
use crate::table::*;

pub type Case = (&'static str, Table);

/// Rules 1 to 3 and their near misses: accesses of one location.
pub fn location_cases() -> Vec<Case> {
    vec![
        ("rule-1-load-store", table(vec![load(0, X, 0), store(0, X, 1)])),
        ("rule-1-store-store", table(vec![store(0, X, 1), store(0, X, 2)])),
        ("rule-1-store-amo", table(vec![store(0, X, 1), amo(0, X, 1, 2)])),
        ("rule-1-amo-amo", table(vec![amo(0, X, 0, 1), amo(0, X, 1, 2)])),
        ("rule-1-other-location", table(vec![load(0, X, 0), store(0, Y, 1)])),
        ("rule-1-other-hart", table(vec![load(0, X, 0), store(1, X, 1)])),
        ("rule-1-store-load", table(vec![store(0, X, 1), load(0, X, 1)])),
        ("rule-2", table(vec![load(0, X, 1), load(0, X, 0), store(1, X, 1)])),
        ("rule-2-lr", table(vec![lr(0, X, 1), lr(0, X, 0), store(1, X, 1)])),
        ("rule-2-amo-first", table(vec![amo(0, X, 0, 1), load(0, X, 2), store(1, X, 2)])),
        ("rule-2-foreign-store", table(vec![load(0, X, 1), store(1, X, 1), load(0, X, 1)])),
        (
            "rule-2-store-between",
            table(vec![load(0, X, 2), store(0, X, 1), load(0, X, 1), store(1, X, 2)]),
        ),
        (
            "rule-2-store-between-elsewhere",
            table(vec![load(0, X, 2), store(0, Y, 1), load(0, X, 0), store(1, X, 2)]),
        ),
        ("rule-2-other-location", table(vec![load(0, X, 1), load(0, Y, 0), store(1, X, 1)])),
        ("rule-3-sc", table(vec![lr(0, X, 0), sc(0, X, 1), load(0, X, 1)])),
        ("rule-3-sc-lr", table(vec![lr(0, X, 0), sc(0, X, 1), lr(0, X, 1)])),
        ("rule-3-plain-store", table(vec![load(0, X, 0), store(0, X, 1), load(0, X, 1)])),
        (
            "rule-3-other-write",
            table(vec![lr(0, X, 0), sc(0, X, 1), load(0, X, 2), store(1, X, 2)]),
        ),
    ]
}

/// Rule 4 where the fence isn't between, or several are.
pub fn fence_cases() -> Vec<Case> {
    let (first, second) = (load(0, X, 0), load(0, Y, 0));
    let full = fence(0, FULL);
    let between = |fences: &[Event]| {
        table([std::slice::from_ref(&first), fences, std::slice::from_ref(&second)].concat())
    };
    vec![
        ("rule-4-fence-before", table(vec![full.clone(), first.clone(), second.clone()])),
        ("rule-4-fence-after", table(vec![first.clone(), second.clone(), full])),
        ("rule-4-fence-of-other-hart", between(&[fence(1, FULL)])),
        ("rule-4-two-halves", between(&[fence(0, PR), fence(0, SR)])),
        ("rule-4-second-of-two", between(&[fence(0, 0), fence(0, PR | SR)])),
        ("rule-4-tso-of-other-hart", between(&[fence_tso(1)])),
    ]
}

/// Rule 7 and near misses, and rule 8.
pub fn annotation_cases() -> Vec<Case> {
    let release_then =
        |release: u8, second: Event| table(vec![store(0, X, 1).flags(release), second]);
    vec![
        ("rule-7", release_then(RELEASE_RCSC, load(0, Y, 0).flags(ACQUIRE_RCSC))),
        ("rule-7-lr", release_then(RELEASE_RCSC, lr(0, Y, 0).flags(ACQUIRE_RCSC))),
        ("rule-7-amo", release_then(RELEASE_RCSC, amo(0, Y, 0, 1).flags(ACQUIRE_RCSC))),
        ("rule-7-first-rcpc", release_then(RELEASE_RCPC, load(0, Y, 0).flags(ACQUIRE_RCSC))),
        ("rule-7-second-rcpc", release_then(RELEASE_RCSC, load(0, Y, 0).flags(ACQUIRE_RCPC))),
        ("rule-7-other-hart", release_then(RELEASE_RCSC, load(1, Y, 0).flags(ACQUIRE_RCSC))),
        (
            "rule-7-sc-lr",
            table(vec![
                lr(0, X, 0),
                sc(0, X, 1).flags(RELEASE_RCSC),
                lr(0, Y, 0).flags(ACQUIRE_RCSC),
            ]),
        ),
        ("rule-8-with-rule-1", table(vec![lr(0, X, 0), sc(0, X, 1)])),
        ("rule-8-second-lr", table(vec![lr(0, X, 0), lr(0, X, 0), sc(0, X, 1)])),
    ]
}

/// Rules 9 to 11 and near misses.
pub fn dependency_cases() -> Vec<Case> {
    let source = load(0, X, 0);
    let after = |second: Event| table(vec![source.clone(), second]);
    let after_sc = |third: Event| table(vec![lr(0, X, 0), sc(0, X, 1), third]);
    vec![
        ("rule-9-load", after(load(0, Y, 0).address_from(0))),
        ("rule-9-store", after(store(0, Y, 1).address_from(0))),
        ("rule-9-and-10", after(store(0, Y, 1).address_from(0).data_from(0))),
        ("rule-9-of-sc", after_sc(load(0, Y, 0).address_from(1))),
        ("rule-10", after(store(0, Y, 1).data_from(0))),
        ("rule-10-amo", after(amo(0, Y, 0, 1).data_from(0))),
        ("rule-10-of-sc", after_sc(store(0, Y, 1).data_from(1))),
        ("rule-11-store", after(store(0, Y, 1).control_from(0))),
        ("rule-11-amo", after(amo(0, Y, 0, 1).control_from(0))),
        ("rule-11-load", after(load(0, Y, 0).control_from(0))),
        ("rule-11-of-sc", after_sc(store(0, Y, 1).control_from(1))),
        (
            "rule-11-through-load",
            table(vec![
                source.clone(),
                load(0, Y, 0).control_from(0),
                store(0, Z, 1).control_from(0),
            ]),
        ),
        (
            "rules-9-and-10-not-through-two",
            table(vec![
                source.clone(),
                amo(0, Y, 0, 1).data_from(0),
                load(0, Z, 0).address_from(1),
            ]),
        ),
    ]
}

/// Rule 12 and near misses: a read of a write that depends on an earlier event.
pub fn forwarding_cases() -> Vec<Case> {
    let after = |m: Event, b: Event| table(vec![load(0, X, 0), m, b]);
    let store_y = store(0, Y, 1);
    let load_y = load(0, Y, 1);
    vec![
        ("rule-12-data", after(store_y.clone().data_from(0), load_y.clone())),
        ("rule-12-address", after(store_y.clone().address_from(0), load_y.clone())),
        ("rule-12-amo", after(amo(0, Y, 0, 1).data_from(0), load_y.clone())),
        (
            "rule-12-of-sc",
            table(vec![lr(0, X, 0), sc(0, X, 1), store_y.clone().data_from(1), load_y.clone()]),
        ),
        (
            "rule-12-through-sc",
            table(vec![load(0, X, 0), lr(0, Y, 0), sc(0, Y, 1).data_from(0), load_y.clone()]),
        ),
        ("rule-12-control", after(store_y.clone().control_from(0), load_y.clone().control_from(0))),
        (
            "rule-12-other-write",
            table(vec![load(0, X, 0), store_y.clone().data_from(0), load(0, Y, 2), store(1, Y, 2)]),
        ),
        ("rule-12-no-dependency", after(store_y, load_y)),
    ]
}

/// Rule 13 and near misses: a write after an event whose address depends.
pub fn later_write_cases() -> Vec<Case> {
    let after = |m: Event, b: Event| table(vec![load(0, X, 0), m.address_from(0), b]);
    let store_z = store(0, Z, 1);
    let load_y = load(0, Y, 0);
    vec![
        ("rule-13-load", after(load_y.clone(), store_z.clone())),
        ("rule-13-lr", after(lr(0, Y, 0), store_z.clone())),
        ("rule-13-store", after(store(0, Y, 1), store_z.clone())),
        ("rule-13-amo", after(amo(0, Y, 0, 1), amo(0, Z, 0, 1))),
        (
            "rule-13-of-amo",
            table(vec![amo(0, X, 0, 1), load_y.clone().address_from(0), store_z.clone()]),
        ),
        (
            "rule-13-of-sc",
            table(vec![lr(0, X, 0), sc(0, X, 1), load_y.clone().address_from(1), store_z.clone()]),
        ),
        (
            "rule-13-sc",
            table(vec![load(0, X, 0), lr(0, Z, 0), load_y.clone().address_from(0), sc(0, Z, 1)]),
        ),
        ("rule-13-data", table(vec![load(0, X, 0), store(0, Y, 1).data_from(0), store_z.clone()])),
        ("rule-13-read", after(load_y.clone(), load(0, Z, 0))),
        ("rule-13-other-hart", after(load_y.clone(), store(1, Z, 1))),
        ("rule-13-address-of-b", table(vec![load(0, X, 0), load_y, store_z.address_from(0)])),
    ]
}

/// Two events that as many rules as can be put in order, and those less one.
pub fn rule_set_cases() -> Vec<Case> {
    let annotated = |event: Event| event.flags(ACQUIRE_RCSC | RELEASE_RCSC);
    let dependent = |event: Event| event.address_from(0).data_from(0).control_from(0);
    let between = || vec![fence(0, FULL), load(0, Y, 0).address_from(0).control_from(0)];
    let amos = |m: Vec<Event>| {
        let last = annotated(dependent(amo(0, X, 1, 2)));
        table([vec![annotated(amo(0, X, 0, 1))], m, vec![last]].concat())
    };
    let forwarded = vec![store(0, X, 1).address_from(0).data_from(0).control_from(0)];
    let paired = |m: Vec<Event>| {
        let last = annotated(dependent(sc(0, X, 1)));
        table([vec![annotated(lr(0, X, 0))], m, vec![last]].concat())
    };
    vec![
        ("rule-set-all-but-8-and-12", amos(between())),
        ("rule-set-not-4-and-13", amos(vec![])),
        ("rule-set-all-but-2-3-and-8", amos([between(), forwarded].concat())),
        ("rule-set-all-but-2-3-and-12", paired(between())),
        ("rule-set-8-not-4-and-13", paired(vec![])),
    ]
}

/// Paired LR and SC with writers of other harts and of their own.
pub fn atomicity_cases() -> Vec<Case> {
    let pair = vec![lr(0, X, 0), sc(0, X, 1)];
    let with = |others: Vec<Event>| table([pair.clone(), others].concat());
    vec![
        ("atomicity-two-stores", with(vec![store(1, X, 2), store(2, X, 3)])),
        ("atomicity-amo", with(vec![amo(1, X, 0, 2), load(1, X, 2)])),
        ("atomicity-two-pairs", with(vec![lr(1, X, 0), sc(1, X, 2)])),
        ("atomicity-other-location", with(vec![store(1, Y, 2)])),
        (
            "atomicity-own-store-first",
            table(vec![store(0, X, 3), lr(0, X, 3), sc(0, X, 1), store(1, X, 2)]),
        ),
        (
            "atomicity-store-between",
            table(vec![lr(0, X, 0), store(0, X, 2), sc(0, X, 1), store(1, X, 3)]),
        ),
        (
            "atomicity-foreign-store-between",
            table(vec![lr(0, X, 0), store(1, X, 2), sc(0, X, 1)]).with_final(X, 1),
        ),
        (
            "atomicity-unpaired-lr",
            table(vec![lr(0, X, 0), lr(0, X, 0), sc(0, X, 1), store(1, X, 2)]),
        ),
    ]
}

/// Atomicity's begin and the writer that it names: own stores that the LR returns from, foreign
/// writers of each kind and number, two LRs at once.
pub fn atomicity_place_cases() -> Vec<Case> {
    let own_store = [store(0, X, 3), lr(0, X, 3), sc(0, X, 1)];
    let behind_own = |others: Vec<Event>| table([own_store.to_vec(), others].concat());
    let pair = [lr(0, X, 0), sc(0, X, 1)];
    let with = |others: Vec<Event>| table([pair.to_vec(), others].concat());
    let foreign_pair = vec![lr(1, X, 0), sc(1, X, 2)];
    let then_store = [foreign_pair.clone(), vec![store(2, X, 3)]].concat();
    let two_stores = vec![store(1, X, 2), store(2, X, 4)];
    vec![
        ("atomicity-from-the-write-two-stores", behind_own(two_stores).with_final(X, 1)),
        ("atomicity-from-the-write-amo", behind_own(vec![amo(1, X, 0, 2)]).with_final(X, 1)),
        ("atomicity-from-the-write-sc", behind_own(foreign_pair).with_final(X, 1)),
        (
            "atomicity-from-the-second-write",
            table(vec![store(0, X, 3), store(0, X, 4), lr(0, X, 4), sc(0, X, 1), store(1, X, 2)]),
        ),
        (
            "atomicity-from-a-foreign-write",
            table(vec![store(1, X, 2), lr(0, X, 2), sc(0, X, 1), store(2, X, 3)]),
        ),
        ("atomicity-amo-is-lowest", with(vec![amo(1, X, 0, 2), store(2, X, 3)])),
        ("atomicity-sc-is-lowest", with(then_store)),
        (
            "atomicity-store-before-the-lr-is-lowest",
            table(vec![store(1, X, 2), lr(0, X, 0), sc(0, X, 1), amo(2, X, 0, 3)]),
        ),
        (
            "atomicity-two-lrs",
            table(vec![lr(0, X, 0), lr(1, X, 0), sc(1, X, 2), sc(0, X, 1), store(2, X, 3)]),
        ),
    ]
}

/// Values stated that some orders give and others don't.
pub fn value_cases() -> Vec<Case> {
    let two_stores = || table(vec![store(0, X, 1), store(1, X, 2), load(2, X, 1)]);
    let mut unwritten = table(vec![load(0, X, 7), load(0, Y, 0)]);
    unwritten.initial[X] = 7;
    vec![
        ("value-read", two_stores()),
        ("value-final-1", two_stores().with_final(X, 1)),
        ("value-final-2", two_stores().with_final(X, 2)),
        ("value-final-neither", two_stores().with_final(X, 3)),
        ("value-unwritten", unwritten.clone().with_final(X, 7).with_final(Y, 0)),
        ("value-unwritten-other", unwritten.with_final(Y, 1)),
        (
            "value-two-finals",
            table(vec![store(0, X, 1), store(0, Y, 1), store(1, Y, 2), store(1, X, 2)])
                .with_final(X, 1)
                .with_final(Y, 2),
        ),
        ("value-amo-chain", table(vec![amo(0, X, 0, 1), amo(1, X, 1, 2), amo(2, X, 2, 3)])),
    ]
}
