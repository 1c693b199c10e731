//! Tables with clear fences: between the accesses of well-known tests, in numbers, beside other
//! fences, and where several sets of one size would do.

use super::cases::Case;
use super::chains::renumbered;
use super::prng::Prng;
use crate::litmus::*;
use crate::table::{Event, Table, PR, PW, SR, SW};

/// The table with one more event at a place.
fn with_event(table: &Table, place: usize, event: Event) -> Table {
    let places: Vec<usize> = (0..table.events.len()).map(|e| e + usize::from(e >= place)).collect();
    let mut events: Vec<Event> = table.events.iter().map(|e| renumbered(e, &places)).collect();
    events.insert(place, event);
    Table { events, ..table.clone() }
}

/// Empty fences at random places of any harts.
pub fn with_clear_fences(prng: &mut Prng, table: &Table, count: usize) -> Table {
    let mut fenced = table.clone();
    for _ in 0..count {
        let place = prng.below(fenced.events.len() + 1);
        fenced = with_event(&fenced, place, fence(prng.below(table.harts), 0));
    }
    fenced
}

/// A clear fence behind each event that is followed by another one of its hart.
pub fn between_neighbours(table: &Table) -> Table {
    let mut fenced = table.clone();
    for event in (0..table.events.len()).rev() {
        let is_followed = (event..table.events.len()).any(|e| table.in_program_order(event, e));
        if is_followed {
            fenced = with_event(&fenced, event + 1, fence(table.events[event].hart, 0));
        }
    }
    fenced
}

/// The events of one hart behind those of the other.
fn harts(parts: &[&[Event]]) -> Table {
    table(parts.concat())
}

/// Independent reads of independent writes.
fn iriw() -> Table {
    harts(&[
        &[store(0, X, 1)],
        &[store(1, Y, 1)],
        &[load(2, X, 1), load(2, Y, 0)],
        &[load(3, Y, 1), load(3, X, 0)],
    ])
}

/// A write that is read, passed on and then missed.
fn wrc() -> Table {
    harts(&[&[store(0, X, 1)], &[load(1, X, 1), store(1, Y, 1)], &[load(2, Y, 1), load(2, X, 0)]])
}

/// Two harts that both pass the message on: the reader may have it from either.
fn two_senders() -> Table {
    let send = |hart: usize| [store(hart, X, 1), store(hart, Y, 1)];
    harts(&[&send(0), &send(1), &[load(2, Y, 1), load(2, X, 0)]])
}

/// Each of three harts stores, and misses the store of the next one.
fn three_buffers() -> Table {
    let part = |hart: usize| [store(hart, hart, 1), load(hart, (hart + 1) % 3, 0)];
    harts(&[&part(0), &part(1), &part(2)])
}

/// Well-known tests, each with a clear fence between its neighbours.
pub fn fenced_tests() -> Vec<Case> {
    let load_buffering =
        harts(&[&[load(0, X, 1), store(0, Y, 1)], &[load(1, Y, 1), store(1, X, 1)]]);
    let s = harts(&[&[store(0, X, 2), store(0, Y, 1)], &[load(1, Y, 1), store(1, X, 1)]]);
    let r = harts(&[&[store(0, X, 1), store(0, Y, 1)], &[store(1, Y, 2), load(1, X, 0)]]);
    let writes = harts(&[&[store(0, X, 2), store(0, Y, 1)], &[store(1, Y, 2), store(1, X, 1)]]);
    let reads = harts(&[&[store(0, X, 1)], &[load(1, X, 1), load(1, X, 0)]]);
    let bare: Vec<Case> = vec![
        ("message-passing", c1()),
        ("store-buffering", c3()),
        ("load-buffering", load_buffering),
        ("s", s.with_final(X, 2)),
        ("r", r.with_final(Y, 2)),
        ("two-writes-each", writes.with_final(X, 2).with_final(Y, 2)),
        ("independent-reads", iriw()),
        ("write-read-passed-on", wrc()),
        ("two-senders", two_senders()),
        ("three-buffers", three_buffers()),
        // Forbidden as it is, and allowed by order alone.
        ("two-reads", reads),
        ("own-store", c4(1)),
        (
            "message-seen",
            harts(&[&[store(0, X, 1), store(0, Y, 1)], &[load(1, Y, 1), load(1, X, 1)]]),
        ),
        ("c7-final-1", c7(1)),
        ("c7-final-2", c7(2)),
        ("c8", c8()),
        ("control-dependency", c9_control()),
        ("address-dependency", c9_address()),
        ("counter", counter()),
        ("counter-lost", counter_lost()),
        ("one-load", c10()),
    ];
    bare.into_iter().map(|(name, test)| (name, between_neighbours(&test))).collect()
}

/// C1's accesses with other fences between them.
fn message(first: &[Event], second: &[Event]) -> Table {
    harts(&[&[store(0, X, 1)], first, &[store(0, Y, 1), load(1, Y, 1)], second, &[load(1, X, 0)]])
}

/// Message passing with so many clear fences: between the stores, between the loads, some at each
/// place, and where they order nothing.
pub fn counted(count: usize) -> Vec<Table> {
    let (first, second) = (vec![fence(0, 0); count], vec![fence(1, 0); count]);
    let half = count / 2;
    let in_front = harts(&[&first, &c1().events]);
    let behind = harts(&[&c1().events, &second]);
    vec![
        message(&first, &[fence(1, FULL)]),
        message(&[fence(0, FULL)], &second),
        message(&first[..half], &second[half..]),
        message(&first, &[]),
        in_front,
        behind,
    ]
}

/// Fences with some bits, of which some do what is asked for, and fence.tso, beside empty ones.
pub fn beside_others() -> Vec<Case> {
    let some = [PR, PW, SR, SW, PR | SR, PW | SW, PR | SW, PW | SR, FULL & !PW, FULL & !SR];
    let mut cases = Vec::new();
    for flags in some {
        let (first, second) = ([fence(0, flags), fence(0, 0)], [fence(1, 0), fence(1, flags)]);
        cases.push(("first-has-bits", message(&first[..1], &second[..1])));
        cases.push(("second-has-bits", message(&first[1..], &second[1..])));
        cases.push(("each-has-two", message(&first, &second)));
    }
    let tso = [fence_tso(0), fence_tso(1)];
    let empty = [fence(0, 0), fence(1, 0)];
    cases.push(("first-is-tso", message(&tso[..1], &empty[1..])));
    cases.push(("second-is-tso", message(&empty[..1], &tso[1..])));
    cases.push(("both-are-tso", message(&tso[..1], &tso[1..])));
    // A fence.tso has no bits either, and isn't counted.
    let eight = vec![fence(1, 0); 8];
    cases.push(("tso-beside-eight", message(&tso[..1], &eight)));
    cases.push(("bits-beside-eight", message(&[fence(0, PR), fence(0, PW | SW)], &eight)));
    cases
}

/// A store and its message: a reader that sees the message misses the store.
fn sender(hart: usize, data: usize, flag: usize) -> Vec<Event> {
    vec![store(hart, data, 1), fence(hart, 0), store(hart, flag, 1)]
}

fn receiver(hart: usize, data: usize, flag: usize) -> Vec<Event> {
    vec![load(hart, flag, 1), fence(hart, 0), load(hart, data, 0)]
}

/// Two messages, of which one forbidden is enough: sets of one size, of which the first by its list
/// isn't the first by its mask; and a set of one fence behind all pairs of others.
pub fn ties() -> Vec<Case> {
    let (third, fourth) = (2, 3);
    let one = [sender(0, X, Y), receiver(1, X, Y)];
    let other = [sender(2, third, fourth), receiver(3, third, fourth)];
    let [a, d] = &one;
    let [b, c] = &other;
    // A load that waits for the one before it needs no fence.
    let waiting = |place: usize| vec![load(3, fourth, 1), load(3, third, 0).address_from(place)];
    vec![
        ("outer-and-inner", harts(&[a, b, c, d])),
        ("inner-and-outer", harts(&[b, a, d, c])),
        ("crossed", harts(&[a, b, d, c])),
        ("one-behind-the-other", harts(&[a, d, b, c])),
        ("two-before-one", harts(&[a, d, b, &waiting(9)])),
        ("one-before-two", harts(&[b, &waiting(3), a, d])),
    ]
}

#[cfg(test)]
mod tests {
    use super::*;
    use crate::advice::{advise, clear_fences, Advice, MOST_EMPTY_FENCES};
    use crate::encode::{encode, encode_fitting};
    use crate::search::MAX_ALLOWANCE;
    use crate::table::read;

    fn advised(cases: &[Case], name: &str) -> Vec<usize> {
        let (_, table) = cases.iter().find(|case| case.0 == name).expect("there is such a case");
        match advise(&encode(table), MAX_ALLOWANCE) {
            Ok(Advice::Advised(set)) => set,
            other => panic!("{name}: {other:?}"),
        }
    }

    #[test]
    fn all_are_read() {
        let counted = (0..=9).flat_map(counted);
        let cases = [fenced_tests(), beside_others(), ties()].concat();
        for table in counted.chain(cases.into_iter().map(|(_, table)| table)) {
            assert_eq!(read(&encode_fitting(&table)), Ok(table));
        }
    }

    #[test]
    fn a_fence_stands_between_neighbours_and_dependencies_stay() {
        assert_eq!(between_neighbours(&c9_address()).events[7], load(1, X, 0).address_from(5));
        let message = between_neighbours(&c1());
        assert_eq!(message.events[..3], [store(0, X, 1), fence(0, 0), store(0, Y, 1)]);
        assert_eq!(clear_fences(&message), [1, 4]);
    }

    #[test]
    fn well_known_tests_need_the_fences_that_they_are_known_to_need() {
        let cases = fenced_tests();
        let known: [(&str, &[usize]); 9] = [
            ("message-passing", &[1, 4]),
            ("store-buffering", &[1, 4]),
            ("load-buffering", &[1, 4]),
            ("two-writes-each", &[1, 4]),
            // The two readers.
            ("independent-reads", &[3, 6]),
            ("write-read-passed-on", &[2, 5]),
            ("two-senders", &[1, 4, 7]),
            ("three-buffers", &[1, 4, 7]),
            ("counter-lost", &[]),
        ];
        for (name, set) in known {
            assert_eq!(advised(&cases, name), set, "{name}");
        }
    }

    #[test]
    fn ties_go_by_size_then_by_the_list() {
        let cases = ties();
        assert_eq!(advised(&cases, "outer-and-inner"), [1, 10]);
        assert_eq!(advised(&cases, "inner-and-outer"), [1, 10]);
        assert_eq!(advised(&cases, "crossed"), [1, 7]);
        assert_eq!(advised(&cases, "one-behind-the-other"), [1, 4]);
        assert_eq!(advised(&cases, "two-before-one"), [7]);
        assert_eq!(advised(&cases, "one-before-two"), [1]);
    }

    #[test]
    fn clear_fences_are_put_in_as_many_as_asked_for() {
        let mut prng = Prng::new(1);
        for count in 0..=MOST_EMPTY_FENCES + 1 {
            let fenced = with_clear_fences(&mut prng, &c9_address(), count);
            assert_eq!(clear_fences(&fenced).len(), count);
            assert_eq!(read(&encode(&fenced)), Ok(fenced));
        }
    }
}
