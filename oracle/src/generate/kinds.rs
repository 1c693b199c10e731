//! Lines 6, 7 and 9 without gaps: each byte, and each kind of event.

use super::breaches::base;
use super::damage::changed;
use crate::encode::encode;
use crate::layout::one::{field::*, *};
use crate::layout::*;
use crate::litmus::*;
use crate::table::{Event, Kind, Table, ALL_FLAGS};

/// The block of C10, which has one event and one location, with one bit turned over in each byte
/// from the model on. All these bytes are named zero, but for the model, the initial value of
/// location 0 and record 0.
pub fn each_byte() -> Vec<Vec<u8>> {
    let block = encode(&c10());
    let turned = |at: usize| changed(&c10(), &[(at, block[at] ^ 1 << (at % 8))]);
    (MODEL_AT..CHECK_AT).map(turned).collect()
}

/// Hart, location and flags of each kind, just out of range and as large as a byte can be. The
/// base's first records are one of each kind.
pub fn fields_out_of_range() -> Vec<Vec<u8>> {
    let base = base();
    let past = [(HART, base.harts as u8), (LOCATION, base.locations as u8), (FLAGS, ALL_FLAGS + 1)];
    let mut blocks = Vec::new();
    for record in 0..Kind::ALL.len() {
        for (field, first) in past {
            for value in [first, u8::MAX] {
                blocks.push(changed(&base, &[(record_at(record) + field, value)]));
            }
        }
    }
    blocks
}

/// An event of each kind, in the order of the kinds; an SC has its LR before it.
fn each_kind() -> [Event; 7] {
    [
        load(0, Y, 0),
        store(0, Y, 1),
        amo(0, Y, 0, 1),
        lr(0, Y, 0),
        sc(0, Y, 1),
        fence(0, FULL),
        fence_tso(0),
    ]
}

/// A record with a control bit, and a later event of its hart without it and with it: each kind
/// after each kind. A fence needn't have the bit, and can't.
pub fn control_clauses() -> Vec<Table> {
    let control = |event: Event| event.control_from(0);
    let mut tables = Vec::new();
    for holder in each_kind().into_iter().filter(Event::is_memory) {
        for later in each_kind() {
            tables.push(control_clause(control(holder.clone()), later.clone()));
            if later.is_memory() {
                tables.push(control_clause(control(holder.clone()), control(later)));
            }
        }
    }
    tables
}

/// Behind a load, the record that has the bit, then the later event. The LR of a later SC has the
/// bit too, so that only the SC can lack it.
fn control_clause(holder: Event, later: Event) -> Table {
    let behind_lr = |event: Event, lr: Event| {
        if event.kind == Kind::Sc {
            vec![lr, event]
        } else {
            vec![event]
        }
    };
    let holder = behind_lr(holder, lr(0, Y, 0));
    let later = behind_lr(later, lr(0, Y, 0).control_from(0));
    table([vec![load(0, X, 0)], holder, later].concat())
}

#[cfg(test)]
mod tests {
    use super::*;
    use crate::table::{read, Line, Refusal};

    #[test]
    fn each_byte_named_zero_refuses_by_6() {
        let is_named = |at: &usize| {
            *at != MODEL_AT
                && !(initial_at(0)..initial_at(1)).contains(at)
                && !(record_at(0)..record_at(1)).contains(at)
        };
        let bytes = (MODEL_AT..CHECK_AT).zip(each_byte());
        let named: Vec<_> = bytes.filter(|(at, _)| is_named(at)).collect();
        assert_eq!(named.len(), 480);
        for (at, block) in named {
            let refused = Refusal { line: Line::Zeros, record: None };
            assert_eq!(read(&block), Err(refused), "byte {at}");
        }
    }

    #[test]
    fn each_kind_refuses_by_7_at_its_record() {
        for (record, blocks) in fields_out_of_range().chunks(6).enumerate() {
            assert_eq!(base().events[record].kind as usize, kind_at(record));
            for block in blocks {
                let refused = Refusal { line: Line::Fields, record: Some(record) };
                assert_eq!(read(block), Err(refused));
            }
        }
    }

    /// The kinds of the base's first records.
    fn kind_at(record: usize) -> usize {
        [1, 2, 4, 6, 3, 5, 7][record]
    }

    #[test]
    fn a_later_memory_event_without_the_bit_refuses_by_9() {
        for test in control_clauses() {
            let has_bit = |event: &Event| event.control == 1;
            let holder = test.events.iter().position(has_bit).expect("a record has the bit");
            let is_fine = |event: &Event| event.is_fence() || has_bit(event);
            let expected = if test.events[holder..].iter().all(is_fine) {
                Ok(test.clone())
            } else {
                Err(Refusal { line: Line::Dependencies, record: Some(holder) })
            };
            assert_eq!(read(&encode(&test)), expected);
        }
    }
}
