//! Model 1 in the stored streams, and numbers that are no model's.

use super::cases::{annotation_cases, Case};
use super::damage::changed_in;
use super::prng::Prng;
use super::random::{any_table, wide_table};
use crate::encode::{encode, encode_fitting};
use crate::layout::{initial_at, Edition, EVENTS_AT, MODEL_AT};
use crate::litmus::{self, *};
use crate::raw::RawTable;
use crate::table::{Event, Kind, Model, Table, ALL_FLAGS};

/// Both models, and others.
const NUMBERS: [u8; 8] = [0, 1, 2, 3, 4, 127, 128, 255];

const RANDOM_TABLES: usize = 20;

/// The paper's tests and those of AMOs, the annotations, and every two kinds, in model 1.
pub fn tso_cases() -> Vec<Case> {
    let families = [tso_tests(), annotation_cases(), pairs_of_kinds()];
    families.concat().into_iter().map(in_tso).collect()
}

/// The paper's tests and those of AMOs, in model 1.
pub fn tso_tests() -> Vec<Case> {
    let families = [litmus::all(), releasing_amos(), counters()];
    families.concat().into_iter().map(in_tso).collect()
}

fn in_tso((name, test): Case) -> Case {
    (name, test.in_model(Model::Rvtso))
}

/// An event of each kind to a location; an SC has its LR before it.
fn each_kind(location: usize) -> [Vec<Event>; 5] {
    [
        vec![load(0, location, 0)],
        vec![store(0, location, 1)],
        vec![amo(0, location, 0, 1)],
        vec![lr(0, location, 0)],
        vec![lr(0, location, 0), sc(0, location, 1)],
    ]
}

/// Each kind behind each kind.
fn pairs_of_kinds() -> Vec<Case> {
    let behind = |first: Vec<Event>| {
        each_kind(Y).map(|second| ("kind-behind-kind", table([first.clone(), second].concat())))
    };
    each_kind(X).into_iter().flat_map(behind).collect()
}

/// Blocks and tests of edition 2 in model 1, with every flags on each kind; and with other numbers in
/// the place of the model, alone and with breaches of lines 5, 6 and 7.
pub fn model_readings(prng: &mut Prng) -> Vec<Vec<u8>> {
    let mut frames: Vec<Vec<u8>> = tso_tests().iter().map(|(_, test)| encode(test)).collect();
    for flags in 0..=ALL_FLAGS {
        for events in each_kind(X) {
            frames.push(encode(&flagged(events, flags).in_model(Model::Rvtso)));
        }
    }
    for edition in Edition::ALL {
        let kind = (edition.record(0).start, Kind::ALL.len() as u8 + 1);
        for number in NUMBERS {
            let model = (MODEL_AT, number);
            frames.push(changed_in(edition, &c1(), &[model]));
            for other in [(EVENTS_AT, 0), (MODEL_AT + 1, 1), (initial_at(2), 1), kind] {
                frames.push(changed_in(edition, &c1(), &[model, other]));
            }
        }
    }
    for _ in 0..RANDOM_TABLES {
        frames.push(encode(&any_table(prng).in_model(Model::Rvtso)));
        frames.push(encode_fitting(&wide_table(prng).in_model(Model::Rvtso)));
    }
    frames
}

/// The last event with these flags.
fn flagged(mut events: Vec<Event>, flags: u8) -> Table {
    if let Some(last) = events.last_mut() {
        last.flags = flags;
    }
    table(events)
}

/// Tables with each of these numbers in the place of the model, and others of model 1.
pub fn model_tables(prng: &mut Prng) -> Vec<RawTable> {
    let numbered = |model: u8| RawTable { model, ..RawTable::from(&c1()) };
    let mut tables: Vec<RawTable> = NUMBERS.into_iter().map(numbered).collect();
    tables.push(RawTable { model: 2, harts: 9, ..RawTable::from(&c1()) });
    tables.extend(tso_tests().iter().map(|(_, test)| RawTable::from(test)));
    let random = (0..RANDOM_TABLES).map(|_| any_table(prng).in_model(Model::Rvtso));
    tables.extend(random.map(|table| RawTable::from(&table)));
    tables
}

#[cfg(test)]
mod tests {
    use super::*;
    use crate::table::{read, Line};

    #[test]
    fn both_models_are_read_and_others_refuse_by_5_before_6_and_7() {
        let mut prng = Prng::new(0);
        let (mut good, mut refused) = (0, 0);
        for test in model_readings(&mut prng) {
            match (Model::from_number(test[MODEL_AT]), read(&test)) {
                (Some(model), Ok(table)) => {
                    assert_eq!(table.model, model);
                    good += u32::from(model == Model::Rvtso);
                }
                (Some(_), Err(_)) => {}
                (None, reading) => {
                    assert_eq!(reading.map_err(|refusal| refusal.line), Err(Line::Ranges));
                    refused += 1;
                }
            }
        }
        assert!(good >= 90 && refused >= 60, "{good}, {refused}");
    }
}
