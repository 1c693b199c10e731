//! Texts of tables: with a condition that asks for what the table states, and with others.

use super::orders::lawful_order;
use super::prng::Prng;
use crate::condition::Condition;
use crate::following::{value_at_end, value_returned};
use crate::record::RawEvent;
use crate::table::{names_location, Event, Table};
use crate::text::{Document, MAX_LEVELS};

/// The text of a table, with the table's stated outcome as its condition.
pub fn text_of(table: &Table) -> Document {
    Document {
        events: table.events.iter().map(without_stated_values).collect(),
        initial: table.initial[..table.locations].to_vec(),
        condition: stated_outcome(table),
    }
}

/// The text of a table with the condition given, which needn't be legal.
pub fn text_with(table: &Table, condition: &str) -> String {
    let text = text_of(table).to_string();
    let (before, _) = text.trim_end().rsplit_once('\n').expect("a text has lines");
    format!("{before}\n{condition}\n")
}

/// "The value read must be 0 in every line, and so must the written value of an AMO with an
/// operation".
fn without_stated_values(event: &Event) -> RawEvent {
    let written = if event.has_operation() { 0 } else { event.written };
    RawEvent { read: 0, written, ..event.into() }
}

/// "each reader returns its stated value and each stated final value is that of the location's last
/// write"
fn stated_outcome(table: &Table) -> Condition {
    let readers = table.events.iter().enumerate().filter(|(_, event)| event.reads());
    let reads = readers.map(|(e, event)| Condition::Returns { event: e as u8, value: event.read });
    let stated = (0..table.locations).filter(|&l| names_location(table.stated, l));
    let finals = stated.map(|l| Condition::Ends { location: l as u8, value: table.finals[l] });
    all_of(&reads.chain(finals).collect::<Vec<_>>())
}

/// That all of some conditions hold, in as few levels as will do. If there are none, it is one that
/// every order makes true.
pub fn all_of(conditions: &[Condition]) -> Condition {
    match conditions {
        [] => {
            let some = Condition::Ends { location: 0, value: 0 };
            Condition::Or(Box::new(some.clone()), Box::new(Condition::Not(Box::new(some))))
        }
        [one] => one.clone(),
        _ => {
            let (left, right) = conditions.split_at(conditions.len() / 2);
            Condition::And(Box::new(all_of(left)), Box::new(all_of(right)))
        }
    }
}

/// The text of a table with a random condition, often without initial values of 0 at the end. Then
/// the condition may name a location that isn't in the test any more.
pub fn random_text(prng: &mut Prng, table: &Table) -> Document {
    let mut text = Document { condition: random_condition(prng, table), ..text_of(table) };
    let is_cut = prng.one_in(3);
    while is_cut && text.initial.len() > 1 && text.initial.ends_with(&[0]) {
        text.initial.pop();
    }
    name_untouched(table, &mut text);
    text
}

/// Asks besides that each location that line 21 would refuse ends at its initial value.
fn name_untouched(table: &Table, text: &mut Document) {
    let covering = table.events.iter().map(|event| event.location + 1).max();
    let locations = text.initial.len().max(covering.unwrap_or(0));
    let is_refused = |&l: &usize| l < locations && !text.condition.names_end_of(l);
    let untouched = table.untouched().filter(is_refused);
    let ends = untouched.map(|l| Condition::Ends { location: l as u8, value: table.initial[l] });
    text.condition = all_of(&[text.condition.clone()].into_iter().chain(ends).collect::<Vec<_>>());
}

/// A condition on readers and locations of a table, with levels left to name the untouched ones. Most
/// of its values are those of one lawful order, so that it is often true.
fn random_condition(prng: &mut Prng, table: &Table) -> Condition {
    let order = lawful_order(prng, table);
    let levels = *prng.pick(&[0, 1, 1, 2, 2, 3, 4, MAX_LEVELS]);
    let naming = (1 + table.untouched().count()).next_power_of_two().ilog2() as usize;
    nested_condition(prng, table, order.as_deref(), levels.min(MAX_LEVELS - naming))
}

fn nested_condition(
    prng: &mut Prng,
    table: &Table,
    order: Option<&[usize]>,
    levels: usize,
) -> Condition {
    let shape = if levels == 0 { usize::MAX } else { prng.below(8) };
    let mut inner = || Box::new(nested_condition(prng, table, order, levels - 1));
    match shape {
        0..=2 => Condition::And(inner(), inner()),
        3 | 4 => Condition::Or(inner(), inner()),
        5 => Condition::Not(inner()),
        _ => random_atom(prng, table, order),
    }
}

fn random_atom(prng: &mut Prng, table: &Table, order: Option<&[usize]>) -> Condition {
    let order = order.filter(|_| !prng.one_in(4));
    let readers: Vec<usize> =
        (0..table.events.len()).filter(|&e| table.events[e].reads()).collect();
    if readers.is_empty() || prng.one_in(3) {
        let location = prng.below(table.locations);
        let value = order.map(|order| value_at_end(table, order, location));
        let value = value.unwrap_or_else(|| any_value(prng, table, location));
        return Condition::Ends { location: location as u8, value };
    }
    let event = *prng.pick(&readers);
    let value = order.map(|order| value_returned(table, order, event));
    let value = value.unwrap_or_else(|| any_value(prng, table, table.events[event].location));
    Condition::Returns { event: event as u8, value }
}

/// The initial value of a location, a value that some event states to write there, or a small one.
fn any_value(prng: &mut Prng, table: &Table, location: usize) -> u16 {
    let writes = table.events.iter().filter(|event| event.writes() && event.location == location);
    let written = writes.map(|event| event.written);
    let small = prng.below(3) as u16;
    let values: Vec<u16> = written.chain([table.initial[location], small]).collect();
    *prng.pick(&values)
}

#[cfg(test)]
mod tests {
    use super::*;
    use crate::generate::random::any_table;
    use crate::table::Line;
    use crate::text_test::{read_text, TextRefusal};

    const TEXTS: usize = 2000;

    #[test]
    fn random_texts_are_good_but_for_what_they_name_and_their_length() {
        let mut prng = Prng::new(1);
        let mut good = 0;
        for _ in 0..TEXTS {
            let table = any_table(&mut prng);
            let text = random_text(&mut prng, &table).to_string();
            match read_text(text.as_bytes()) {
                Ok(test) => {
                    good += 1;
                    assert_eq!(test.table.initial, table.initial);
                    assert_eq!(test.table.memory_events(), table.memory_events());
                }
                Err(TextRefusal::Declined(refusal)) => {
                    assert!([Line::Length, Line::Names].contains(&refusal.line), "{text}")
                }
                Err(refusal) => panic!("{refusal}: {text}"),
            }
        }
        assert!(good > TEXTS * 9 / 10, "{good}");
    }
}
