//! The test that a text gives, the lines by which reading refuses it, and the search for an order
//! that makes its condition true.

use crate::condition::Condition;
use crate::layout::{Edition, MAX_HARTS, MAX_LOCATIONS};
use crate::rules::is_lawful;
use crate::search::{Answer, Engine, Prefixes};
use crate::table::{
    form_broken, refuse_if, refuse_table, refuse_unused, Event, Line, Model, Refusal, Table,
};
use crate::text::{read_document, Breach, Document};
use std::fmt;

/// "A text of up to 2,048 bytes (longer is refusal 1)"
pub const MAX_LENGTH: usize = 2048;

#[derive(Clone, PartialEq, Eq, Debug)]
pub struct TextTest {
    pub table: Table,
    pub condition: Condition,
}

/// 19 and 20 have a place; the other lines are as for a block.
#[derive(Clone, Copy, PartialEq, Eq, Debug)]
pub enum TextRefusal {
    Illegal(Breach),
    Declined(Refusal),
}

impl TextRefusal {
    pub fn line(&self) -> Line {
        match self {
            TextRefusal::Illegal(breach) => breach.line,
            TextRefusal::Declined(refusal) => refusal.line,
        }
    }
}

impl From<Breach> for TextRefusal {
    fn from(breach: Breach) -> TextRefusal {
        TextRefusal::Illegal(breach)
    }
}

impl From<Refusal> for TextRefusal {
    fn from(refusal: Refusal) -> TextRefusal {
        TextRefusal::Declined(refusal)
    }
}

impl fmt::Display for TextRefusal {
    fn fmt(&self, out: &mut fmt::Formatter) -> fmt::Result {
        match self {
            TextRefusal::Illegal(breach) => breach.fmt(out),
            TextRefusal::Declined(refusal) => refusal.fmt(out),
        }
    }
}

/// 19 and 20; "then 5 to 11 follow on the table .., and then 23: the condition names an event that
/// doesn't read or a location not in the test". 21 is checked "in texts after 23", "where a location
/// named by `x` counts as stated".
pub fn read_text(text: &[u8]) -> Result<TextTest, TextRefusal> {
    refuse_if(text.len() > MAX_LENGTH, Line::Length)?;
    let document = read_document(text)?;
    let table = table_of(&document)?;
    refuse_table(&table)?;
    refuse_if(document.condition.names_wrong(&table), Line::Names)?;
    refuse_unused(&table, |location| document.condition.names_end_of(location))?;
    Ok(TextTest { table, condition: document.condition })
}

/// The table of a legal text: "texts are of model 0". It states no final value, so that no byte named zero is left for 6;
/// refuses by 5 and 7.
fn table_of(document: &Document) -> Result<Table, Refusal> {
    let (harts, locations) = least_numbers(document);
    let events = document.events.len();
    let in_range = (1..=MAX_HARTS).contains(&harts)
        && (1..=MAX_LOCATIONS).contains(&locations)
        && (1..=Edition::Two.max_events()).contains(&events);
    refuse_if(!in_range, Line::Ranges)?;
    let given = |l: usize| document.initial.get(l).copied();
    let mut table = Table {
        harts,
        locations,
        stated: 0,
        model: Model::Rvwmo,
        initial: std::array::from_fn(|l| given(l).unwrap_or(0)),
        finals: [0; MAX_LOCATIONS],
        events: Vec::new(),
    };
    for (record, event) in document.events.iter().enumerate() {
        let in_range = event.typed().filter(|event| !fields_broken(&table, event));
        table.events.push(in_range.ok_or(Refusal { line: Line::Fields, record: Some(record) })?);
    }
    Ok(table)
}

/// "The number of harts and locations is the least that covers the fields and the initial values."
fn least_numbers(document: &Document) -> (usize, usize) {
    let events = || document.events.iter();
    let harts = events().map(|event| usize::from(event.hart) + 1).max().unwrap_or(0);
    let locations = events().map(|event| usize::from(event.location) + 1).max().unwrap_or(0);
    (harts, locations.max(document.initial.len()))
}

/// 7, of a text: "The value read must be 0 in every line, and so must the written value of an AMO
/// with an operation".
fn fields_broken(table: &Table, event: &Event) -> bool {
    let states_values = event.read != 0 || event.has_operation() && event.written != 0;
    form_broken(table, event) || states_values
}

/// "For such a test a witness is a lawful order that makes the condition true". "The first engine's
/// definition is otherwise the same".
pub fn search_text(
    text: &[u8],
    start: &[u8],
    buffer: &mut [u8],
    allowance: u64,
) -> Result<Answer, TextRefusal> {
    let TextTest { table, condition } = read_text(text)?;
    let is_witness = |order: &[usize]| is_lawful(&table, order) && condition.holds(&table, order);
    let prefixes = Prefixes::of(&table, Engine::First);
    Ok(prefixes.search(&is_witness, start, buffer, allowance)?)
}
