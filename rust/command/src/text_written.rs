//! A table as a test in text, whose condition asks for the table's values.

use crate::arguments::Model;
use crate::case::Case;
use crate::error::Error;
use crate::picture::model_of;
use crate::record::reads;
use crate::text_condition::Condition;
use cogthunder::{read_text, Event};

/// The text of a table that states its values.
pub fn text(case: &Case) -> Result<Vec<u8>, Error> {
    let table = &case.table;
    if model_of(table) == Model::Rvtso {
        return Err(Error::new("the test is of the model RVTSO, which a text can't state"));
    }
    let events = &table.events[..table.count.into()];
    let mut text: String = events.iter().map(line).collect();
    let initial = &table.initial[..table.locations.into()];
    let initial: Vec<String> = initial.iter().map(u16::to_string).collect();
    text.push_str(&format!("\n{}\n{}\n", initial.join(" "), stated(case)));
    read_text(text.as_bytes()).map_err(|refusal| Error::new(format!("the library declines the text, {refusal}")))?;
    Ok(text.into_bytes())
}

/// A text doesn't state what is read, nor what an operation makes of it.
fn line(event: &Event) -> String {
    let written = if event.operation == 0 { event.written } else { 0 };
    let Event { kind, hart, location, flags, address, data, control, operation, operand, .. } = event;
    format!("{kind} {hart} {location} {flags} {address} {data} {control} 0 {written} {operation} {operand}\n")
}

/// What the table states, as a condition.
fn stated(case: &Case) -> Condition {
    let table = &case.table;
    let readers = (0..table.count).filter(|&event| reads(&table.events[usize::from(event)]));
    let mut atoms: Vec<Condition> =
        readers.map(|event| Condition::Reads(event, table.events[usize::from(event)].read)).collect();
    let ends = (0..table.locations).filter(|&location| table.stated >> location & 1 == 1);
    atoms.extend(ends.map(|location| Condition::Ends(location, table.finals[usize::from(location)])));
    all(&atoms).unwrap_or_else(anything)
}

/// All of them, in halves, so that few levels are needed; None of none.
fn all(atoms: &[Condition]) -> Option<Condition> {
    match atoms {
        [] => None,
        [only] => Some(only.clone()),
        _ => {
            let (left, right) = atoms.split_at(atoms.len() / 2);
            Some(Condition::Both(Box::new(all(left)?), Box::new(all(right)?)))
        }
    }
}

/// A condition that every outcome meets.
fn anything() -> Condition {
    let some = Condition::Ends(0, 0);
    Condition::Either(Box::new(some.clone()), Box::new(Condition::Not(Box::new(some))))
}

#[cfg(test)]
mod tests {
    use super::*;
    use cogthunder::{Operation, Table};

    #[test]
    fn a_text_asks_for_the_values_of_its_table() {
        let mut table = Table::new(2, 1);
        table.amo_with(0, 0, 0, Operation::Add, 1);
        table.load(1, 0, 1);
        table.final_value(0, 1);
        let text = String::from_utf8(text(&Case::of_table(table)).unwrap()).unwrap();
        let lines = ["3 0 0 0 0 0 0 0 0 1 1", "1 1 0 0 0 0 0 0 0 0 0", "", "0", "( r0=0 and ( r1=1 and x0=1 ) )", ""];
        assert_eq!(text, lines.join("\n"));
    }

    #[test]
    fn a_text_is_of_rvwmo() {
        let mut table = Table::new(1, 1);
        table.load(0, 0, 0);
        table.tso();
        let error = text(&Case::of_table(table)).unwrap_err();
        assert_eq!(error.sentence, "the test is of the model RVTSO, which a text can't state");
    }

    #[test]
    fn a_table_of_thirty_loads_has_a_text() {
        let mut table = Table::new(4, 8);
        for event in 0..30 {
            table.load(event % 4, event % 8, 0);
        }
        (0..8).for_each(|location| table.final_value(location, 0));
        assert!(text(&Case::of_table(table)).is_ok());
    }

    #[test]
    fn a_table_without_values_asks_for_any_outcome() {
        let mut table = Table::new(1, 1);
        table.store(0, 0, 1);
        let text = String::from_utf8(text(&Case::of_table(table)).unwrap()).unwrap();
        assert!(text.ends_with("\n\n0\n( x0=0 or not x0=0 )\n"), "{text}");
    }
}
