//! A table with the names and the instructions that it stands for.

use crate::arguments::Model;
use crate::choices::Choice;
use crate::error::Error;
use crate::litmus::{AccessKind, AmoOp, Test};
use crate::record::{AMOS, KINDS, MOST_EVENTS};
use crate::run::{Event, EventKind};
use cogthunder::{Accesses, Operation, Table};

/// A table that goes to the library, and what a reader needs to understand it.
#[derive(Clone, Debug)]
pub struct Case {
    pub table: Table,
    /// The names of the table's locations.
    pub locations: Vec<String>,
    /// The instruction of each event.
    pub texts: Vec<String>,
    /// Whether the values read aren't stated, nor what AMOs make of them.
    pub is_open: bool,
}

/// Names for the locations of a table that comes without.
const LOCATIONS: [&str; 8] = ["x", "y", "z", "w", "a", "b", "c", "d"];

impl Case {
    /// A table that comes without names.
    pub fn of_table(table: Table) -> Case {
        let locations = LOCATIONS[..table.locations.into()].iter().map(|name| name.to_string()).collect();
        let texts = table.events[..table.count.into()].iter().map(words).collect();
        Case { table, locations, texts, is_open: false }
    }

    /// The table of a choice. Only locations that are accessed or stated are in it.
    pub fn of(test: &Test, choice: &Choice) -> Result<Case, Error> {
        let used = used_locations(test, choice);
        let number = |location: usize| used.iter().position(|&other| other == location).expect("it is used") as u8;
        let mut table = Table::new(test.harts.len() as u8, used.len() as u8);
        if test.model == Model::Rvtso {
            table.tso();
        }
        let mut texts = Vec::new();
        for (hart, run) in choice.runs.iter().enumerate() {
            let first = texts.len() as u32;
            if texts.len() + run.events.len() > MOST_EVENTS {
                return Err(Error::new("the harts have more than thirty events, and a test has at most thirty"));
            }
            for event in &run.events {
                add(&mut table, hart as u8, number_of(event, &number), event, first);
                texts.push(test.harts[hart].program[event.instruction].text.clone());
            }
        }
        for &location in &used {
            table.initial_value(number(location), test.initial[location]);
        }
        for &(location, value) in &choice.finals {
            table.final_value(number(location), value);
        }
        let locations = used.iter().map(|&location| test.locations[location].clone()).collect();
        Ok(Case { table, locations, texts, is_open: false })
    }
}

/// The kind of an event that comes without an instruction, and the operation of an AMO.
fn words(event: &cogthunder::Event) -> String {
    match event.operation {
        0 => KINDS[usize::from(event.kind)].to_string(),
        operation => format!("{} {}", AMOS[usize::from(operation)], event.operand),
    }
}

fn used_locations(test: &Test, choice: &Choice) -> Vec<usize> {
    let is_accessed = |location: usize| {
        choice
            .runs
            .iter()
            .flat_map(|run| &run.events)
            .any(|event| matches!(event.kind, EventKind::Access(_)) && event.location == location)
    };
    let is_stated = |location: usize| choice.finals.iter().any(|&(other, _)| other == location);
    (0..test.locations.len()).filter(|&location| is_accessed(location) || is_stated(location)).collect()
}

/// A fence has location 0.
fn number_of(event: &Event, number: &dyn Fn(usize) -> u8) -> u8 {
    match event.kind {
        EventKind::Access(_) => number(event.location),
        _ => 0,
    }
}

/// Adds an event; `first` is the number of its hart's first one, by which its masks are moved.
fn add(table: &mut Table, hart: u8, location: u8, event: &Event, first: u32) {
    let (read, written) = (event.read.unwrap_or(0), event.written.unwrap_or(0));
    let added = match event.kind {
        EventKind::Access(AccessKind::Load) => table.load(hart, location, read),
        EventKind::Access(AccessKind::Store) => table.store(hart, location, written),
        EventKind::Access(AccessKind::Lr) => table.lr(hart, location, read),
        EventKind::Access(AccessKind::Sc) => table.sc(hart, location, written),
        EventKind::Access(AccessKind::Amo(op)) => match operation(op, event) {
            Some((operation, operand)) => table.amo_with(hart, location, read, operation, operand),
            None => table.amo(hart, location, read, written),
        },
        EventKind::Fence => table.fence(hart, Accesses::None, Accesses::None),
        EventKind::FenceTso => table.fence_tso(hart),
    };
    let record = &mut table.events[usize::from(added)];
    record.flags = event.flags;
    record.address = event.address << first;
    record.data = event.data << first;
    record.control = event.control << first;
}

/// The operation and operand of an AMO where a table can say them: the operand is one byte, and the value written is what
/// the operation makes of 16 bits. Else the table states the value written.
fn operation(op: AmoOp, event: &Event) -> Option<(Operation, u8)> {
    let operation = match op {
        AmoOp::Swap => return None,
        AmoOp::Add => Operation::Add,
        AmoOp::And => Operation::And,
        AmoOp::Or => Operation::Or,
        AmoOp::Xor => Operation::Xor,
        AmoOp::Larger | AmoOp::LargerUnsigned => Operation::Larger,
        AmoOp::Smaller | AmoOp::SmallerUnsigned => Operation::Smaller,
    };
    let operand = u8::try_from(event.operand).ok()?;
    (Some(operation.apply(event.read?, operand)) == event.written).then_some((operation, operand))
}

#[cfg(test)]
mod tests {
    use super::*;
    use crate::choices::Choices;
    use crate::litmus::read;

    /// The table of the first choice.
    fn table(initial: &str, rows: &str) -> Table {
        let test = read(&format!("RISCV a\n{{ 0:x5=1; 0:x6=x; 0:x7=y; {initial} }}\nP0 ;\n{rows}")).unwrap();
        let mut first = None;
        Choices::asked(&test)
            .and_then(|choices| {
                choices.visit(&mut |choice| {
                    first = Some(Case::of(&test, &choice)?.table);
                    Ok(false)
                })
            })
            .unwrap();
        first.expect("there is a choice")
    }

    #[test]
    fn only_locations_that_are_accessed_or_stated_are_in_the_table() {
        let only_y = table("x=3; y=4;", "fence rw,w ; lw x8,0(x7) ;\nexists (true)");
        assert_eq!((only_y.locations, only_y.initial[0], only_y.events[1].location), (1, 4, 0));
        let both = table("x=3; y=4;", "lw x8,0(x7) ;\nexists x=3");
        assert_eq!((both.locations, both.stated, both.events[0].location), (2, 1, 1));
    }

    #[test]
    fn an_operation_is_said_where_its_operand_is_a_byte() {
        let operation = |initial: &str, word: &str| {
            let event = table(initial, &format!("{word} x8,x9,(x6) ;\nexists (true)")).events[0];
            (event.operation, event.operand, event.written)
        };
        assert_eq!(operation("0:x9=255;", "amoadd.w"), (1, 255, 255));
        assert_eq!(operation("0:x9=256;", "amoadd.w"), (0, 0, 256));
        assert_eq!(operation("0:x9=7;", "amoswap.w"), (0, 0, 7));
        assert_eq!(operation("0:x9=7;", "amomax.w"), (5, 7, 7));
        assert_eq!(operation("x=9; 0:x9=7;", "amominu.w"), (6, 7, 7));
        assert_eq!(operation("0:x9=-1;", "amomax.w"), (0, 0, 0));
    }

    #[test]
    fn masks_are_moved_to_the_events_of_the_table() {
        let columns = "P0 | P1 ;\nlw x8,0(x6) | lw x8,0(x6) ;\n | sw x8,0(x7) ;\nexists (true)";
        let text = format!("RISCV a\n{{ 0:x6=x; 1:x6=x; 1:x7=y; }}\n{columns}");
        let test = read(&text).unwrap();
        let mut data = 0;
        let choices = Choices::asked(&test).unwrap();
        choices
            .visit(&mut |choice| Case::of(&test, &choice).map(|case| data = case.table.events[2].data).map(|()| false))
            .unwrap();
        assert_eq!(data, 0b10);
    }
}
