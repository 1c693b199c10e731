//! A table in columns, and a witness as a list, as text.

use crate::arguments::Model;
use crate::case::Case;
use crate::decider::Witness;
use crate::record::{reads, writes, ANNOTATIONS, FENCE, FENCE_TSO};
use cogthunder::{Event, Table, INITIALLY, NOTHING};

/// Whether an event of the table is a fence.
pub fn is_fence(event: &Event) -> bool {
    matches!(event.kind, FENCE | FENCE_TSO)
}

/// The model of a table that the library accepts.
pub fn model_of(table: &Table) -> Model {
    if table.model == 0 {
        Model::Rvwmo
    } else {
        Model::Rvtso
    }
}

/// The line that names the model where it isn't RVWMO.
pub fn model_line(case: &Case) -> Option<String> {
    Some(model_of(&case.table)).filter(|&model| model != Model::Rvwmo).map(|model| format!("model {model}"))
}

/// `fence rw, w`, for the flags of a fence.
pub fn fence_words(flags: u8) -> String {
    let set = |bits: u8| ["0", "r", "w", "rw"][usize::from(bits & 3)];
    format!("fence {}, {}", set(flags), set(flags >> 2))
}

/// The events whose bits are in a mask.
pub fn members(mask: u32) -> Vec<u8> {
    (0..32).filter(|&bit| mask >> bit & 1 == 1).collect()
}

/// What an event reads and writes, as in `x=0`.
pub fn values_read_and_written(case: &Case, event: &Event) -> (Option<String>, Option<String>) {
    let name = &case.locations[usize::from(event.location)];
    let value = |value: u16, is_open: bool| if is_open { "?".to_string() } else { value.to_string() };
    let read = format!("{name}={}", value(event.read, case.is_open));
    let written = format!("{name}={}", value(event.written, case.is_open && event.operation != 0));
    (reads(event).then_some(read), writes(event).then_some(written))
}

/// The same as in `R x=0, W x=1`; `from` says where a value read is from.
fn values(case: &Case, event: &Event, from: &str) -> String {
    let (read, written) = values_read_and_written(case, event);
    let parts =
        read.map(|read| format!("R {read}{from}")).into_iter().chain(written.map(|written| format!("W {written}")));
    parts.collect::<Vec<String>>().join(", ")
}

/// The parts of an event behind its instruction.
pub fn details(case: &Case, event: &Event) -> Vec<String> {
    if is_fence(event) {
        return Vec::new();
    }
    let mut parts = vec![values(case, event, "")];
    for (bit, words) in ANNOTATIONS.iter().enumerate() {
        if event.flags >> bit & 1 == 1 {
            parts.push(words.to_string());
        }
    }
    for (kind, mask) in [("address", event.address), ("data", event.data), ("control", event.control)] {
        if mask != 0 {
            let on: Vec<String> = members(mask).iter().map(|event| format!("({event})")).collect();
            parts.push(format!("{kind} from {}", on.join(" ")));
        }
    }
    parts
}

/// An event in its column: number, instruction and details, the instructions padded to one width.
fn cell(case: &Case, number: usize, width: usize) -> String {
    let event = &case.table.events[number];
    let text = instruction(case, number);
    let details = details(case, event).join(", ");
    format!("({number}) {text:width$}  {details}").trim_end().to_string()
}

/// The instruction of an event; a block has only the sets of its fences.
pub fn instruction(case: &Case, number: usize) -> String {
    match case.texts[number].as_str() {
        "fence" => fence_words(case.table.events[number].flags),
        text => text.to_string(),
    }
}

/// The table in columns, a line each.
pub fn columns(case: &Case) -> Vec<String> {
    let harts = usize::from(case.table.harts);
    let columns: Vec<Vec<String>> = (0..harts).map(|hart| column(case, hart)).collect();
    let widths: Vec<usize> =
        columns.iter().map(|cells| cells.iter().map(|cell| cell.len()).max().unwrap_or(0)).collect();
    let height = columns.iter().map(Vec::len).max().unwrap_or(0);
    let mut lines: Vec<String> = (0..height).map(|row| line(&columns, &widths, row)).collect();
    let rule: Vec<String> = widths.iter().map(|width| "-".repeat(width + 2)).collect();
    lines.insert(1, rule.join("+"));
    lines
}

/// The head and the events of a hart.
fn column(case: &Case, hart: usize) -> Vec<String> {
    let events: Vec<usize> =
        (0..case.texts.len()).filter(|&k| usize::from(case.table.events[k].hart) == hart).collect();
    let width = events.iter().map(|&k| instruction(case, k).len()).max().unwrap_or(0);
    let mut cells = vec![format!("P{hart}")];
    cells.extend(events.iter().map(|&k| cell(case, k, width)));
    cells
}

fn line(columns: &[Vec<String>], widths: &[usize], row: usize) -> String {
    let cell = |(column, width): (&Vec<String>, &usize)| {
        format!(" {:width$} ", column.get(row).map_or("", |cell| cell.as_str()), width = *width)
    };
    let cells: Vec<String> = columns.iter().zip(widths).map(cell).collect();
    cells.join("|").trim_end().to_string()
}

/// The initial values of the table, as `x=0; y=0`.
pub fn initial(case: &Case) -> String {
    let values = case.locations.iter().zip(&case.table.initial).map(|(name, value)| format!("{name}={value}"));
    values.collect::<Vec<String>>().join("; ")
}

/// The stated final values; empty if there is none.
pub fn finals(case: &Case) -> String {
    let stated = (0..case.locations.len()).filter(|location| case.table.stated >> location & 1 == 1);
    let values = stated.map(|location| format!("{}={}", case.locations[location], case.table.finals[location]));
    values.collect::<Vec<String>>().join("; ")
}

/// The events of a witness in its order, a line each, with what each reader returns from.
pub fn order(witness: &Witness) -> Vec<String> {
    let case = &witness.case;
    let width = (0..case.texts.len()).map(|k| instruction(case, k).len()).max().unwrap_or(0);
    let line = |&number: &u8| {
        let (k, event) = (usize::from(number), &case.table.events[usize::from(number)]);
        let from = match witness.returned[k] {
            NOTHING => String::new(),
            INITIALLY => " initially".to_string(),
            writer => format!(" from ({writer})"),
        };
        format!("({number}) P{} {:width$}  {}", event.hart, instruction(case, k), values(case, event, &from))
    };
    witness.order.iter().map(line).collect()
}
