//! The command `readings`: one line for each block of a stream of frames.

use crate::stream::{Malformed, Stream};
use crate::table::{read, Event, Table};

pub fn print_readings(input: &[u8]) -> Result<String, Malformed> {
    let mut stream = Stream::new(input);
    let mut lines = String::new();
    let mut number = 0;
    while !stream.is_empty() {
        let reading = match read(stream.frame()?) {
            Ok(table) => table_line(&table),
            Err(refusal) => refusal.to_string(),
        };
        lines.push_str(&format!("{number}: {reading}\n"));
        number += 1;
    }
    Ok(lines)
}

/// Header, initial values, final values, then each event, parted by slashes.
pub fn table_line(table: &Table) -> String {
    let Table { harts, locations, stated, model, .. } = table;
    let count = table.events.len();
    let mut parts = vec![
        format!("table {} {} {count} {} {}", harts, locations, stated, *model as u8),
        spaced(&table.initial),
        spaced(&table.finals),
    ];
    parts.extend(table.events.iter().map(event_part));
    parts.join(" / ")
}

fn event_part(event: &Event) -> String {
    let Event { kind, hart, location, flags, address, data, control, .. } = event;
    let Event { read, written, operation, operand, .. } = event;
    let (kind, operation) = (*kind as u8, *operation as u8);
    let masks = spaced(&[address, data, control]);
    format!("{kind} {hart} {location} {flags} {masks} {read} {written} {operation} {operand}")
}

/// Numbers with single spaces between them.
pub fn spaced<T: ToString>(numbers: &[T]) -> String {
    numbers.iter().map(T::to_string).collect::<Vec<_>>().join(" ")
}
