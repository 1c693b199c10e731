//! The command `writes`: one line for each table of a stream.

use crate::candidates::buffer_part;
use crate::raw::{write, RawTable};
use crate::stream::{Malformed, Stream, PREFILL};

pub fn print_writes(input: &[u8]) -> Result<String, Malformed> {
    let mut stream = Stream::new(input);
    let mut lines = String::new();
    let mut number = 0;
    while !stream.is_empty() {
        let table = RawTable::take_from(&mut stream)?;
        let mut buffer = vec![PREFILL; stream.word()?.into()];
        let answer = match write(&table, &mut buffer) {
            Err(refusal) => refusal.to_string(),
            Ok(()) => "written".to_string(),
        };
        lines.push_str(&format!("{number}: {answer}, {}\n", buffer_part(&buffer)));
        number += 1;
    }
    Ok(lines)
}
