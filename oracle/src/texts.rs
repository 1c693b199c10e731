//! The command `texts`: one line for each call of a stream of calls on texts.

use crate::candidates::LEND;
use crate::readings::table_line;
use crate::stream::{Malformed, Stream};
use crate::text_test::read_text;
use crate::walks::{single_part, walk_part, Given, Walk, SEARCH, WALK};

/// Tag of a call that reads the text. Those of searches are the first engine's.
pub const READ: u8 = b'T';

pub fn print_texts(input: &[u8]) -> Result<String, Malformed> {
    let mut stream = Stream::new(input);
    let mut text: &[u8] = &[];
    let mut walk = Walk::over(Given::Text);
    let mut lines = String::new();
    let mut number = 0;
    while !stream.is_empty() {
        let answer = match stream.byte()? {
            LEND => {
                text = stream.frame()?;
                walk = Walk::over(Given::Text);
                continue;
            }
            READ => reading(text),
            SEARCH => single_part(&mut stream, Given::Text, text)?,
            WALK => walk_part(&mut stream, &mut walk, text)?,
            _ => return Err(Malformed),
        };
        lines.push_str(&format!("{number}: {answer}\n"));
        number += 1;
    }
    Ok(lines)
}

/// The table, or the refusal.
fn reading(text: &[u8]) -> String {
    read_text(text).map_or_else(|refusal| refusal.to_string(), |test| table_line(&test.table))
}
