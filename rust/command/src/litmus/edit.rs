//! Changes of the text of a litmus file: fences put in or filled, and what the file expects.

use super::cursor::Cursor;
use super::header;
use super::initial;
use super::lexer::{lex, Token};
use super::names::Names;
use super::program::{behind_labels, rows, Row};
use super::Quantifier;
use crate::error::Error;
use std::collections::{BTreeMap, BTreeSet};
use std::ops::Range;

/// An instruction of a test: its hart, and its number there.
pub type Place = (usize, usize);

/// A fence that orders nothing, and one that orders everything.
pub const EMPTY: &str = "fence 0,0";
pub const FULL: &str = "fence rw,rw";

/// Where an instruction stands in its file: its own words, and the row that it is in.
struct Span {
    words: Range<usize>,
    row: Range<usize>,
}

/// Puts a fence behind each of some instructions, in a row of its own.
pub fn with_fences(text: &str, behind: &[Place], fence: &str) -> Result<String, Error> {
    let spans = spans(text)?;
    let mut more: BTreeMap<usize, (Range<usize>, BTreeSet<usize>)> = BTreeMap::new();
    for &(hart, instruction) in behind {
        let row = &spans[hart][instruction].row;
        more.entry(row.end).or_insert((row.clone(), BTreeSet::new())).1.insert(hart);
    }
    let mut text = text.to_string();
    for (end, (row, harts)) in more.into_iter().rev() {
        let row = fence_row(&text[row], spans.len(), &harts, fence);
        text.insert_str(end, &row);
    }
    Ok(text)
}

/// A row with a fence for some harts, below a row whose columns it keeps to where that stands on a line of its own.
fn fence_row(above: &str, count: usize, harts: &BTreeSet<usize>, fence: &str) -> String {
    let above = above.trim_start_matches(['\r', '\n']).trim_end_matches(';');
    let cells: Vec<&str> = above.split('|').collect();
    let is_plain = cells.len() == count && !["\n", "(*", "//"].iter().any(|part| above.contains(part));
    let width = |hart: usize| if is_plain { cells[hart].chars().count() } else { 0 };
    let cell = |hart: usize| {
        let words = if harts.contains(&hart) { format!(" {fence} ") } else { " ".to_string() };
        format!("{words:width$}", width = width(hart))
    };
    format!("\n{};", (0..count).map(cell).collect::<Vec<String>>().join("|"))
}

/// Fills some of the text's own fences.
pub fn with_filled(text: &str, fences: &[Place]) -> Result<String, Error> {
    let spans = spans(text)?;
    let mut words: Vec<Range<usize>> =
        fences.iter().map(|&(hart, instruction)| spans[hart][instruction].words.clone()).collect();
    words.sort_by_key(|words| words.start);
    let mut text = text.to_string();
    for words in words.into_iter().rev() {
        text.replace_range(words, FULL);
    }
    Ok(text)
}

/// The text of a test that expects its outcome to be forbidden, if it expects anything.
pub fn expecting_forbidden(text: &str, quantifier: Quantifier) -> Result<String, Error> {
    let header = header::read(text)?;
    let result = header.result.or(lex(header.body, header.body_line)?.result);
    let mut changed = text.to_string();
    if let Some((word, _)) = result {
        let at = offset(text, word);
        changed.replace_range(at..at + word.len(), if quantifier == Quantifier::Forall { "Always" } else { "Never" });
    }
    Ok(changed)
}

/// Where a part of a text begins in it.
fn offset(text: &str, part: &str) -> usize {
    part.as_ptr() as usize - text.as_ptr() as usize
}

/// Where the instructions of each hart stand.
fn spans(text: &str) -> Result<Vec<Vec<Span>>, Error> {
    let header = header::read(text)?;
    let mut cursor = Cursor::of(lex(header.body, header.body_line)?);
    initial::read(&mut cursor, &mut Names::default())?;
    let rows = rows(&mut cursor)?;
    let past = |token: &Token| offset(text, token.text) + token.text.len();
    let mut harts: Vec<Vec<Span>> = Vec::new();
    harts.resize_with(rows[0].cells.len(), Vec::new);
    let mut begin = past(&rows[0].end);
    for Row { cells, end } in &rows[1..] {
        let row = begin..past(end);
        for (spans, cell) in harts.iter_mut().zip(cells) {
            if let instruction @ [first, ..] = behind_labels(cell) {
                let last = &instruction[instruction.len() - 1];
                spans.push(Span { words: offset(text, first.text)..past(last), row: row.clone() });
            }
        }
        begin = row.end;
    }
    Ok(harts)
}

#[cfg(test)]
mod tests {
    use super::*;

    const TEXT: &str = "RISCV a\nResult=Sometimes\n{ 0:x5=x; 1:x5=x; }\n P0          | P1             ;\n \
                        lw x6,0(x5) | L: lw x6,0(x5) ;\n bne x6,x0,M |                ;\n M: lw x7,0(x5) (* ; *) | fence 0 , 0 ; \
                        | lw x7,0(x5) ;\nexists (0:x6=1)\n";

    #[test]
    fn a_fence_stands_in_a_row_of_its_own() {
        let text = with_fences(TEXT, &[(0, 0), (1, 0)], FULL).unwrap();
        assert!(text.contains(" | L: lw x6,0(x5) ;\n fence rw,rw | fence rw,rw    ;\n bne x6,x0,M |"), "{text}");
        let text = with_fences(TEXT, &[(1, 0)], EMPTY).unwrap();
        assert!(text.contains(" ;\n             | fence 0,0      ;\n bne x6,x0,M |"), "{text}");
        // The row has a comment, and another one stands behind it on its line.
        let text = with_fences(TEXT, &[(0, 2)], EMPTY).unwrap();
        assert!(text.contains("| fence 0 , 0 ;\n fence 0,0 | ; | lw x7,0(x5) ;\nexists"), "{text}");
    }

    #[test]
    fn fences_are_filled_where_they_stand() {
        let text = with_filled(TEXT, &[(1, 1)]).unwrap();
        assert_eq!(text, TEXT.replace("fence 0 , 0", FULL));
    }

    #[test]
    fn the_expectation_is_changed() {
        let expecting = |text: &str, quantifier| expecting_forbidden(text, quantifier).unwrap();
        assert_eq!(expecting(TEXT, Quantifier::Exists), TEXT.replace("Sometimes", "Never"));
        assert_eq!(expecting(TEXT, Quantifier::Forall), TEXT.replace("Sometimes", "Always"));
        let comment = TEXT.replace("Result=Sometimes", "").replace("(* ; *)", "(* Result: Sometimes *)");
        assert_eq!(expecting(&comment, Quantifier::Exists), comment.replace("Sometimes", "Never"));
        let without = TEXT.replace("Result=Sometimes\n", "");
        assert_eq!(expecting(&without, Quantifier::Exists), without);
    }
}
