//! Times texts: their reading beside plain Rust, and a visited prefix of their search beside one of a block's.

use crate::clock::{calls_per_run, least, milliseconds, nanoseconds};
use crate::plain::Answer;
use crate::table::{Event, Table, EVENTS, NO_OPERATION};
use crate::{kept, name, proved, shapes, text, visited, ALLOWANCE, RUNS};
use std::iter::repeat_n;

/// The word after the program's name that makes this program time texts.
pub const COMMAND: &str = "texts";

const TEXTS: usize = 40_000;

/// Tables, and for each a condition of two to four parts, as a designer writes it. No order makes one true, and none has the
/// outcome that the table states: all searches of a table visit the same prefixes.
const ASKED: [(&str, &str); 16] = [
    ("9 free events", "( r1=1 and r2=99 )"),
    ("12 free events", "( ( r1=1 and r4=1 ) and r2=99 )"),
    ("12 loads, the last wrong", "( ( r0=0 and r4=0 ) and ( r8=0 and r11=99 ) )"),
    ("SB ring of 4, fences", "( ( r2=0 and r5=0 ) and ( r8=0 and r11=0 ) )"),
    ("SB ring of 4", "( r1=0 and r7=99 )"),
    ("LB ring of 4, data", "( ( r0=1 and r2=1 ) and ( r4=1 and r6=1 ) )"),
    ("LB ring of 4", "( r0=1 and r6=99 )"),
    ("WRC, fence and address", "( r1=1 and ( r4=1 and r5=0 ) )"),
    ("2+2W ring of 4, fences", "( ( x0=1 and x1=1 ) and ( x2=1 and x3=1 ) )"),
    ("2+2W ring of 4", "( x0=1 and x3=99 )"),
    ("S twice, fence and data", "( r3=1 and x0=2 )"),
    ("R twice, fences", "( x1=2 and r5=0 )"),
    ("ISA2, fence, data, address", "( r3=1 and ( r5=1 and r6=0 ) )"),
    ("message along three stores", "( r5=1 and ( r6=0 or r7=0 ) )"),
    ("SB ring of 4, own reads", "( ( r3=0 and r7=0 ) and ( r10=0 and r13=0 ) )"),
    ("12 increments", "( r0=0 and not x0=12 )"),
];

fn table(title: &str) -> Table {
    let timed = shapes::timed().into_iter().chain([("12 increments", shapes::increments())]);
    let shape = timed.into_iter().find(|(other, _)| *other == title).map(|(_, table)| table);
    shape.unwrap_or_else(|| kept::shape(title))
}

/// The line of an event: no value that follows from the order is stated.
fn line(e: &Event) -> String {
    let written = if e.operation == NO_OPERATION { e.written } else { 0 };
    let fields: [u16; 11] = [
        e.kind.into(),
        e.hart.into(),
        e.location.into(),
        e.flags.into(),
        e.addr,
        e.data,
        e.ctrl,
        0,
        written,
        e.operation.into(),
        e.operand.into(),
    ];
    spaced(&fields)
}

fn spaced(numbers: &[u16]) -> String {
    numbers.iter().map(u16::to_string).collect::<Vec<_>>().join(" ")
}

/// The text of a table's events.
fn text_of(t: &Table, condition: &str) -> Vec<u8> {
    let lines: String = t.events[..t.count].iter().map(|e| line(e) + "\n").collect();
    format!("{lines}\n{}\n{condition}\n", spaced(&t.initial[..t.locations])).into_bytes()
}

/// The whole outcome that a table states, as a condition.
fn stated(t: &Table) -> String {
    let readers = t.events[..t.count].iter().enumerate().filter(|(_, e)| e.reads());
    let reads = readers.map(|(k, e)| format!("r{k}={}", e.read));
    let locations = (0..t.locations).filter(|x| t.stated >> x & 1 == 1);
    let finals = locations.map(|x| format!("x{x}={}", t.finals[x]));
    all_of(&reads.chain(finals).collect::<Vec<_>>())
}

fn all_of(conditions: &[String]) -> String {
    match conditions {
        [one] => one.clone(),
        _ => {
            let (left, right) = conditions.split_at(conditions.len() / 2);
            format!("( {} and {} )", all_of(left), all_of(right))
        }
    }
}

/// A whole call from the empty start, of a block or of a text.
type Call = fn(&[u8]) -> Answer;

fn of_block(block: &[u8]) -> Answer {
    proved::search(block, &[], &mut [0; EVENTS], ALLOWANCE).expect("the block is good")
}

fn of_text(text: &[u8]) -> Answer {
    proved::search_text(text, &[], &mut [0; EVENTS], ALLOWANCE).expect("the text is good")
}

/// The block, the text that asks for what it states, and the text with a designer's condition. Gives the ratios of both to the
/// block.
fn time_searches(title: &str, condition: &str) -> [f64; 2] {
    let table = table(title);
    let (block, full, asked) = (table.encode(), text_of(&table, &stated(&table)), text_of(&table, condition));
    let answer = of_block(&block);
    assert!(of_text(&full) == answer && of_text(&asked) == answer, "all searches of {title} visit the same prefixes");
    let count = visited(&answer);
    let tests: [(Call, &[u8]); 3] = [(of_block, &block), (of_text, &full), (of_text, &asked)];
    let calls = calls_per_run(count);
    let times = least(RUNS, tests, |(call, test)| nanoseconds(repeat_n(test, calls), call));
    let [b, f, a] = times.map(|time| time / (calls as u64 * count) as f64);
    println!("{title:<28}{count:>9}{:>11}{b:>9.2}{f:>9.2}{:>7.2}{a:>9.2}{:>7.2}", name(&answer), f / b, a / b);
    [f / b, a / b]
}

fn time_all_searches() {
    println!("ns per visited prefix, whole calls, allowance {ALLOWANCE}, least of {RUNS} runs; ratios to the block");
    let [full, asked] = ["outcome", "asked"];
    println!(
        "{:<28}{:>9}{:>11}{:>9}{full:>9}{:>7}{asked:>9}{:>7}",
        "table", "visited", "answer", "block", "ratio", "ratio"
    );
    let ratios = ASKED.map(|(title, condition)| time_searches(title, condition));
    let largest = ratios.iter().flatten().copied().fold(0.0, f64::max);
    println!("the largest ratio is {largest:.2}");
}

type Reading = fn(&[u8]) -> Option<text::Refused>;

fn time_readings() {
    let kinds: Vec<Vec<u8>> = shapes::message_passings().iter().map(|t| text_of(t, &stated(t))).collect();
    for text in &kinds {
        assert_eq!((proved::text_refusal(text), text::refusal(text)), (None, None));
    }
    let texts: Vec<&[u8]> = kinds.iter().cycle().take(TEXTS).map(Vec::as_slice).collect();
    let forms = [proved::text_refusal as Reading, text::refusal];
    let [p, q] = least(RUNS, forms, |reading| nanoseconds(texts.iter().copied(), reading)).map(milliseconds);
    println!("\n{TEXTS} texts of message passing read, ms: proved {p:.1}, Rust {q:.1}, ratio {:.2}", p / q);
}

/// Times searches and reading.
pub fn run() {
    time_all_searches();
    time_readings();
}

#[cfg(test)]
mod tests {
    use super::*;
    use oracle::search::Answer as Other;
    use oracle::text_test::search_text;

    /// Prefixes enough to see that no order near the beginning is a witness.
    const FEW: u64 = 3_000;

    #[test]
    fn the_texts_are_good_and_no_order_among_the_first_is_a_witness() {
        for (title, condition) in ASKED {
            let table = table(title);
            assert!((8..=14).contains(&table.count), "{title}");
            assert!((2..=4).contains(&condition.matches('=').count()), "{title}");
            for text in [text_of(&table, &stated(&table)), text_of(&table, condition)] {
                assert_eq!(text::refusal(&text), None, "{title}");
                let answer = search_text(&text, &[], &mut [0; EVENTS], FEW).expect("the text is good");
                assert!(!matches!(answer, Other::Found { .. }), "{title}");
            }
        }
    }
}
