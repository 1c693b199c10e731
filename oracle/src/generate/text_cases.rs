//! Texts at the edges of the grammar, of its numbers and lengths, and of the table.

use super::breaches::{base, base_block, breaches, Breach};
use super::readings::breaches_of_two_records;
use super::texts::text_of;
use crate::layout::{MAX_HARTS, MAX_LOCATIONS, MOST_EVENTS};
use crate::litmus::*;
use crate::raw::RawTable;
use crate::record::RawEvent;
use crate::table::Line;
use crate::text::{Document, MAX_LEVELS};
use crate::text_test::MAX_LENGTH;

pub const LOAD: &str = "1 0 0 0 0 0 0 0 0 0 0";
pub const STORE: &str = "2 0 0 0 0 0 0 0 1 0 0";
pub const FENCE: &str = "6 0 0 15 0 0 0 0 0 0 0";

/// A text of some lines of events, initial values and a condition.
pub fn text(lines: &[&str], initial: &str, condition: &str) -> String {
    let lines: String = lines.iter().map(|line| format!("{line}\n")).collect();
    format!("{lines}\n{initial}\n{condition}\n")
}

/// What is before a number, what is behind it, and the largest that may stand there.
pub type OpenNumber = (String, String, u64);

/// A text for each field of a line, and for each number outside of one.
pub fn open_numbers() -> Vec<OpenNumber> {
    let (byte, value, mask) = (255, 65_535, 4_294_967_295);
    let fields = [byte, byte, byte, byte, mask, mask, mask, value, value, byte, byte];
    let tail = "\n\n0\nr0=0\n";
    let in_line = fields.iter().enumerate().map(|(field, &most)| {
        ("0 ".repeat(field), " 0".repeat(fields.len() - field - 1) + tail, most)
    });
    let elsewhere = [
        ("\n", "\nr0=0\n", value),
        ("\n0 0 ", " 0\nr0=0\n", value),
        ("\n0\nr", "=0\n", byte),
        ("\n0\nx", "=0\n", byte),
        ("\n0\nr0=", "\n", value),
        ("\n0\nnot x0=", "\n", value),
    ];
    let owned = |(before, behind, most): (&str, &str, u64)| (before.into(), behind.into(), most);
    in_line.chain(elsewhere.map(owned)).collect()
}

/// Each number at its bound, one above, with a digit too many, with leading zeros, and none at all.
pub fn numbers() -> Vec<String> {
    let number = |(before, behind, most): OpenNumber| {
        let numbers = [1, most - 1, most, most + 1, 10 * most].map(|number| number.to_string());
        let others = ["", "00", "01", "-1", "x"].map(str::to_string);
        let long = ["9".repeat(40), format!("0{most}")];
        let all = numbers.into_iter().chain(others).chain(long);
        all.map(move |digits| format!("{before}{digits}{behind}"))
    };
    open_numbers().into_iter().flat_map(number).collect()
}

/// A level of a condition: what opens it, and what closes it.
type Level = (&'static str, &'static str);

const NOT: Level = ("not ", "");

/// Brackets that are true if what is inside them is, with `r0=0` and `x0=0` true.
const BRACKETS: [Level; 4] =
    [("( ", " or r0=1 )"), ("( x0=0 and ", " )"), ("( r0=1 or ", " )"), ("( ", " and r0=0 )")];

/// Seven, eight and nine levels by each mixture of `not` and brackets.
pub fn levels() -> Vec<String> {
    let depths = MAX_LEVELS - 1..=MAX_LEVELS + 1;
    depths.flat_map(|depth| (0..1 << depth).map(move |mixture| nested(depth, mixture))).collect()
}

/// A level is a bracket where the mixture has a bit; brackets of all kinds take turns.
fn nested(depth: usize, mixture: usize) -> String {
    let (mut opened, mut closed) = (String::new(), String::new());
    for level in 0..depth {
        let is_bracket = mixture >> level & 1 == 1;
        let (open, close) =
            if is_bracket { BRACKETS[(mixture + level) % BRACKETS.len()] } else { NOT };
        opened.push_str(open);
        closed.insert_str(0, close);
    }
    text(&[LOAD], "0", &format!("{opened}r0=0{closed}"))
}

/// A condition that names so many locations by `x`, or all that a test can have, as line 21 wants it
/// where no memory event touches them.
fn each_end(locations: usize) -> String {
    let ends: Vec<String> =
        (0..locations.min(MAX_LOCATIONS)).map(|location| format!("x{location}=0")).collect();
    any_of(&ends.iter().map(String::as_str).collect::<Vec<_>>())
}

/// Numbers of events, of initial values, of harts and of locations, about their bounds and far above.
pub fn counts() -> Vec<String> {
    let loads = |count: usize| text(&vec![LOAD; count], "0", "r0=0");
    let values = |count: usize| text(&[LOAD], &vec!["0"; count].join(" "), &each_end(count));
    let field = |kind: u8, hart: usize, location: usize| {
        let line = format!("{kind} {hart} {location} 0 0 0 0 0 0 0 0");
        text(&[LOAD, &line], "0", &each_end(location.max(1)))
    };
    let (most, harts, locations) = (MOST_EVENTS, MAX_HARTS, MAX_LOCATIONS);
    let mut texts: Vec<String> = [0, 1, 16, 17, most - 1, most, most + 1, 80].map(loads).to_vec();
    texts.extend([1, 2, locations - 1, locations, locations + 1, 300].map(values));
    texts.push(text(&vec![LOAD; most + 1], &["0"; 9].join(" "), "r0=0"));
    texts.push(text(&[], &["0"; 9].join(" "), "x0=0"));
    // On a load and on a fence.
    for kind in [1, 6] {
        texts.extend([harts - 1, harts, 255].map(|hart| field(kind, hart, 0)));
        texts.extend([locations - 1, locations, 255].map(|location| field(kind, 0, location)));
    }
    texts
}

/// Fences alone, which are refused by 11, with breaches of other lines.
pub fn fences() -> Vec<String> {
    let texts = [
        (FENCE, "x0=0"),
        ("7 3 0 0 0 0 0 0 0 0 0", "x0=0"),
        // Names come later, other lines before.
        (FENCE, "r0=0"),
        (FENCE, "x1=0"),
        ("6 0 0 16 0 0 0 0 0 0 0", "x0=0"),
        ("7 0 0 1 0 0 0 0 0 0 0", "x0=0"),
        ("6 0 0 15 0 0 1 0 0 0 0", "x0=0"),
    ];
    texts.map(|(line, condition)| text(&[line, FENCE], "0", condition)).to_vec()
}

/// A good text of that many bytes, with a condition of many parts.
fn of_length(length: usize) -> Vec<u8> {
    let whole = |atoms: &[&str]| text(&[LOAD], "0", &any_of(atoms));
    let (one, two) = (whole(&["r0=0"]).len(), whole(&["r0=0"; 2]).len());
    let mut atoms = vec!["r0=0"; 1 + (length - one) / (two - one)];
    let missing = length - whole(&atoms).len();
    atoms[..missing].fill("r0=10");
    whole(&atoms).into_bytes()
}

/// That one of some atoms holds, in as few levels as will do.
fn any_of(atoms: &[&str]) -> String {
    match atoms {
        [atom] => atom.to_string(),
        _ => {
            let (left, right) = atoms.split_at(atoms.len() / 2);
            format!("( {} or {} )", any_of(left), any_of(right))
        }
    }
}

/// Texts about as long as may be: good ones, ones with a breach at their end, and other bytes.
pub fn lengths() -> Vec<Vec<u8>> {
    let mut texts = Vec::new();
    for length in [MAX_LENGTH - 1, MAX_LENGTH, MAX_LENGTH + 1] {
        let good = of_length(length);
        let cut = of_length(length + 1)[..length].to_vec();
        let followed = [of_length(length - 1), vec![b'\n']].concat();
        texts.extend([good, cut, followed, vec![b'0'; length], vec![255; length]]);
    }
    // As many values behind 80 lines of events as there is room for, and a byte more.
    let values = (MAX_LENGTH - text(&[STORE; 80], "0", "x0=0").len()) / 2;
    for first in ["0", "10"] {
        let initial = first.to_string() + &" 0".repeat(values);
        texts.push(text(&[STORE; 80], &initial, "x0=0").into_bytes());
    }
    texts
}

/// The base's text with each breach of a line that names a record, and with two of them; and with each
/// of line 21.
pub fn broken_tables() -> Vec<String> {
    let is_of_record =
        |breach: &Breach| breach.record.is_some() || breach.line == Line::UnusedLocation;
    let broken = |breach: Breach| {
        let mut block = base_block();
        breach.apply(&mut block);
        block
    };
    let single = breaches().into_iter().filter(is_of_record).map(broken);
    single.chain(breaches_of_two_records()).map(|block| broken_text(&block)).collect()
}

/// The base's text with the fields in which a block differs from the base's block.
fn broken_text(block: &[u8]) -> String {
    let (good, broken) = (RawTable::of_block(&base_block()), RawTable::of_block(block));
    let base = text_of(&base());
    let fields = good.events.iter().zip(&broken.events);
    let lines = base.events.iter().zip(fields).map(|(line, (good, broken))| RawEvent {
        read: if broken.read == good.read { line.read } else { broken.read },
        written: if broken.written == good.written { line.written } else { broken.written },
        ..*broken
    });
    Document { events: lines.collect(), ..base }.to_string()
}

/// Values that a line must not state, and some that it may.
pub fn stated_values() -> Vec<String> {
    let mut lines: Vec<String> =
        (1..=7).map(|kind| format!("{kind} 0 0 0 0 0 0 1 0 0 0")).collect();
    for operation in 0..=7 {
        for (written, operand) in [(0, 5), (0, 0), (1, 5), (5, 5), (65_535, 0)] {
            lines.push(format!("3 0 0 0 0 0 0 0 {written} {operation} {operand}"));
        }
    }
    lines.push("2 0 0 0 0 0 0 0 0 1 0".to_string());
    lines.push("5 0 0 0 0 0 0 0 1 0 1".to_string());
    let before = "4 0 0 0 0 0 0 0 0 0 0";
    lines.iter().map(|line| text(&[before, line], "0", "r0=0")).collect()
}

/// Conditions that name readers and locations of the test, and ones that name others: alone, under
/// `not`, and deep on either side.
pub fn names() -> Vec<String> {
    let lines = [STORE, LOAD, FENCE, "3 0 1 0 0 0 0 0 2 0 0", "4 1 0 0 0 0 0 0 0 0 0"];
    let mut texts = Vec::new();
    for name in [
        "r0=1", "r1=0", "r2=0", "r3=0", "r4=1", "r5=0", "r29=0", "r30=0", "r31=0", "r32=0",
        "r33=0", "r255=0", "x0=1", "x1=2", "x2=0", "x7=0", "x8=0", "x9=0", "x255=0",
    ] {
        let left = format!("( not {name} or ( x0=1 and r1=0 ) )");
        let right = format!("( ( x0=1 and r1=0 ) or not {name} )");
        for condition in [name.to_string(), format!("not {name}"), left, right] {
            texts.push(text(&lines, "0", &condition));
        }
        // Another line comes first.
        texts.push(text(&[LOAD, "5 0 0 0 0 0 0 0 1 0 0"], "0", name));
    }
    texts
}

/// A legal text with all words of a condition, which line 8 refuses.
const LEGAL: &str = "2 0 0 0 0 0 0 0 1 0 0\n1 1 0 3 0 0 0 0 0 0 0\n\n0 65535\n\
                     ( not x1=65535 or ( r1=0 and x0=1 ) )\n";

/// A dozen legal texts: of each kind of event, with every shape of condition, and of few and many lines.
pub fn legal_texts() -> Vec<String> {
    let mut texts =
        vec![LEGAL.to_string(), text(&[], "0", "r0=0"), nested(MAX_LEVELS, 0b1011_0100)];
    let tests = [c1(), c2(), c3(), c5(), c7(1), c8(), c9_control(), counter(), base()];
    texts.extend(tests.iter().map(|test| text_of(test).to_string()));
    texts
}

/// Every byte of a word of a text, the least and greatest digits, and some that no text has.
pub const BYTES: &[u8; 21] = b"\n 0159=()andortx\0\t\r-\xff";

/// A text with each of its bytes changed to each of these.
pub fn changed_texts(text: &[u8]) -> impl Iterator<Item = Vec<u8>> + '_ {
    let changed = |at: usize, byte: u8| [&text[..at], &[byte], &text[at + 1..]].concat();
    (0..text.len()).flat_map(move |at| BYTES.iter().map(move |&byte| changed(at, byte)))
}

/// A text, cut at each length.
pub fn cut_texts(text: &[u8]) -> impl Iterator<Item = Vec<u8>> + '_ {
    (0..=text.len()).map(|length| text[..length].to_vec())
}

#[cfg(test)]
mod tests {
    use super::*;
    use crate::text::read_document;
    use crate::text_test::{read_text, TextRefusal};

    #[test]
    fn a_dozen_texts_are_legal() {
        let texts = legal_texts();
        assert_eq!(texts.len(), 12);
        assert!(texts.iter().all(|text| read_document(text.as_bytes()).is_ok()));
    }

    #[test]
    fn good_texts_have_the_length_asked_for() {
        for length in [MAX_LENGTH - 12, MAX_LENGTH - 1, MAX_LENGTH] {
            let text = of_length(length);
            assert_eq!(text.len(), length);
            assert!(read_text(&text).is_ok());
        }
        assert_eq!(of_length(MAX_LENGTH + 1).len(), MAX_LENGTH + 1);
    }

    #[test]
    fn no_case_is_longer_than_the_longest_text_and_a_byte() {
        let longest = lengths().iter().map(Vec::len).max();
        assert_eq!(longest, Some(MAX_LENGTH + 1));
    }

    #[test]
    fn broken_tables_are_refused_by_7_to_10_5_or_21() {
        let mut lines = Vec::new();
        for text in broken_tables() {
            match read_text(text.as_bytes()) {
                Err(TextRefusal::Declined(refusal)) => lines.push(refusal.line as u8),
                Err(TextRefusal::Illegal(breach)) => panic!("{breach}: {text}"),
                Ok(_) => {}
            }
        }
        for line in [5, 7, 8, 9, 10, 21] {
            assert!(lines.iter().filter(|&&refused| refused == line).count() >= 2, "{line}");
        }
    }
}
