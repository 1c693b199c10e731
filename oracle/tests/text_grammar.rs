//! The reader of texts beside a grammar: a list of what each part may consist of, gone through byte by
//! byte with all the ways in which a text may go on.

use oracle::table::Line;
use oracle::text::{read_document, Breach, MAX_LEVELS};
use std::collections::{BTreeSet, HashMap};

/// What still has to come in a text: a byte within bounds, or a part.
#[derive(Clone, Copy, PartialEq, Eq, PartialOrd, Ord, Hash)]
enum Symbol {
    Byte { from: u8, to: u8 },
    Number { most: u64 },
    EventLines,
    MoreValues,
    Condition { levels: usize },
}

use Symbol::*;

const SMALL: u64 = 255;
const VALUE: u64 = 65_535;
const MASK: u64 = 4_294_967_295;

/// The largest numbers of a record's fields, in their order.
const FIELDS: [u64; 11] =
    [SMALL, SMALL, SMALL, SMALL, MASK, MASK, MASK, VALUE, VALUE, SMALL, SMALL];

fn word(bytes: &str) -> Vec<Symbol> {
    exactly(bytes.as_bytes())
}

fn exactly(bytes: &[u8]) -> Vec<Symbol> {
    bytes.iter().map(|&byte| Byte { from: byte, to: byte }).collect()
}

/// All of a text.
fn text(levels: usize) -> Vec<Symbol> {
    let values = [vec![Number { most: VALUE }, MoreValues], word("\n")].concat();
    let condition = [vec![Condition { levels }], word("\n")].concat();
    [vec![EventLines], word("\n"), values, condition].concat()
}

/// What a part may consist of.
fn alternatives(part: Symbol) -> Vec<Vec<Symbol>> {
    match part {
        Byte { .. } => vec![vec![part]],
        Number { most } => numbers(&most.to_string().into_bytes()),
        EventLines => vec![vec![], [event_line(), vec![EventLines]].concat()],
        MoreValues => {
            vec![vec![], [word(" "), vec![Number { most: VALUE }, MoreValues]].concat()]
        }
        Condition { levels } => conditions(levels),
    }
}

fn event_line() -> Vec<Symbol> {
    let fields = FIELDS.map(|most| vec![Number { most }]);
    [fields.join(&word(" ")[..]), word("\n")].concat()
}

/// The digits of all numbers up to one: 0, those with fewer digits, those with as many that are
/// smaller from some digit on, and the number itself.
fn numbers(most: &[u8]) -> Vec<Vec<Symbol>> {
    let digit = |from: u8| vec![Byte { from, to: b'9' }];
    let any = |count: usize| digit(b'0').repeat(count);
    let mut all = vec![word("0"), exactly(most)];
    all.extend((1..most.len()).map(|count| [digit(b'1'), any(count - 1)].concat()));
    for (place, &largest) in most.iter().enumerate() {
        let from = if place == 0 { b'1' } else { b'0' };
        let smaller = vec![Byte { from, to: largest - 1 }];
        if from < largest {
            all.push([exactly(&most[..place]), smaller, any(most.len() - place - 1)].concat());
        }
    }
    all
}

fn conditions(levels: usize) -> Vec<Vec<Symbol>> {
    let number = |most: u64| vec![Number { most }];
    let atom = |letter: &str| [word(letter), number(SMALL), word("="), number(VALUE)].concat();
    let mut all = vec![atom("r"), atom("x")];
    if levels > 0 {
        let inner = || vec![Condition { levels: levels - 1 }];
        all.push([word("not "), inner()].concat());
        for joint in [" and ", " or "] {
            all.push([word("( "), inner(), word(joint), inner(), word(" )")].concat());
        }
    }
    all
}

/// What may still have to come, the first of it last.
type Ways = BTreeSet<Vec<Symbol>>;

/// The ways that are left after one more byte.
fn after(ways: &Ways, byte: u8) -> Ways {
    let mut left = Ways::new();
    let mut open: Vec<Vec<Symbol>> = ways.iter().cloned().collect();
    while let Some(mut way) = open.pop() {
        match way.pop() {
            None => {}
            Some(Byte { from, to }) if (from..=to).contains(&byte) => drop(left.insert(way)),
            Some(Byte { .. }) => {}
            Some(part) => {
                for alternative in alternatives(part) {
                    let longer = way.iter().copied().chain(alternative.into_iter().rev());
                    open.push(longer.collect());
                }
            }
        }
    }
    left
}

/// All ways met so far by their numbers, and the steps between them, so that none is taken twice.
#[derive(Default)]
struct Grammar {
    ways: Vec<Ways>,
    numbers: HashMap<Ways, usize>,
    steps: HashMap<(usize, u8), usize>,
}

impl Grammar {
    fn number(&mut self, ways: Ways) -> usize {
        let all = &mut self.ways;
        *self.numbers.entry(ways).or_insert_with_key(|ways| {
            all.push(ways.clone());
            all.len() - 1
        })
    }

    fn step(&mut self, from: usize, byte: u8) -> usize {
        if let Some(&to) = self.steps.get(&(from, byte)) {
            return to;
        }
        let to = self.number(after(&self.ways[from], byte));
        self.steps.insert((from, byte), to);
        to
    }

    /// The place of the first byte with which no text of up to so many levels goes on.
    fn stop(&mut self, bytes: &[u8], levels: usize) -> Option<usize> {
        let mut at = self.number(Ways::from([text(levels).into_iter().rev().collect()]));
        for (place, &byte) in bytes.iter().enumerate() {
            at = self.step(at, byte);
            if self.ways[at].is_empty() {
                return Some(place);
            }
        }
        let is_whole = self.ways[at].contains(&vec![]);
        (!is_whole).then_some(bytes.len())
    }

    /// 20 is for an "`n` or `(` that would begin a ninth level": with nine levels it could stand
    /// there.
    fn first_breach(&mut self, text: &[u8]) -> Option<Breach> {
        let place = self.stop(text, MAX_LEVELS)?;
        let opens = matches!(text.get(place), Some(b'n' | b'('));
        let is_ninth = opens && self.stop(&text[..=place], MAX_LEVELS + 1) != Some(place);
        Some(Breach { line: if is_ninth { Line::Levels } else { Line::Grammar }, place })
    }

    fn assert_agrees(&mut self, text: &[u8]) {
        assert_eq!(read_document(text).err(), self.first_breach(text), "{}", text.escape_ascii());
    }
}

const LEGAL: [&str; 8] = [
    "\n0\nr0=0\n",
    "\n10 0 65535\nx255=65535\n",
    "1 0 0 0 0 0 0 0 0 0 0\n\n0\nr0=0\n",
    "255 255 255 255 4294967295 4294967295 4294967295 65535 65535 255 255\n\n65535\nr255=65535\n",
    "3 1 2 8 16 429496729 1 6553 6 25 2\n7 0 0 0 0 0 0 0 0 0 0\n\n7 655\n( r0=8 and x0=9 )\n",
    "\n0\nnot ( not r1=1 or ( x0=20 and not not r25=3 ) )\n",
    "\n0\n( ( ( ( ( ( ( ( r0=0 or r1=0 ) or r2=0 ) or x0=0 ) or r3=0 ) or r4=0 ) or r5=0 ) or r6=0 ) or r7=0 )\n",
    "\n0\n( r0=0 and not ( r0=0 or not ( r0=0 and not ( r0=0 or not r0=0 ) ) ) )\n",
];

/// Every byte of the grammar, and some others.
const BYTES: &[u8] = b"\n 0123456789=()andortx\0\t\r-+,rRNeyz\x80\xff";

#[test]
fn a_legal_text_has_no_breach_and_every_cut_one_has_it_at_its_end() {
    let mut grammar = Grammar::default();
    for text in LEGAL.map(str::as_bytes) {
        assert_eq!((read_document(text).err(), grammar.first_breach(text)), (None, None));
        for length in 0..text.len() {
            let end = Some(Breach { line: Line::Grammar, place: length });
            assert_eq!(read_document(&text[..length]).err(), end);
            assert_eq!(grammar.first_breach(&text[..length]), end);
        }
    }
}

#[test]
fn texts_with_a_byte_changed_left_out_or_put_in() {
    let mut grammar = Grammar::default();
    for text in LEGAL.map(str::as_bytes) {
        for at in 0..text.len() {
            let (before, behind) = (&text[..at], &text[at + 1..]);
            grammar.assert_agrees(&[before, behind].concat());
            for &byte in BYTES {
                grammar.assert_agrees(&[before, &[byte], behind].concat());
                grammar.assert_agrees(&[before, &[byte], &text[at..]].concat());
            }
        }
        for &byte in BYTES {
            grammar.assert_agrees(&[text, &[byte]].concat());
        }
    }
}

/// A level: what opens it, and what closes it.
const LEVELS: [(&str, &str); 3] = [("not ", ""), ("( ", " or r0=0 )"), ("( x0=0 and ", " )")];

#[test]
fn seven_eight_and_nine_levels_of_every_mixture() {
    let mut grammar = Grammar::default();
    for depth in 7..=9 {
        for mixture in 0..LEVELS.len().pow(depth) {
            let (mut opened, mut closed, mut ninth) = ("\n0\n".to_string(), String::new(), 0);
            for level in 0..depth {
                ninth = opened.len();
                let (open, close) = LEVELS[mixture / LEVELS.len().pow(level) % LEVELS.len()];
                (opened, closed) = (opened + open, close.to_string() + &closed);
            }
            let text = format!("{opened}r1=1{closed}\n").into_bytes();
            let breach = Breach { line: Line::Levels, place: ninth };
            assert_eq!(read_document(&text).err(), (depth > 8).then_some(breach));
            if mixture % 50 == 0 {
                grammar.assert_agrees(&text);
            }
        }
    }
}

/// With eight levels open, an `n` or `(` is 20 where a condition may begin, and nowhere else.
#[test]
fn any_byte_where_eight_levels_are_open() {
    let mut grammar = Grammar::default();
    let nots = "\n0\n".to_string() + &"not ".repeat(8);
    let brackets = "\n0\n".to_string() + &"( r0=0 or ".repeat(8);
    for (open, inner) in [(&nots, "r0=0"), (&brackets, "r0=0 ) )")] {
        for length in 0..=inner.len() {
            for byte in 0..=u8::MAX {
                grammar.assert_agrees(
                    &[open.as_bytes(), &inner.as_bytes()[..length], &[byte]].concat(),
                );
            }
        }
    }
}
