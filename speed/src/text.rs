//! Reading a text in plain Rust: refusals 1, 5, 7 to 11, 19, 20, 21 and 23, the table, and the condition.

use crate::reading::{form_broken, refuse_if, refuse_last, refuse_unused, Refusal};
use crate::table::*;

const LONGEST: usize = 2048;
const LEVELS: usize = 8;

/// Each word of a condition takes four bytes of the text, or more.
const WORDS: usize = LONGEST / 4;

const SMALL: u32 = 255;
const VALUE: u32 = 65_535;
const MASK: u32 = u32::MAX;

/// Why a text is refused: by 19 or 20 with a place, or by another line as a block is.
#[derive(Clone, Copy, Debug, PartialEq)]
pub enum Refused {
    At { line: u8, place: usize },
    By(Refusal),
}

const ILLEGAL: u8 = 19;
const TOO_DEEP: u8 = 20;
const NAMES: u8 = 23;

impl From<Refusal> for Refused {
    fn from(refusal: Refusal) -> Refused {
        Refused::By(refusal)
    }
}

/// The words of a condition, each behind those that it joins: its kind in byte 0, the number of an event or of a location in
/// byte 1, a value in bytes 2 and 3.
mod word {
    pub const RETURNS: u32 = 0;
    pub const ENDS: u32 = 1;
    pub const NOT: u32 = 2;
    pub const AND: u32 = 3;
    pub const OR: u32 = 4;
}

/// What a good text says.
pub struct Test {
    pub table: TableTwo,
    condition: [u32; WORDS],
    words: usize,
}

impl Test {
    fn blank() -> Test {
        Test { table: TableTwo::default(), condition: [0; WORDS], words: 0 }
    }

    pub fn condition(&self) -> &[u32] {
        &self.condition[..self.words]
    }

    fn names_wrong(&self) -> bool {
        self.condition().iter().any(|word| {
            let number = usize::from((word >> 8) as u8);
            match word & SMALL {
                word::RETURNS => number >= self.table.count || !self.table.events[number].reads(),
                word::ENDS => number >= self.table.locations,
                _ => false,
            }
        })
    }

    /// The locations whose ends the condition asks for, all of which are in the test.
    fn named_ends(&self) -> u8 {
        let ends = self.condition().iter().filter(|&word| word & SMALL == word::ENDS);
        ends.fold(0, |named, word| named | 1 << (word >> 8 & SMALL))
    }
}

/// Why a text is refused.
pub fn refusal(text: &[u8]) -> Option<Refused> {
    read(text, &mut Test::blank()).err()
}

/// Reads a text into a blank test.
pub fn read(text: &[u8], test: &mut Test) -> Result<(), Refused> {
    refuse_if(text.len() > LONGEST, 1)?;
    let mut reader = Reader { text, at: 0, test, harts: 0, locations: 0, lines: 0 };
    reader.events()?;
    reader.initial_values()?;
    reader.condition(LEVELS)?;
    reader.pass(b"\n")?;
    if reader.at < text.len() {
        return reader.breach();
    }
    let Reader { test, harts, locations, lines, .. } = reader;
    refuse_if(harts > HARTS || locations > LOCATIONS || !(1..=EVENTS_TWO).contains(&lines), 5)?;
    let events = &test.table.events[..lines];
    let broken = |e: &Event<u32>| form_broken(e, harts as u8, locations as u8) || line_broken(e);
    refuse_last(events, events.iter().position(broken))?;
    refuse_if(test.names_wrong(), NAMES)?;
    refuse_unused(events, locations as u8, test.named_ends())?;
    Ok(())
}

/// What line 7 says of operations and values in a text.
fn line_broken(e: &Event<u32>) -> bool {
    let has_operation = e.operation != NO_OPERATION;
    e.operation > SMALLER
        || has_operation && (e.kind != AMO || e.written != 0)
        || !has_operation && e.operand != 0
        || e.read != 0
}

/// A text of which the bytes before a place have been read, and what they say.
struct Reader<'a> {
    text: &'a [u8],
    at: usize,
    test: &'a mut Test,
    harts: usize,
    locations: usize,
    lines: usize,
}

impl Reader<'_> {
    fn byte(&self) -> Option<u8> {
        self.text.get(self.at).copied()
    }

    fn breach<T>(&self) -> Result<T, Refused> {
        Err(Refused::At { line: ILLEGAL, place: self.at })
    }

    fn pass(&mut self, word: &[u8]) -> Result<(), Refused> {
        let rest = &self.text[self.at..];
        if rest.starts_with(word) {
            self.at += word.len();
            return Ok(());
        }
        self.at += rest.iter().zip(word).take_while(|(a, b)| a == b).count();
        self.breach()
    }

    fn digit(&self) -> Option<u32> {
        self.byte().map(|byte| u32::from(byte.wrapping_sub(b'0'))).filter(|&digit| digit < 10)
    }

    fn number(&mut self, most: u32) -> Result<u32, Refused> {
        let Some(mut number) = self.digit() else { return self.breach() };
        self.at += 1;
        while let Some(digit) = self.digit() {
            let longer = 10 * u64::from(number) + u64::from(digit);
            if number == 0 || longer > most.into() {
                return self.breach();
            }
            number = longer as u32;
            self.at += 1;
        }
        Ok(number)
    }

    fn next_number(&mut self, most: u32) -> Result<u32, Refused> {
        self.pass(b" ")?;
        self.number(most)
    }

    /// The lines of events, and the blank one. Those that there is no room for are read only.
    fn events(&mut self) -> Result<(), Refused> {
        while self.byte() != Some(b'\n') {
            let event = self.event()?;
            self.pass(b"\n")?;
            if let Some(slot) = self.test.table.events.get_mut(self.lines) {
                *slot = event;
            }
            self.lines += 1;
            self.harts = self.harts.max(usize::from(event.hart) + 1);
            self.locations = self.locations.max(usize::from(event.location) + 1);
        }
        self.test.table.count = self.lines;
        self.at += 1;
        Ok(())
    }

    fn event(&mut self) -> Result<Event<u32>, Refused> {
        Ok(Event {
            kind: self.number(SMALL)? as u8,
            hart: self.next_number(SMALL)? as u8,
            location: self.next_number(SMALL)? as u8,
            flags: self.next_number(SMALL)? as u8,
            addr: self.next_number(MASK)?,
            data: self.next_number(MASK)?,
            ctrl: self.next_number(MASK)?,
            read: self.next_number(VALUE)? as u16,
            written: self.next_number(VALUE)? as u16,
            operation: self.next_number(SMALL)? as u8,
            operand: self.next_number(SMALL)? as u8,
        })
    }

    fn initial_values(&mut self) -> Result<(), Refused> {
        let mut values = 0;
        loop {
            let value = self.number(VALUE)? as u16;
            if let Some(slot) = self.test.table.initial.get_mut(values) {
                *slot = value;
            }
            values += 1;
            if self.byte() != Some(b' ') {
                break;
            }
            self.at += 1;
        }
        self.locations = self.locations.max(values);
        self.test.table.locations = self.locations;
        self.pass(b"\n")
    }

    fn push(&mut self, word: u32) {
        self.test.condition[self.test.words] = word;
        self.test.words += 1;
    }

    fn condition(&mut self, levels: usize) -> Result<(), Refused> {
        match self.byte() {
            Some(b'r') => self.equation(word::RETURNS)?,
            Some(b'x') => self.equation(word::ENDS)?,
            Some(b'n' | b'(') if levels == 0 => {
                return Err(Refused::At { line: TOO_DEEP, place: self.at });
            }
            Some(b'n') => {
                self.pass(b"not ")?;
                self.condition(levels - 1)?;
                self.push(word::NOT);
            }
            Some(b'(') => self.bracket(levels - 1)?,
            _ => return self.breach(),
        }
        Ok(())
    }

    /// Behind its letter.
    fn equation(&mut self, kind: u32) -> Result<(), Refused> {
        self.at += 1;
        let number = self.number(SMALL)?;
        self.pass(b"=")?;
        let value = self.number(VALUE)?;
        self.push(kind | number << 8 | value << 16);
        Ok(())
    }

    fn bracket(&mut self, levels: usize) -> Result<(), Refused> {
        self.pass(b"( ")?;
        self.condition(levels)?;
        self.pass(b" ")?;
        let (joint, joined): (&[u8], u32) =
            if self.byte() == Some(b'a') { (b"and ", word::AND) } else { (b"or ", word::OR) };
        self.pass(joint)?;
        self.condition(levels)?;
        self.pass(b" )")?;
        self.push(joined);
        Ok(())
    }
}

#[cfg(test)]
mod tests {
    use super::*;
    use crate::reading::assert_same;
    use oracle::condition::Condition;
    use oracle::generate::damage::damaged_text;
    use oracle::generate::prng::Prng;
    use oracle::generate::random::{any_table, wide_table};
    use oracle::generate::text_calls::make_texts;
    use oracle::generate::texts::random_text;
    use oracle::stream::Stream;
    use oracle::text_test::{read_text, TextRefusal};

    const DAMAGED_TEXTS: usize = 50_000;

    fn same_refusal(refusal: TextRefusal) -> Refused {
        match refusal {
            TextRefusal::Illegal(breach) => Refused::At { line: breach.line as u8, place: breach.place },
            TextRefusal::Declined(refusal) => Refused::By(Refusal { line: refusal.line as u8, record: refusal.record }),
        }
    }

    /// The words of a condition, as text.
    fn words(condition: &Condition) -> Vec<String> {
        let joined = |left: &Condition, right: &Condition, word: &str| {
            [words(left), words(right), vec![word.to_string()]].concat()
        };
        match condition {
            Condition::Returns { .. } | Condition::Ends { .. } => vec![condition.to_string()],
            Condition::Not(inner) => [words(inner), vec!["not".to_string()]].concat(),
            Condition::And(left, right) => joined(left, right, "and"),
            Condition::Or(left, right) => joined(left, right, "or"),
        }
    }

    fn as_text(word: &u32) -> String {
        let [kind, number, low, high] = word.to_le_bytes();
        let value = u16::from_le_bytes([low, high]);
        match u32::from(kind) {
            word::RETURNS => format!("r{number}={value}"),
            word::ENDS => format!("x{number}={value}"),
            word::NOT => "not".to_string(),
            word::AND => "and".to_string(),
            word::OR => "or".to_string(),
            _ => panic!("there is no other word"),
        }
    }

    /// What both give: none if the text is good, otherwise the refusal's line.
    fn agreed(text: &[u8]) -> Option<u8> {
        let mut test = Test::blank();
        match (read(text, &mut test), read_text(text)) {
            (Ok(()), Ok(other)) => {
                assert_same(&test.table, &other.table);
                let condition: Vec<String> = test.condition().iter().map(as_text).collect();
                assert_eq!(condition, words(&other.condition));
                None
            }
            (Err(refused), Err(other)) => {
                assert_eq!(refused, same_refusal(other), "{}", text.escape_ascii());
                Some(other.line() as u8)
            }
            (one, other) => panic!("{:?}, but {:?}", one.err(), other.err()),
        }
    }

    #[test]
    fn the_stored_texts_are_read_as_by_the_independent_program() {
        let stream = make_texts();
        let mut rest = Stream::new(&stream);
        while !rest.is_empty() {
            match rest.byte().expect("the stream is whole") {
                b'B' => drop(agreed(rest.frame().expect("a frame"))),
                b'S' => drop((rest.list(), rest.byte(), rest.number())),
                b'W' => drop((rest.byte(), rest.number())),
                _ => {}
            }
        }
    }

    #[test]
    fn damaged_texts_are_read_as_by_the_independent_program() {
        let mut prng = Prng::new(3);
        let mut lines: Vec<u8> = Vec::new();
        for number in 0..DAMAGED_TEXTS {
            let table = if number % 8 == 0 { wide_table(&mut prng) } else { any_table(&mut prng) };
            let text = random_text(&mut prng, &table).to_string();
            lines.extend(agreed(&damaged_text(&mut prng, text.as_bytes())));
        }
        lines.sort();
        lines.dedup();
        assert!([5, 7, 8, 9, 10, 19, 21, 23].iter().all(|line| lines.contains(line)), "{lines:?}");
    }
}
