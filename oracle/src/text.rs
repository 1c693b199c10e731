//! A test as text: what it says, how it is printed, and reading it byte by byte.

use crate::condition::Condition;
use crate::readings::spaced;
use crate::record::RawEvent;
use crate::table::Line;
use std::fmt;

/// "Conditions may nest up to eight deep, each `not` or bracket adding one."
pub const MAX_LEVELS: usize = 8;

/// What a text says: "one event a line .., a blank line, one or more initial values on one line, from
/// location 0 up .., then a condition".
#[derive(Clone, PartialEq, Eq, Debug)]
pub struct Document {
    pub events: Vec<RawEvent>,
    pub initial: Vec<u16>,
    pub condition: Condition,
}

/// "The first breach decides", by 19 or 20 "with its place (bytes count from 0, and the end's place
/// is the length)".
#[derive(Clone, Copy, PartialEq, Eq, Debug)]
pub struct Breach {
    pub line: Line,
    pub place: usize,
}

impl fmt::Display for Breach {
    fn fmt(&self, out: &mut fmt::Formatter) -> fmt::Result {
        write!(out, "refused {}, place {}", self.line as u8, self.place)
    }
}

/// "Each line ends in one newline byte."
impl fmt::Display for Document {
    fn fmt(&self, out: &mut fmt::Formatter) -> fmt::Result {
        for event in &self.events {
            writeln!(out, "{}", fields(event))?;
        }
        writeln!(out)?;
        writeln!(out, "{}", spaced(&self.initial))?;
        writeln!(out, "{}", self.condition)
    }
}

/// "its record fields, without the zeros, in decimal, single spaces, in record order"
fn fields(event: &RawEvent) -> String {
    let RawEvent { kind, hart, location, flags, address, data, control, .. } = event;
    let RawEvent { read, written, operation, operand, .. } = event;
    let masks = spaced(&[address, data, control]);
    format!("{kind} {hart} {location} {flags} {masks} {read} {written} {operation} {operand}")
}

/// What a legal text says. Any other has a first breach.
pub fn read_document(text: &[u8]) -> Result<Document, Breach> {
    let mut reader = Reader { text, at: 0 };
    Ok(Document {
        events: reader.event_lines()?,
        initial: reader.initial_values()?,
        condition: reader.last_line(MAX_LEVELS)?,
    })
}

/// A text, of which the bytes before a place have been read. Each method goes on from there and past
/// what it reads, or stops at the first byte that no legal text could have there.
struct Reader<'a> {
    text: &'a [u8],
    at: usize,
}

impl Reader<'_> {
    /// The byte at the place, if it isn't the end.
    fn byte(&self) -> Option<u8> {
        self.text.get(self.at).copied()
    }

    /// "any other first byte that no legal text could have there (length aside), or the end come
    /// too soon, is refusal 19 with its place"
    fn breach(&self) -> Breach {
        Breach { line: Line::Grammar, place: self.at }
    }

    /// Goes past bytes that have to stand here.
    fn pass(&mut self, bytes: &str) -> Result<(), Breach> {
        for byte in bytes.bytes() {
            if self.byte() != Some(byte) {
                return Err(self.breach());
            }
            self.at += 1;
        }
        Ok(())
    }

    /// "Numbers have no leading zero and fit their edition 2 field": the breach is a digit that
    /// follows a leading zero, or with which the number no longer fits.
    fn number<Field: TryFrom<u64>>(&mut self) -> Result<Field, Breach> {
        let (mut number, mut field) = (0, None);
        while let Some(digit @ b'0'..=b'9') = self.byte() {
            let follows_leading_zero = field.is_some() && number == 0;
            number = 10 * number + u64::from(digit - b'0');
            let fitting = Field::try_from(number).ok().filter(|_| !follows_leading_zero);
            field = Some(fitting.ok_or(self.breach())?);
            self.at += 1;
        }
        field.ok_or(self.breach())
    }

    fn space_number<Field: TryFrom<u64>>(&mut self) -> Result<Field, Breach> {
        self.pass(" ")?;
        self.number()
    }

    /// The lines of the events, and the blank line behind them.
    fn event_lines(&mut self) -> Result<Vec<RawEvent>, Breach> {
        let mut events = Vec::new();
        while self.byte() != Some(b'\n') {
            events.push(self.event()?);
            self.pass("\n")?;
        }
        self.pass("\n")?;
        Ok(events)
    }

    fn event(&mut self) -> Result<RawEvent, Breach> {
        Ok(RawEvent {
            kind: self.number()?,
            hart: self.space_number()?,
            location: self.space_number()?,
            flags: self.space_number()?,
            address: self.space_number()?,
            data: self.space_number()?,
            control: self.space_number()?,
            read: self.space_number()?,
            written: self.space_number()?,
            operation: self.space_number()?,
            operand: self.space_number()?,
        })
    }

    /// The line of the initial values.
    fn initial_values(&mut self) -> Result<Vec<u16>, Breach> {
        let mut values = vec![self.number()?];
        while self.byte() == Some(b' ') {
            values.push(self.space_number()?);
        }
        self.pass("\n")?;
        Ok(values)
    }

    /// The line of the condition, behind which the text ends.
    fn last_line(&mut self, levels: usize) -> Result<Condition, Breach> {
        let condition = self.condition(levels)?;
        self.pass("\n")?;
        match self.byte() {
            Some(_) => Err(self.breach()),
            None => Ok(condition),
        }
    }

    /// A condition within so many levels: "an `n` or `(` that would begin a ninth level is refusal
    /// 20 with its place".
    fn condition(&mut self, levels: usize) -> Result<Condition, Breach> {
        match self.byte() {
            Some(b'r') => {
                let (event, value) = self.equation("r")?;
                Ok(Condition::Returns { event, value })
            }
            Some(b'x') => {
                let (location, value) = self.equation("x")?;
                Ok(Condition::Ends { location, value })
            }
            Some(b'n' | b'(') if levels == 0 => Err(Breach { line: Line::Levels, ..self.breach() }),
            Some(b'n') => {
                self.pass("not ")?;
                Ok(Condition::Not(Box::new(self.condition(levels - 1)?)))
            }
            Some(b'(') => self.bracket(levels - 1),
            _ => Err(self.breach()),
        }
    }

    /// A letter, the number of an event or of a location, and a value.
    fn equation(&mut self, letter: &str) -> Result<(u8, u16), Breach> {
        self.pass(letter)?;
        let number = self.number()?;
        self.pass("=")?;
        Ok((number, self.number()?))
    }

    /// "`(`, a condition, `and` or `or`, a condition, `)`, single spaces between parts"
    fn bracket(&mut self, levels: usize) -> Result<Condition, Breach> {
        self.pass("( ")?;
        let left = Box::new(self.condition(levels)?);
        self.pass(" ")?;
        let is_and = self.byte() == Some(b'a');
        self.pass(if is_and { "and " } else { "or " })?;
        let right = Box::new(self.condition(levels)?);
        self.pass(" )")?;
        Ok(if is_and { Condition::And(left, right) } else { Condition::Or(left, right) })
    }
}

#[cfg(test)]
mod tests {
    use super::*;
    use std::collections::HashSet;

    const ATOMS: [&str; 2] = ["r0=0", "x0=0"];

    /// All conditions of up to so many levels over some atoms.
    fn conditions(atoms: &[&str], levels: usize) -> Vec<String> {
        let mut all: Vec<String> = atoms.iter().map(|atom| atom.to_string()).collect();
        if levels > 0 {
            let inner = conditions(atoms, levels - 1);
            all.extend(inner.iter().map(|condition| format!("not {condition}")));
            for left in &inner {
                for right in &inner {
                    all.push(format!("( {left} and {right} )"));
                    all.push(format!("( {left} or {right} )"));
                }
            }
        }
        all
    }

    /// Their lines.
    fn lines(atoms: &[&str], levels: usize) -> HashSet<Vec<u8>> {
        let conditions = conditions(atoms, levels);
        conditions.iter().map(|condition| format!("{condition}\n").into_bytes()).collect()
    }

    fn beginnings(lines: &HashSet<Vec<u8>>) -> HashSet<Vec<u8>> {
        lines.iter().flat_map(|line| (0..=line.len()).map(|n| line[..n].to_vec())).collect()
    }

    /// Goes on from every beginning by every byte but those that only other atoms have there.
    fn assert_breaches(atoms: &[&str], levels: usize, other: &[u8]) {
        let whole = lines(atoms, levels);
        let (begun, begun_deeper) = (beginnings(&whole), beginnings(&lines(atoms, levels + 1)));
        for beginning in &begun {
            for byte in (0..=u8::MAX).filter(|byte| !other.contains(byte)) {
                let text = [&beginning[..], &[byte]].concat();
                let breach = |line, place| Some(Breach { line, place });
                let expected = match () {
                    () if whole.contains(&text) => None,
                    () if begun.contains(&text) => breach(Line::Grammar, text.len()),
                    () if begun_deeper.contains(&text) => breach(Line::Levels, beginning.len()),
                    () => breach(Line::Grammar, beginning.len()),
                };
                let reading = Reader { text: &text, at: 0 }.last_line(levels);
                assert_eq!(reading.err(), expected, "{}", text.escape_ascii());
            }
        }
    }

    #[test]
    fn the_breach_is_the_first_byte_that_no_condition_has_there() {
        assert_breaches(&ATOMS, 0, b"123456789");
        assert_breaches(&ATOMS, 1, b"123456789");
        assert_breaches(&ATOMS[..1], 2, b"123456789x");
    }

    #[test]
    fn what_is_read_prints_as_the_text() {
        for condition in conditions(&ATOMS, 2) {
            let text = format!("1 0 0 0 0 0 0 0 0 0 0\n\n0\n{condition}\n");
            let document = read_document(text.as_bytes()).expect("the text is legal");
            assert_eq!(document.to_string(), text);
        }
    }
}
