//! The condition of a test: what is asked of the final state.

use super::cursor::Cursor;
use super::initial::{number, place, Place};
use super::lexer::Kind;
use super::names::Names;
use super::operation::truncated;
use crate::error::{quoted, Error};
use crate::value::Value;
use std::fmt;

/// Brackets and negations may nest as deep, so that reading needs little memory.
const MOST_NESTED: usize = 100;

/// How the condition is meant.
#[derive(Clone, Copy, PartialEq, Eq, Debug)]
pub enum Quantifier {
    Exists,
    NotExists,
    Forall,
}

/// A statement about the final state.
#[derive(Clone, Debug)]
pub enum Condition {
    Always(bool),
    /// A register or location has a value.
    Is(Place, Value),
    Not(Box<Condition>),
    All(Vec<Condition>),
    Any(Vec<Condition>),
}

/// What stands behind the columns.
#[derive(Clone, Debug)]
pub struct Question {
    pub quantifier: Quantifier,
    pub condition: Condition,
    /// What a line `locations [..]` asks to be shown.
    pub shown: Vec<Place>,
    pub line: usize,
}

impl Question {
    /// The outcomes that are looked for: those of the condition, or for `forall` those outside.
    pub fn asked(&self) -> Condition {
        match self.quantifier {
            Quantifier::Forall => Condition::Not(Box::new(self.condition.clone())),
            _ => self.condition.clone(),
        }
    }

    /// The registers and locations of the condition, and those to be shown, each once.
    pub fn observed(&self) -> Vec<Place> {
        let mut all = self.shown.clone();
        self.condition.places(&mut all);
        let mut once = Vec::new();
        for place in all {
            if !once.contains(&place) {
                once.push(place);
            }
        }
        once
    }
}

impl Condition {
    /// Whether it holds, as far as what is known of the final state decides that.
    pub fn holds(&self, known: &dyn Fn(Place) -> Option<Value>) -> Option<bool> {
        match self {
            Condition::Always(holds) => Some(*holds),
            Condition::Is(place, value) => known(*place).map(|found| found == *value),
            Condition::Not(inner) => inner.holds(known).map(|holds| !holds),
            Condition::All(parts) => together(parts, known, false),
            Condition::Any(parts) => together(parts, known, true),
        }
    }

    /// Takes the values of locations as memory holds them, with as many bytes as an access has.
    pub fn narrow(&mut self, width: u32) {
        match self {
            Condition::Is(Place::Location(_), value) if value.location.is_none() => {
                value.number = truncated(value.number, width);
            }
            Condition::Always(_) | Condition::Is(..) => {}
            Condition::Not(inner) => inner.narrow(width),
            Condition::All(parts) | Condition::Any(parts) => parts.iter_mut().for_each(|part| part.narrow(width)),
        }
    }

    fn places(&self, into: &mut Vec<Place>) {
        match self {
            Condition::Always(_) => {}
            Condition::Is(place, _) => into.push(*place),
            Condition::Not(inner) => inner.places(into),
            Condition::All(parts) | Condition::Any(parts) => parts.iter().for_each(|part| part.places(into)),
        }
    }
}

/// One part with the value `decisive` decides; else all have to be known.
fn together(parts: &[Condition], known: &dyn Fn(Place) -> Option<Value>, decisive: bool) -> Option<bool> {
    let mut is_known = true;
    for part in parts {
        match part.holds(known) {
            Some(holds) if holds == decisive => return Some(decisive),
            Some(_) => {}
            None => is_known = false,
        }
    }
    is_known.then_some(!decisive)
}

/// Reads what stands behind the columns, to the end of the file.
pub fn read(cursor: &mut Cursor, names: &Names) -> Result<Question, Error> {
    let shown = if cursor.take_word("locations") { shown(cursor, names)? } else { Vec::new() };
    if cursor.is_word("filter") {
        return Err(Error::at(cursor.line(), "`filter` isn't read: put it into the condition"));
    }
    let line = cursor.line();
    let quantifier = quantifier(cursor)?;
    let mut reader = Reader { cursor, names };
    let condition = reader.any(0)?;
    if cursor.peek(0).is_some() {
        return Err(cursor.error("`/\\`, `\\/` or the end of the file"));
    }
    Ok(Question { quantifier, condition, shown, line })
}

/// `[0:x5; x;]`.
fn shown(cursor: &mut Cursor, names: &Names) -> Result<Vec<Place>, Error> {
    cursor.mark("[", "behind `locations`")?;
    let mut places = Vec::new();
    while !cursor.take_mark("]") {
        places.push(place(cursor, |name, line| known(names, name, line))?);
        if !cursor.is_mark(0, "]") {
            cursor.mark(";", "or `]` behind a register or location")?;
        }
    }
    Ok(places)
}

fn quantifier(cursor: &mut Cursor) -> Result<Quantifier, Error> {
    let is_negated = cursor.take_mark("~") || cursor.take_word("not");
    if cursor.take_word("exists") {
        return Ok(if is_negated { Quantifier::NotExists } else { Quantifier::Exists });
    }
    if !is_negated && cursor.take_word("forall") {
        return Ok(Quantifier::Forall);
    }
    Err(cursor.error("a condition: `exists`, `~exists` or `forall`"))
}

fn known(names: &Names, name: &str, line: usize) -> Result<usize, Error> {
    names.find(name).ok_or_else(|| Error::at(line, format!("the test has no location {}", quoted(name))))
}

/// Reads statements: `\/` binds least, then `/\`, then `not`.
struct Reader<'c, 'a> {
    cursor: &'c mut Cursor<'a>,
    names: &'c Names,
}

impl Reader<'_, '_> {
    fn any(&mut self, depth: usize) -> Result<Condition, Error> {
        let mut parts = vec![self.all(depth)?];
        while self.cursor.take_mark("\\/") {
            parts.push(self.all(depth)?);
        }
        Ok(if parts.len() == 1 { parts.remove(0) } else { Condition::Any(parts) })
    }

    fn all(&mut self, depth: usize) -> Result<Condition, Error> {
        let mut parts = vec![self.one(depth)?];
        while self.cursor.take_mark("/\\") {
            parts.push(self.one(depth)?);
        }
        Ok(if parts.len() == 1 { parts.remove(0) } else { Condition::All(parts) })
    }

    fn one(&mut self, depth: usize) -> Result<Condition, Error> {
        if depth > MOST_NESTED {
            let sentence = format!("the condition nests deeper than {MOST_NESTED} brackets");
            return Err(Error::at(self.cursor.line(), sentence));
        }
        if self.cursor.take_mark("~") || self.cursor.take_word("not") {
            return Ok(Condition::Not(Box::new(self.one(depth + 1)?)));
        }
        if self.cursor.take_mark("(") {
            let inner = self.any(depth + 1)?;
            self.cursor.mark(")", "to close a bracket of the condition")?;
            return Ok(inner);
        }
        for (word, holds) in [("true", true), ("false", false)] {
            if self.cursor.is_word(word) && !self.cursor.is_mark(1, "=") {
                self.cursor.take_word(word);
                return Ok(Condition::Always(holds));
            }
        }
        self.equation()
    }

    /// `0:x5=1`, `x=1`, `0:x6=x`, and the same with `!=`.
    fn equation(&mut self) -> Result<Condition, Error> {
        let names = self.names;
        let place = place(self.cursor, |name, line| known(names, name, line))?;
        let is_negated = self.cursor.take_mark("!=");
        if !is_negated {
            self.cursor.mark("=", "between a register or location and its value")?;
        }
        let is = Condition::Is(place, self.value()?);
        Ok(if is_negated { Condition::Not(Box::new(is)) } else { is })
    }

    fn value(&mut self) -> Result<Value, Error> {
        let line = self.cursor.line();
        if self.cursor.peek(0).is_some_and(|token| token.kind == Kind::Word) {
            let name = self.cursor.name("a location")?;
            return known(self.names, name, line).map(Value::address);
        }
        number(self.cursor).map(Value::number)
    }
}

impl fmt::Display for Quantifier {
    fn fmt(&self, f: &mut fmt::Formatter) -> fmt::Result {
        write!(
            f,
            "{}",
            match self {
                Quantifier::Exists => "exists",
                Quantifier::NotExists => "~exists",
                Quantifier::Forall => "forall",
            }
        )
    }
}

/// The condition in words, with the names of its locations.
pub fn words(condition: &Condition, names: &[String]) -> String {
    let inner = |parts: &[Condition], sign: &str| {
        let parts: Vec<String> = parts.iter().map(|part| words(part, names)).collect();
        format!("({})", parts.join(sign))
    };
    match condition {
        Condition::Always(holds) => holds.to_string(),
        Condition::Is(place, value) => format!("{}={}", place_words(*place, names), value_words(*value, names)),
        Condition::Not(part) => format!("not ({})", words(part, names)),
        Condition::All(parts) => inner(parts, " /\\ "),
        Condition::Any(parts) => inner(parts, " \\/ "),
    }
}

/// A register or location as a condition names it.
pub fn place_words(place: Place, names: &[String]) -> String {
    match place {
        Place::Register(hart, register) => format!("{hart}:{register}"),
        Place::Location(location) => names[location].clone(),
    }
}

/// A value as a condition has it.
pub fn value_words(value: Value, names: &[String]) -> String {
    match value.location {
        Some(location) if value.number == 0 => names[location].clone(),
        Some(location) => format!("{}+{}", names[location], value.number as i64),
        None => (value.number as i64).to_string(),
    }
}

#[cfg(test)]
mod tests {
    use super::super::lexer::lex;
    use super::*;

    fn read_text(text: &str) -> Result<Question, Error> {
        let mut names = Names::default();
        names.number("x", 1)?;
        names.number("y", 1)?;
        read(&mut Cursor::of(lex(text, 1)?), &names)
    }

    fn shown_again(text: &str) -> String {
        words(&read_text(text).unwrap().condition, &["x".to_string(), "y".to_string()])
    }

    #[test]
    fn conditions_are_read_with_their_precedence() {
        assert_eq!(shown_again("exists (0:x5=1 /\\ x=0x2 \\/ y=-1)"), "((0:x5=1 /\\ x=2) \\/ y=-1)");
        assert_eq!(shown_again("forall not x=1 /\\ (~[y]=2 \\/ true)"), "(not (x=1) /\\ (not (y=2) \\/ true))");
        assert_eq!(shown_again("exists 0:a0=x /\\ 1:t0!=3"), "(0:a0=x /\\ not (1:t0=3))");
        assert_eq!(read_text("~exists x=1").unwrap().quantifier, Quantifier::NotExists);
        assert_eq!(read_text("locations [0:x5; y;] exists x=1").unwrap().observed().len(), 3);
    }

    #[test]
    fn what_is_known_decides() {
        let condition = read_text("exists (x=1 /\\ (y=1 \\/ not y=2))").unwrap().condition;
        let known = |x: Option<u64>, y: Option<u64>| {
            move |place| match place {
                Place::Location(0) => x.map(Value::number),
                _ => y.map(Value::number),
            }
        };
        assert_eq!(condition.holds(&known(Some(0), None)), Some(false));
        assert_eq!(condition.holds(&known(Some(1), None)), None);
        assert_eq!(condition.holds(&known(None, Some(2))), Some(false));
        assert_eq!(condition.holds(&known(Some(1), Some(3))), Some(true));
    }

    #[test]
    fn what_is_wrong_is_said() {
        let sentence = |text: &str| read_text(text).err().unwrap().sentence;
        assert_eq!(
            sentence("exists (x=1"),
            "the file ends where there must be `)` to close a bracket of the condition"
        );
        assert_eq!(sentence("exists x=1)"), "there must be `/\\`, `\\/` or the end of the file here, and not `)`");
        assert_eq!(sentence("exists z=1"), "the test has no location `z`");
        assert_eq!(
            sentence("sometimes x=1"),
            "there must be a condition: `exists`, `~exists` or `forall` here, and not `sometimes`"
        );
        assert_eq!(
            sentence("exists x 1"),
            "there must be `=` between a register or location and its value here, and not `1`"
        );
        assert!(sentence(&format!("exists {}", "(".repeat(100_000))).starts_with("the condition nests deeper"));
        assert!(sentence(&format!("exists {}", "~".repeat(100_000))).starts_with("the condition nests deeper"));
        assert_eq!(sentence(""), "the file ends where there must be a condition: `exists`, `~exists` or `forall`");
    }
}
