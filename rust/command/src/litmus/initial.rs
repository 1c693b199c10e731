//! The initial state of a litmus file: `{ 0:x5=1; 0:x6=x; int x=2; }`.

use super::cursor::Cursor;
use super::lexer::Kind;
use super::names::Names;
use super::register::Register;
use crate::error::{quoted, Error};
use crate::value::Value;

/// Types that may stand before a register or a location. They say nothing that the instructions don't.
const TYPES: &str =
    "int long short char unsigned signed volatile const int8_t int16_t int32_t int64_t uint8_t uint16_t \
                     uint32_t uint64_t intptr_t uintptr_t";

/// What is given a value.
#[derive(Clone, Copy, PartialEq, Eq, Debug)]
pub enum Place {
    /// A register of a hart.
    Register(usize, Register),
    /// A location.
    Location(usize),
}

impl Place {
    /// Its place in a list: registers first, by their harts, then locations.
    pub fn rank(&self) -> (usize, usize, usize) {
        match *self {
            Place::Register(hart, register) => (0, hart, register.index()),
            Place::Location(location) => (1, location, 0),
        }
    }
}

/// A place, its value and the line that says so.
pub struct Given {
    pub place: Place,
    pub value: Value,
    pub line: usize,
}

/// Reads the braces and what is between them.
pub fn read(cursor: &mut Cursor, names: &mut Names) -> Result<Vec<Given>, Error> {
    cursor.mark("{", "before the initial state")?;
    let mut all: Vec<Given> = Vec::new();
    while !cursor.take_mark("}") {
        if cursor.take_mark(";") {
            continue;
        }
        let given = entry(cursor, names)?;
        if all.iter().any(|other| other.place == given.place) {
            return Err(Error::at(given.line, "this register or location already has an initial value"));
        }
        all.push(given);
        if !cursor.is_mark(0, "}") {
            cursor.mark(";", "or `}` behind an initial value")?;
        }
    }
    Ok(all)
}

/// A register or location with its value, which is 0 if none is written.
fn entry(cursor: &mut Cursor, names: &mut Names) -> Result<Given, Error> {
    skip_type(cursor)?;
    let line = cursor.line();
    let place = place(cursor, |name, line| names.number(name, line))?;
    let value = if cursor.take_mark("=") { value(cursor, names)? } else { Value::number(0) };
    Ok(Given { place, value, line })
}

/// A type stands before something that isn't `=`, `;` or `}`.
fn skip_type(cursor: &mut Cursor) -> Result<(), Error> {
    let is_value_next = |cursor: &Cursor| match cursor.peek(1) {
        Some(token) => matches!(token.kind, Kind::Word | Kind::Number(_)) || token.is("*"),
        None => false,
    };
    while cursor.peek(0).is_some_and(|token| token.kind == Kind::Word) && is_value_next(cursor) {
        let line = cursor.line();
        let word = cursor.name("a type")?;
        if !TYPES.split(' ').any(|known| known == word) {
            return Err(Error::at(line, format!("{} isn't a type that litmus tests have", quoted(word))));
        }
        if cursor.is_mark(0, "*") && cursor.peek(2).is_some_and(|token| token.is(":")) {
            cursor.take_mark("*");
        }
    }
    Ok(())
}

/// `0:x5`, `x`, `[x]` or `*x`.
pub fn place(
    cursor: &mut Cursor,
    mut location: impl FnMut(&str, usize) -> Result<usize, Error>,
) -> Result<Place, Error> {
    let line = cursor.line();
    if cursor.peek(0).is_some_and(|token| matches!(token.kind, Kind::Number(_))) {
        let hart = cursor.number("a hart")?;
        cursor.mark(":", "between hart and register")?;
        let name = cursor.name("a register")?;
        let sentence = || format!("{} isn't a register: they are x0 to x31, or zero, ra, .. t6", quoted(name));
        let register = Register::of(name).ok_or_else(|| Error::at(line, sentence()))?;
        return Ok(Place::Register(usize::try_from(hart).unwrap_or(usize::MAX), register));
    }
    let in_brackets = cursor.take_mark("[");
    if !in_brackets {
        cursor.take_mark("*");
    }
    let name = cursor.name("a register such as 0:x5 or a location")?;
    if in_brackets {
        cursor.mark("]", "behind the location")?;
    }
    location(name, line).map(Place::Location)
}

/// A number, or a location for its address.
fn value(cursor: &mut Cursor, names: &mut Names) -> Result<Value, Error> {
    if cursor.is_mark(0, "-") || cursor.peek(0).is_some_and(|token| matches!(token.kind, Kind::Number(_))) {
        return number(cursor).map(Value::number);
    }
    cursor.take_mark("&");
    let line = cursor.line();
    let name = cursor.name("a number or a location")?;
    names.number(name, line).map(Value::address)
}

/// A number that may be negative, as its 64 bits.
pub fn number(cursor: &mut Cursor) -> Result<u64, Error> {
    if cursor.take_mark("-") {
        return cursor.number("a number").map(u64::wrapping_neg);
    }
    cursor.number("a number")
}

#[cfg(test)]
mod tests {
    use super::super::lexer::lex;
    use super::*;

    fn read_text(text: &str) -> Result<(Vec<(Place, Value)>, Names), Error> {
        let mut names = Names::default();
        let given = read(&mut Cursor::of(lex(text, 1)?), &mut names)?;
        Ok((given.iter().map(|given| (given.place, given.value)).collect(), names))
    }

    #[test]
    fn registers_addresses_and_memory() {
        let (given, names) = read_text("{ 0:x5=0x10; 0:a0=x; int y=2; uint64_t 1:x7=-1; [x]=3; int z }").unwrap();
        let register = |hart, name| Place::Register(hart, Register::of(name).unwrap());
        assert_eq!(
            given,
            [
                (register(0, "x5"), Value::number(16)),
                (register(0, "x10"), Value::address(0)),
                (Place::Location(1), Value::number(2)),
                (register(1, "x7"), Value::number(u64::MAX)),
                (Place::Location(0), Value::number(3)),
                (Place::Location(2), Value::number(0)),
            ]
        );
        assert_eq!(names.all(), ["x", "y", "z"]);
    }

    #[test]
    fn what_is_wrong_is_said() {
        let sentence = |text| read_text(text).err().unwrap().sentence;
        assert_eq!(sentence("{ x=1; x=2 }"), "this register or location already has an initial value");
        assert_eq!(sentence("{ 0:x5=1; 0:t0=1 }"), "this register or location already has an initial value");
        assert_eq!(sentence("{ 0:x40=1 }"), "`x40` isn't a register: they are x0 to x31, or zero, ra, .. t6");
        assert_eq!(sentence("{ float x=1 }"), "`float` isn't a type that litmus tests have");
        assert_eq!(sentence("{ x=1"), "the file ends where there must be `;` or `}` behind an initial value");
        assert_eq!(sentence("{ x= }"), "there must be a number or a location here, and not `}`");
        let nine: String = (0..9).map(|k| format!("v{k}=0;")).collect();
        assert_eq!(sentence(&format!("{{ {nine} }}")), "`v8` would be a ninth location, and a test has at most eight");
    }
}
