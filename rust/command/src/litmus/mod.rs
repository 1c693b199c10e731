//! Litmus files: RISC-V instructions in columns, with an initial state and a condition.

mod accesses;
mod arithmetic;
mod branches;
mod condition;
mod cursor;
pub mod edit;
mod fences;
mod header;
mod initial;
mod instruction;
mod lexer;
mod names;
mod operands;
mod operation;
mod program;
mod register;

pub use condition::{place_words, value_words, words, Condition, Quantifier, Question};
pub use initial::Place;
pub use instruction::{Access, AccessKind, Action, Instruction, Source};
pub use operation::{sign_extended, truncated, AmoOp, Comparison, Op};
pub use register::{Register, REGISTERS};

use crate::arguments::Model;
use crate::error::{quoted, Error};
use crate::value::Value;
use cursor::Cursor;
use initial::Given;
use names::Names;
use std::fmt;

/// The largest value that a location can have in a table.
pub const MOST_VALUE: u64 = u16::MAX as u64;

/// Whether an outcome is expected to be allowed.
#[derive(Clone, Copy, PartialEq, Eq, Debug)]
pub enum Expected {
    Allowed,
    Forbidden,
}

impl fmt::Display for Expected {
    fn fmt(&self, f: &mut fmt::Formatter) -> fmt::Result {
        write!(f, "{}", if *self == Expected::Allowed { "allowed" } else { "forbidden" })
    }
}

/// A hart: what its registers hold at first, and what it does.
#[derive(Clone, Debug)]
pub struct Hart {
    pub registers: [Value; REGISTERS],
    pub program: Vec<Instruction>,
}

/// A test as its file has it.
#[derive(Clone, Debug)]
pub struct Test {
    pub name: String,
    /// The model that it is decided in. A file doesn't state one.
    pub model: Model,
    /// What the file says that the outcome asked for should be.
    pub expected: Option<Expected>,
    /// The names of the locations, by number.
    pub locations: Vec<String>,
    /// Their initial values.
    pub initial: Vec<u16>,
    pub harts: Vec<Hart>,
    pub question: Question,
    /// The width of all accesses, in bytes.
    pub width: u32,
}

/// Reads a litmus file.
pub fn read(text: &str) -> Result<Test, Error> {
    let header = header::read(text)?;
    let lexed = lexer::lex(header.body, header.body_line)?;
    let result = header.result.or(lexed.result);
    let mut cursor = Cursor::of(lexed);
    let mut names = Names::default();
    let given = initial::read(&mut cursor, &mut names)?;
    let programs = program::read(&mut cursor, &mut names)?;
    let mut question = condition::read(&mut cursor, &names)?;
    let width = width(&programs).map_err(|error| error.or_line(question.line))?;
    question.condition.narrow(width);
    let mut test = Test {
        name: header.name.to_string(),
        model: Model::Rvwmo,
        expected: result.map(|(word, line)| expected(word, line, question.quantifier)).transpose()?,
        initial: vec![0; names.all().len()],
        locations: names.all().to_vec(),
        harts: programs.into_iter().map(|program| Hart { registers: Default::default(), program }).collect(),
        question,
        width,
    };
    for given in &given {
        test.give(given)?;
    }
    test.check_harts()?;
    test.check_sc()?;
    Ok(test)
}

/// What a word behind `Result=` says of the outcome asked for, which for `forall` is any outside the condition.
fn expected(word: &str, line: usize, quantifier: Quantifier) -> Result<Expected, Error> {
    let is_forall = quantifier == Quantifier::Forall;
    match word {
        "Allowed" => Ok(Expected::Allowed),
        "Forbidden" => Ok(Expected::Forbidden),
        "Never" if !is_forall => Ok(Expected::Forbidden),
        "Always" if is_forall => Ok(Expected::Forbidden),
        "Never" | "Sometimes" | "Always" => Ok(Expected::Allowed),
        _ => Err(Error::at(
            line,
            format!("the result {} isn't one of Allowed, Forbidden, Never, Sometimes and Always", quoted(word)),
        )),
    }
}

/// The width of all accesses, which has to be one.
fn width(programs: &[Vec<Instruction>]) -> Result<u32, Error> {
    let mut first: Option<(u32, &Instruction)> = None;
    for instruction in programs.iter().flatten() {
        let Action::Access(access) = &instruction.action else { continue };
        match first {
            None => first = Some((access.width, instruction)),
            Some((width, _)) if width == access.width => {}
            Some((_, other)) => {
                let sentence = format!(
                    "`{}` and `{}` on line {} have two widths, and mixed sizes are out of the model",
                    instruction.text, other.text, other.line
                );
                return Err(Error::at(instruction.line, sentence));
            }
        }
    }
    first.map(|(width, _)| width).ok_or_else(|| Error::new("no hart accesses memory"))
}

impl Test {
    fn give(&mut self, given: &Given) -> Result<(), Error> {
        match given.place {
            Place::Register(hart, register) => {
                let harts = self.harts.len();
                let sentence = || format!("there is no hart {hart}: the test has {harts} columns");
                let hart = self.harts.get_mut(hart).ok_or_else(|| Error::at(given.line, sentence()))?;
                if register.is_zero() && given.value != Value::number(0) {
                    return Err(Error::at(given.line, "x0 is always 0"));
                }
                hart.registers[register.index()] = given.value;
            }
            Place::Location(location) => self.initial[location] = self.memory_value(given.value, given.line)?,
        }
        Ok(())
    }

    /// A value as memory holds it: the bytes of one access, which have to be a number up to 65,535.
    pub fn memory_value(&self, value: Value, line: usize) -> Result<u16, Error> {
        if value.location.is_some() {
            return Err(Error::at(line, "an address as a value of memory isn't read"));
        }
        let number = truncated(value.number, self.width);
        let sentence = || format!("the value {number} in memory is above {MOST_VALUE}");
        u16::try_from(number).map_err(|_| Error::at(line, sentence()))
    }

    /// The condition names only harts of the test.
    fn check_harts(&self) -> Result<(), Error> {
        for place in self.question.observed() {
            if let Place::Register(hart, _) = place {
                if hart >= self.harts.len() {
                    let sentence = format!("the condition names hart {hart}, and the test has {}", self.harts.len());
                    return Err(Error::at(self.question.line, sentence));
                }
            }
        }
        Ok(())
    }

    /// In a table each SC has succeeded, so that no verdict on a failed one can be had.
    fn check_sc(&self) -> Result<(), Error> {
        for place in self.sc_results() {
            let succeeded = |other| (other == place).then_some(Value::number(0));
            let asked = self.question.asked();
            if asked.holds(&succeeded) == Some(false) && asked.holds(&|_| None) != Some(false) {
                let words = place_words(place, &self.locations);
                let sentence = format!("the condition asks for a failed SC ({words}), which is out of the model");
                return Err(Error::at(self.question.line, sentence));
            }
        }
        Ok(())
    }

    /// The registers that hold the result of an SC at the end.
    fn sc_results(&self) -> Vec<Place> {
        let mut places = Vec::new();
        for (hart, Hart { program, .. }) in self.harts.iter().enumerate() {
            for (index, instruction) in program.iter().enumerate() {
                let Action::Access(access) = &instruction.action else { continue };
                let is_last = !program[index + 1..].iter().any(|later| later.action.destination() == Some(access.to));
                if access.kind == AccessKind::Sc && is_last && !access.to.is_zero() {
                    places.push(Place::Register(hart, access.to));
                }
            }
        }
        places
    }

    /// Whether the test has an SC of which the condition doesn't say that it succeeds: a verdict is then only about the
    /// runs in which it does.
    pub fn assumes_sc(&self) -> bool {
        let asked = self.question.asked();
        let is_demanded =
            |place: &Place| asked.holds(&|other| (other == *place).then_some(Value::number(1))) == Some(false);
        self.sc_results().iter().filter(|place| is_demanded(place)).count() < self.sc_count()
    }

    /// How many SCs the test has. In its tables each of them has succeeded.
    pub fn sc_count(&self) -> usize {
        let is_sc = |instruction: &Instruction| match &instruction.action {
            Action::Access(access) => access.kind == AccessKind::Sc,
            _ => false,
        };
        self.harts.iter().flat_map(|hart| &hart.program).filter(|instruction| is_sc(instruction)).count()
    }
}

#[cfg(test)]
mod tests {
    use super::*;

    const PAIR: &str = "{ 0:x5=1; 0:x6=x; }\nP0 ;\nlr.w x7,(x6) ;\nsc.w x8,x5,(x6) ;\n";

    fn test(result: &str, condition: &str) -> Result<Test, Error> {
        read(&format!("RISCV a\n{result}\n{PAIR}{condition}"))
    }

    #[test]
    fn the_expectation_is_of_the_outcome_asked_for() {
        let expected = |result, condition| test(result, condition).unwrap().expected;
        assert_eq!(expected("Result=Never", "exists x=1"), Some(Expected::Forbidden));
        assert_eq!(expected("Result=Never", "~exists x=1"), Some(Expected::Forbidden));
        assert_eq!(expected("Result=Sometimes", "exists x=1"), Some(Expected::Allowed));
        assert_eq!(expected("Result=Always", "forall x=1"), Some(Expected::Forbidden));
        assert_eq!(expected("Result=Sometimes", "forall x=1"), Some(Expected::Allowed));
        assert_eq!(expected("(* Result: Forbidden *)", "forall x=1"), Some(Expected::Forbidden));
        assert_eq!(expected("", "exists x=1"), None);
    }

    #[test]
    fn values_of_locations_are_as_wide_as_the_accesses() {
        let text = "RISCV a\n{ x=-2; 0:x5=-1; 0:x6=x; }\nP0 ;\nsh x5,0(x6) ;\nexists x=-1";
        let test = read(text).unwrap();
        assert_eq!(test.initial, [0xfffe]);
        assert_eq!(words(&test.question.condition, &test.locations), "x=65535");
    }

    #[test]
    fn a_failed_sc_cannot_be_asked_for() {
        for condition in ["exists 0:x8=1", "exists (x=1 /\\ 0:x8!=0)", "forall 0:x8=0", "~exists not 0:x8=0"] {
            let error = test("", condition).err().unwrap_or_else(|| panic!("{condition}"));
            assert_eq!(error.sentence, "the condition asks for a failed SC (0:x8), which is out of the model");
            assert_eq!(error.line, Some(7));
        }
        for condition in ["exists 0:x8=0", "exists (0:x8=1 \\/ x=1)", "exists not 0:x8=1", "forall 0:x8=1"] {
            assert!(test("", condition).is_ok(), "{condition}");
        }
    }

    #[test]
    fn it_is_known_whether_the_condition_says_that_the_sc_succeeds() {
        assert!(!test("", "exists (0:x8=0 /\\ x=1)").unwrap().assumes_sc());
        assert!(test("", "exists x=1").unwrap().assumes_sc());
        assert!(test("", "exists (0:x8=0 \\/ x=1)").unwrap().assumes_sc());
    }
}
