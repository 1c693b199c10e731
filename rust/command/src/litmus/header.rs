//! The header of a litmus file: the architecture, the name, and lines such as `Result=Never`.

use super::lexer::Lexer;
use crate::error::{quoted, Error};

const ARCHITECTURE: &str = "RISCV";

/// Other architectures that litmus files are written for.
const OTHERS: [&str; 13] =
    ["AArch64", "ARM", "PPC", "X86", "X86_64", "MIPS", "C", "CPP", "LISA", "BPF", "ASL", "JAVA", "Bell"];

/// The key of the line that states what the test is expected to give.
const RESULT: &str = "Result";

/// What the header says, and where the rest begins.
pub struct Header<'a> {
    pub name: &'a str,
    pub result: Option<(&'a str, usize)>,
    pub body: &'a str,
    pub body_line: usize,
}

/// Reads up to the brace that opens the initial state.
pub fn read(text: &str) -> Result<Header<'_>, Error> {
    let mut lexer = Lexer { rest: text, line: 1, result: None };
    if !lexer.skip()? {
        return Err(Error::at(lexer.line, "the file has no test"));
    }
    let name = title(lexer.line, line(&mut lexer))?;
    let mut result = None;
    while lexer.skip()? && !lexer.rest.starts_with('{') {
        if lexer.rest.starts_with('"') {
            description(&mut lexer)?;
            continue;
        }
        let number = lexer.line;
        let (key, value) = stated(number, line(&mut lexer))?;
        if key == RESULT {
            result = Some((value, number));
        }
    }
    if lexer.rest.is_empty() {
        return Err(Error::at(lexer.line, "the file ends before the initial state, which `{` begins"));
    }
    Ok(Header { name, result: result.or(lexer.result), body: lexer.rest, body_line: lexer.line })
}

/// Takes the rest of a line.
fn line<'a>(lexer: &mut Lexer<'a>) -> &'a str {
    lexer.take(lexer.rest.find('\n').unwrap_or(lexer.rest.len())).trim()
}

/// The name of the test, from the line that begins with the architecture.
fn title(number: usize, line: &str) -> Result<&str, Error> {
    let (architecture, name) = line.split_once(char::is_whitespace).unwrap_or((line, ""));
    if architecture != ARCHITECTURE {
        let known = OTHERS.contains(&architecture);
        let sentence = if known {
            format!("the test is for {architecture}, and only those for {ARCHITECTURE} are read")
        } else {
            format!("a litmus test begins with {ARCHITECTURE} and its name, and not with {}", quoted(line))
        };
        return Err(Error::at(number, sentence));
    }
    if name.trim().is_empty() {
        return Err(Error::at(number, format!("the test has no name behind {ARCHITECTURE}")));
    }
    Ok(name.trim())
}

/// Takes a description in quotes.
fn description(lexer: &mut Lexer) -> Result<(), Error> {
    match lexer.rest[1..].find('"') {
        Some(length) => {
            lexer.take(length + 2);
            Ok(())
        }
        None => Err(Error::at(lexer.line, "the description that begins here isn't closed by `\"`")),
    }
}

/// The two sides of a line `Key=value`.
fn stated(number: usize, line: &str) -> Result<(&str, &str), Error> {
    match line.split_once('=') {
        Some((key, value)) => Ok((key.trim(), value.trim())),
        None => Err(Error::at(
            number,
            format!("before the initial state there must be a line `Key=value` or `{{`, and not {}", quoted(line)),
        )),
    }
}

#[cfg(test)]
mod tests {
    use super::*;

    #[test]
    fn the_name_and_the_result_are_found() {
        let header = read("RISCV MP+po \n\"PodWW Rfe\"\nCom=Rf Fr\nResult=Sometimes\n{ x=0; }").unwrap();
        assert_eq!((header.name, header.result, header.body_line), ("MP+po", Some(("Sometimes", 4)), 5));
        assert!(header.body.starts_with("{ x=0;"));
        assert_eq!(read("(* Result: Never *)\nRISCV a\n{").unwrap().result, Some(("Never", 1)));
    }

    #[test]
    fn what_is_wrong_is_said() {
        let sentence = |text| read(text).err().unwrap().sentence;
        assert_eq!(sentence("AArch64 MP\n{"), "the test is for AArch64, and only those for RISCV are read");
        assert!(sentence("hello").starts_with("a litmus test begins with RISCV and its name"));
        assert_eq!(sentence("RISCV\n{"), "the test has no name behind RISCV");
        assert_eq!(sentence("RISCV a\n\"b"), "the description that begins here isn't closed by `\"`");
        assert!(sentence("RISCV a\nb\n{").starts_with("before the initial state"));
        assert!(sentence("RISCV a\n").starts_with("the file ends before"));
        assert_eq!(sentence(" \n"), "the file has no test");
    }
}
