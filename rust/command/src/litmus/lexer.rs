//! The words of a litmus file after its header, with their lines.

use crate::error::{quoted, Error};

/// The marks of more than one character, before those that they begin with.
const LONG_MARKS: [&str; 3] = ["/\\", "\\/", "!="];
const MARKS: [&str; 16] = ["&", "{", "}", "(", ")", "[", "]", ";", ":", "=", ",", "|", "*", "~", "-", "+"];

/// What a token is.
#[derive(Clone, Copy, PartialEq, Eq, Debug)]
pub enum Kind {
    /// A name, an instruction, a register, a keyword.
    Word,
    /// A number, decimal or hexadecimal.
    Number(u64),
    /// A mark, as it is written.
    Mark(&'static str),
}

/// A token and where it stands.
#[derive(Clone, Copy, Debug)]
pub struct Token<'a> {
    /// What it is.
    pub kind: Kind,
    /// As it is written.
    pub text: &'a str,
    /// Its line, from 1.
    pub line: usize,
}

impl Token<'_> {
    /// Whether it is this mark.
    pub fn is(&self, mark: &str) -> bool {
        matches!(self.kind, Kind::Mark(own) if own == mark)
    }
}

/// The tokens of a text that begins on a given line, and the result that a comment states, as `(* Result: Never *)` does.
pub struct Lexed<'a> {
    pub tokens: Vec<Token<'a>>,
    pub result: Option<(&'a str, usize)>,
    pub last_line: usize,
}

/// Reads all tokens.
pub fn lex(text: &str, first_line: usize) -> Result<Lexed<'_>, Error> {
    let mut lexer = Lexer { rest: text, line: first_line, result: None };
    let mut tokens = Vec::new();
    while lexer.skip()? {
        tokens.push(lexer.token()?);
    }
    Ok(Lexed { tokens, result: lexer.result, last_line: lexer.line })
}

/// Reads characters, and counts lines. The header's reader uses it too.
pub struct Lexer<'a> {
    pub rest: &'a str,
    pub line: usize,
    pub result: Option<(&'a str, usize)>,
}

impl<'a> Lexer<'a> {
    /// Takes the first `length` bytes.
    pub fn take(&mut self, length: usize) -> &'a str {
        let (taken, rest) = self.rest.split_at(length);
        self.line += taken.bytes().filter(|&b| b == b'\n').count();
        self.rest = rest;
        taken
    }

    /// Takes blanks and comments. False at the end of the file.
    pub fn skip(&mut self) -> Result<bool, Error> {
        loop {
            self.take(self.rest.len() - self.rest.trim_start().len());
            if self.rest.starts_with("(*") {
                self.comment()?;
            } else if self.rest.starts_with("//") {
                self.take(self.rest.find('\n').unwrap_or(self.rest.len()));
            } else {
                return Ok(!self.rest.is_empty());
            }
        }
    }

    /// A comment ends where as many are closed as were opened in it.
    fn comment(&mut self) -> Result<(), Error> {
        let (line, mut depth, mut end) = (self.line, 0, 0);
        loop {
            let rest = &self.rest.as_bytes()[end..];
            match rest {
                [b'(', b'*', ..] => (depth, end) = (depth + 1, end + 2),
                [b'*', b')', ..] => (depth, end) = (depth - 1, end + 2),
                [_, ..] => end += 1,
                [] => return Err(Error::at(line, "the comment that begins here isn't closed")),
            }
            if depth == 0 {
                break;
            }
        }
        let comment = self.take(end);
        if let Some((_, result)) = comment.split_once("Result:") {
            self.result = result.split_whitespace().next().map(|word| (word, line));
        }
        Ok(())
    }

    fn token(&mut self) -> Result<Token<'a>, Error> {
        let (line, rest) = (self.line, self.rest);
        if let Some(mark) = LONG_MARKS.iter().chain(&MARKS).find(|mark| rest.starts_with(**mark)) {
            return Ok(Token { kind: Kind::Mark(mark), text: self.take(mark.len()), line });
        }
        let is_part = |c: char| c.is_ascii_alphanumeric() || c == '_' || c == '.';
        let text = self.take(rest.find(|c| !is_part(c)).unwrap_or(rest.len()));
        let kind = match text.bytes().next() {
            None => {
                let character = rest.chars().next().map(String::from).unwrap_or_default();
                return Err(Error::at(line, format!("a litmus test has no character {} here", quoted(&character))));
            }
            Some(b'0'..=b'9') => Kind::Number(number(text).map_err(|sentence| Error::at(line, sentence))?),
            Some(_) => Kind::Word,
        };
        Ok(Token { kind, text, line })
    }
}

fn number(text: &str) -> Result<u64, String> {
    let lower = text.to_ascii_lowercase();
    let (digits, radix) = match lower.strip_prefix("0x") {
        Some(digits) => (digits, 16),
        None => (&lower[..], 10),
    };
    if digits.is_empty() || !digits.chars().all(|c| c.is_digit(radix)) {
        return Err(format!("{} is neither a number nor a name", quoted(text)));
    }
    u64::from_str_radix(digits, radix).map_err(|_| format!("the number {} has more than 64 bits", quoted(text)))
}

#[cfg(test)]
mod tests {
    use super::*;

    fn texts(text: &str) -> Vec<(&str, usize)> {
        lex(text, 1).unwrap().tokens.iter().map(|token| (token.text, token.line)).collect()
    }

    #[test]
    fn words_numbers_and_marks() {
        assert_eq!(
            texts("0:x5=0x1F;\n amoadd.w.aq | /\\ \\/"),
            [("0", 1), (":", 1), ("x5", 1), ("=", 1), ("0x1F", 1), (";", 1)]
                .into_iter()
                .chain([("amoadd.w.aq", 2), ("|", 2), ("/\\", 2), ("\\/", 2)])
                .collect::<Vec<_>>()
        );
        assert_eq!(lex("0x1F", 1).unwrap().tokens[0].kind, Kind::Number(31));
    }

    #[test]
    fn comments_nest_and_may_state_the_result() {
        assert_eq!(texts("a (* b (* c *)\n d *) e // f\ng"), [("a", 1), ("e", 2), ("g", 3)]);
        assert_eq!(lex("(* Result: Never *) x", 4).unwrap().result, Some(("Never", 4)));
    }

    #[test]
    fn what_cannot_be_read_is_said_with_its_line() {
        let error = |text| lex(text, 1).err().unwrap();
        assert_eq!(error("a\n(* b"), Error::at(2, "the comment that begins here isn't closed"));
        assert_eq!(error("a\n%"), Error::at(2, "a litmus test has no character `%` here"));
        assert_eq!(error("0x"), Error::at(1, "`0x` is neither a number nor a name"));
        assert_eq!(error("1b"), Error::at(1, "`1b` is neither a number nor a name"));
        assert!(error("99999999999999999999").sentence.ends_with("has more than 64 bits"));
    }
}
