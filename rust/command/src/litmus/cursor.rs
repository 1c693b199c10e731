//! The tokens of a file, read one after the other.

use super::lexer::{Kind, Lexed, Token};
use crate::error::{quoted, Error};

/// A place among tokens.
pub struct Cursor<'a> {
    tokens: Vec<Token<'a>>,
    at: usize,
    last_line: usize,
}

impl<'a> Cursor<'a> {
    /// At the first token.
    pub fn of(lexed: Lexed<'a>) -> Cursor<'a> {
        Cursor { tokens: lexed.tokens, at: 0, last_line: lexed.last_line }
    }

    /// The token that is `ahead` tokens further on; None past the end.
    pub fn peek(&self, ahead: usize) -> Option<Token<'a>> {
        self.tokens.get(self.at + ahead).copied()
    }

    /// The line of the next token; at the end, the last line.
    pub fn line(&self) -> usize {
        self.peek(0).map_or(self.last_line, |token| token.line)
    }

    /// Takes the next token, whatever it is.
    pub fn next(&mut self) -> Option<Token<'a>> {
        let token = self.peek(0)?;
        self.at += 1;
        Some(token)
    }

    /// Whether the token `ahead` tokens further on is this mark.
    pub fn is_mark(&self, ahead: usize, mark: &str) -> bool {
        self.peek(ahead).is_some_and(|token| token.is(mark))
    }

    /// Whether the next token is this word.
    pub fn is_word(&self, word: &str) -> bool {
        self.peek(0).is_some_and(|token| token.kind == Kind::Word && token.text == word)
    }

    /// Takes the mark if it is next.
    pub fn take_mark(&mut self, mark: &str) -> bool {
        let is_next = self.is_mark(0, mark);
        self.at += usize::from(is_next);
        is_next
    }

    /// Takes the word if it is next.
    pub fn take_word(&mut self, word: &str) -> bool {
        let is_next = self.is_word(word);
        self.at += usize::from(is_next);
        is_next
    }

    /// Takes a mark that has to be next; `what` is what it does there.
    pub fn mark(&mut self, mark: &str, what: &str) -> Result<(), Error> {
        if self.take_mark(mark) {
            return Ok(());
        }
        Err(self.error(&format!("`{mark}` {what}")))
    }

    /// Takes a name that has to be next.
    pub fn name(&mut self, what: &str) -> Result<&'a str, Error> {
        match self.peek(0) {
            Some(token) if token.kind == Kind::Word => {
                self.at += 1;
                Ok(token.text)
            }
            _ => Err(self.error(what)),
        }
    }

    /// Takes a number that has to be next.
    pub fn number(&mut self, what: &str) -> Result<u64, Error> {
        match self.peek(0) {
            Some(Token { kind: Kind::Number(number), .. }) => {
                self.at += 1;
                Ok(number)
            }
            _ => Err(self.error(what)),
        }
    }

    /// What had to be next, and what is.
    pub fn error(&self, needed: &str) -> Error {
        match self.peek(0) {
            Some(token) => {
                Error::at(token.line, format!("there must be {needed} here, and not {}", quoted(token.text)))
            }
            None => Error::at(self.last_line, format!("the file ends where there must be {needed}")),
        }
    }
}
