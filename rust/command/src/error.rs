//! What went wrong, in one sentence, and on which line of the file.

use cogthunder::Refusal;

/// The name that stands for standard input.
pub const STANDARD_INPUT: &str = "-";

/// An error of one file. Whoever prints it adds the file's name.
#[derive(Clone, PartialEq, Eq, Debug)]
pub struct Error {
    /// The line, from 1, where the sentence is about one.
    pub line: Option<usize>,
    /// Without a full stop.
    pub sentence: String,
}

impl Error {
    /// An error of the whole file.
    pub fn new(sentence: impl Into<String>) -> Error {
        Error { line: None, sentence: sentence.into() }
    }

    /// An error on a line.
    pub fn at(line: usize, sentence: impl Into<String>) -> Error {
        Error { line: Some(line), sentence: sentence.into() }
    }

    /// The library refuses the table of a test.
    pub fn declined(refusal: Refusal) -> Error {
        Error::new(format!("the library declines the table, {refusal}"))
    }

    /// The library refuses a witness that it gave.
    pub fn declined_witness(refusal: Refusal) -> Error {
        Error::new(format!("internal error: the library declines a witness, {refusal}"))
    }

    /// The error on this line, if it has none of its own.
    pub fn or_line(mut self, line: usize) -> Error {
        self.line.get_or_insert(line);
        self
    }

    /// The error with its file, as it is printed.
    pub fn of_file(&self, file: &str) -> String {
        let file = if file == STANDARD_INPUT { "standard input" } else { file };
        match self.line {
            Some(line) => format!("{file}:{line}: {}", self.sentence),
            None => format!("{file}: {}", self.sentence),
        }
    }
}

/// Why some text isn't what is needed there; kept short, since garbage can be long.
pub fn quoted(text: &str) -> String {
    const MOST: usize = 40;
    let shown: String = text.chars().take(MOST).map(|c| if c.is_control() { '?' } else { c }).collect();
    let dots = if text.chars().count() > MOST { ".." } else { "" };
    format!("`{shown}{dots}`")
}

#[cfg(test)]
mod tests {
    use super::*;

    #[test]
    fn an_error_names_its_file_and_line() {
        assert_eq!(Error::at(3, "no").of_file("a.litmus"), "a.litmus:3: no");
        assert_eq!(Error::new("no").of_file("a.litmus"), "a.litmus: no");
    }

    #[test]
    fn garbage_is_shown_short() {
        assert_eq!(quoted("a\u{1b}b"), "`a?b`");
        assert_eq!(quoted(&"x".repeat(1000)).len(), 44);
    }
}
