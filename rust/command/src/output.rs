//! Standard output and standard error.

use crate::error::Error;
use crate::input::io_words;
use crate::Status;
use std::io::{self, stderr, Write};

/// The name of the program in front of its complaints.
const PROGRAM: &str = "cogthunder";

/// Standard output. A pipe that is closed is an error in words.
pub struct Output {
    to: io::Stdout,
}

impl Output {
    pub fn new() -> Output {
        Output { to: io::stdout() }
    }

    /// Writes lines, and hands them on at once.
    pub fn lines(&mut self, lines: &[String]) -> Result<(), String> {
        let text: String = lines.iter().flat_map(|line| [line.as_str(), "\n"]).collect();
        self.bytes(text.as_bytes())
    }

    /// Writes bytes to a file, or where none is named to standard output.
    pub fn to(&mut self, path: Option<&str>, bytes: &[u8]) -> Result<(), String> {
        match path {
            None => self.bytes(bytes),
            Some(path) => std::fs::write(path, bytes).map_err(|error| format!("{path}: {}", io_words(&error))),
        }
    }

    /// Writes bytes.
    pub fn bytes(&mut self, bytes: &[u8]) -> Result<(), String> {
        let mut to = self.to.lock();
        to.write_all(bytes).and_then(|()| to.flush()).map_err(|error| format!("standard output: {}", io_words(&error)))
    }
}

/// Complains about a file, and gives the status that follows.
pub fn unusable(file: &str, error: &Error) -> Status {
    complain(&error.of_file(file));
    Status::Unusable
}

/// One sentence on standard error. Where that is closed too, nobody can be told.
pub fn complain(sentence: &str) {
    let _ = writeln!(stderr(), "{PROGRAM}: {sentence}");
}
