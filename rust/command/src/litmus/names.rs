//! The locations of a test, numbered as the file names them.

use crate::error::{quoted, Error};

/// A test of the library has at most as many.
pub const MOST_LOCATIONS: usize = 8;

/// The names of the locations, each at its number.
#[derive(Clone, Default, Debug)]
pub struct Names {
    names: Vec<String>,
}

impl Names {
    /// The number of a location, a new one where the name is new.
    pub fn number(&mut self, name: &str, line: usize) -> Result<usize, Error> {
        if let Some(number) = self.find(name) {
            return Ok(number);
        }
        if self.names.len() == MOST_LOCATIONS {
            let sentence = format!("{} would be a ninth location, and a test has at most eight", quoted(name));
            return Err(Error::at(line, sentence));
        }
        self.names.push(name.to_string());
        Ok(self.names.len() - 1)
    }

    /// The number of a location that was named before.
    pub fn find(&self, name: &str) -> Option<usize> {
        self.names.iter().position(|known| known == name)
    }

    /// All names, by number.
    pub fn all(&self) -> &[String] {
        &self.names
    }
}
