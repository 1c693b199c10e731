//! Files and standard input. What a file holds is seen from its contents.

use crate::error::{Error, STANDARD_INPUT};
use std::fs::File;
use std::io::{self, Read};
use std::path::Path;

/// A block begins with it.
const MARKER: &[u8] = b"RVT1";
/// A litmus test isn't longer.
const MOST_TEXT: usize = 1_000_000;

/// What a file holds.
#[derive(Debug)]
pub enum Contents {
    /// The text of a litmus test.
    Litmus(String),
    /// One or more blocks.
    Blocks(Vec<u8>),
    /// A test as a text of numbers.
    Text(Vec<u8>),
}

/// Reads a file, or standard input for `-`.
pub fn read(name: &str) -> Result<Contents, Error> {
    let bytes = bytes(name).map_err(|error| Error::new(io_words(&error)))?;
    contents(bytes)
}

fn bytes(name: &str) -> io::Result<Vec<u8>> {
    if name == STANDARD_INPUT {
        return all_or_too_much(io::stdin().lock());
    }
    if Path::new(name).is_dir() {
        return Err(io::ErrorKind::IsADirectory.into());
    }
    all_or_too_much(File::open(name)?)
}

/// All bytes; of what isn't blocks no more than shows that it is too long, so that an endless file does no harm.
fn all_or_too_much(mut from: impl Read) -> io::Result<Vec<u8>> {
    let mut bytes = Vec::new();
    from.by_ref().take(MOST_TEXT as u64 + 1).read_to_end(&mut bytes)?;
    if bytes.starts_with(MARKER) {
        from.read_to_end(&mut bytes)?;
    }
    Ok(bytes)
}

/// An error of the system in words, without its number.
pub fn io_words(error: &io::Error) -> String {
    match error.kind() {
        io::ErrorKind::NotFound => "there is no such file".to_string(),
        io::ErrorKind::IsADirectory => "this is a directory, and not a file".to_string(),
        io::ErrorKind::PermissionDenied => "the file may not be opened".to_string(),
        io::ErrorKind::BrokenPipe => "the pipe is closed".to_string(),
        _ => error.to_string(),
    }
}

fn contents(bytes: Vec<u8>) -> Result<Contents, Error> {
    if bytes.is_empty() {
        return Err(Error::at(1, "the file is empty"));
    }
    if bytes.starts_with(MARKER) {
        return Ok(Contents::Blocks(bytes));
    }
    if let Some(place) = bytes.iter().position(|&byte| byte == 0) {
        return Err(Error::at(line(&bytes[..place]), "there is a zero byte: this is neither a text nor a block"));
    }
    if bytes.len() > MOST_TEXT {
        let sentence = format!("the text has more than {MOST_TEXT} bytes, and no litmus test is so long");
        return Err(Error::at(line(&bytes[..MOST_TEXT]), sentence));
    }
    let text = String::from_utf8(bytes).map_err(|error| {
        let valid = error.utf8_error().valid_up_to();
        Error::at(
            line(&error.as_bytes()[..valid]),
            "there are bytes that aren't UTF-8: this is neither a text nor a block",
        )
    })?;
    if text.starts_with(|c: char| c.is_ascii_digit()) {
        return Ok(Contents::Text(text.into_bytes()));
    }
    Ok(Contents::Litmus(text))
}

/// The line of what follows these bytes.
fn line(before: &[u8]) -> usize {
    1 + before.iter().filter(|&&byte| byte == b'\n').count()
}

#[cfg(test)]
mod tests {
    use super::*;

    #[test]
    fn contents_are_seen_from_the_bytes() {
        assert!(matches!(contents(b"RVT1rest".to_vec()), Ok(Contents::Blocks(_))));
        assert!(matches!(contents(b"RISCV a".to_vec()), Ok(Contents::Litmus(_))));
        assert_eq!(contents(b"a\n\xff".to_vec()).unwrap_err().line, Some(2));
        assert_eq!(contents(vec![0; 100]).unwrap_err().line, Some(1));
        assert!(contents(vec![b'a'; MOST_TEXT + 1]).is_err());
        assert!(contents(Vec::new()).is_err());
        assert!(matches!(contents(b"1 0 0\n".to_vec()), Ok(Contents::Text(_))));
    }
}
