//! The byte streams that the commands read and write. Numbers are little endian.

/// What a lent buffer holds before a call.
pub const PREFILL: u8 = 0xEE;

/// Reads the parts of a stream one after the other.
pub struct Stream<'a> {
    rest: &'a [u8],
}

/// The stream ended within a part, or a tag is unknown.
#[derive(Debug)]
pub struct Malformed;

impl<'a> Stream<'a> {
    pub fn new(bytes: &'a [u8]) -> Stream<'a> {
        Stream { rest: bytes }
    }

    pub fn is_empty(&self) -> bool {
        self.rest.is_empty()
    }

    fn take(&mut self, length: usize) -> Result<&'a [u8], Malformed> {
        if self.rest.len() < length {
            return Err(Malformed);
        }
        let (taken, rest) = self.rest.split_at(length);
        self.rest = rest;
        Ok(taken)
    }

    pub fn byte(&mut self) -> Result<u8, Malformed> {
        Ok(self.take(1)?[0])
    }

    /// A number of eight bytes.
    pub fn number(&mut self) -> Result<u64, Malformed> {
        let bytes = self.take(size_of::<u64>())?;
        Ok(bytes.iter().rev().fold(0, |number, &byte| number << u8::BITS | u64::from(byte)))
    }

    /// A number of two bytes.
    pub fn word(&mut self) -> Result<u16, Malformed> {
        Ok(u16::from_le_bytes([self.byte()?, self.byte()?]))
    }

    /// A mask of four bytes.
    pub fn mask(&mut self) -> Result<u32, Malformed> {
        Ok(u32::from(self.word()?) | u32::from(self.word()?) << u16::BITS)
    }

    /// A length of one byte, then that many bytes.
    pub fn list(&mut self) -> Result<&'a [u8], Malformed> {
        let length = self.byte()?;
        self.take(length.into())
    }

    /// A length of one byte, then that many numbers of two bytes.
    pub fn values(&mut self) -> Result<Vec<u16>, Malformed> {
        let length = self.byte()?;
        (0..length).map(|_| self.word()).collect()
    }

    /// A length of two bytes, then that many bytes.
    pub fn frame(&mut self) -> Result<&'a [u8], Malformed> {
        let length = self.word()?;
        self.take(length.into())
    }
}

/// Writes what `Stream::list` reads.
pub fn push_list(stream: &mut Vec<u8>, bytes: &[u8]) {
    stream.push(u8::try_from(bytes.len()).expect("a list's length has one byte"));
    stream.extend(bytes);
}

/// Writes what `Stream::values` reads.
pub fn push_values(stream: &mut Vec<u8>, values: &[u16]) {
    stream.push(u8::try_from(values.len()).expect("a list's length has one byte"));
    stream.extend(values.iter().flat_map(|value| value.to_le_bytes()));
}

/// Writes what `Stream::frame` reads.
pub fn push_frame(stream: &mut Vec<u8>, bytes: &[u8]) {
    let length = u16::try_from(bytes.len()).expect("a frame's length has two bytes");
    stream.extend(length.to_le_bytes());
    stream.extend(bytes);
}
