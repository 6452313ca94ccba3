//! Reading single fields, and a cursor that reads one field after another.

use crate::number::{read_number, VINT_BYTES, VLONG_BYTES};
use crate::text::is_text;

/// The most bytes of a cache name.
pub const NAME_LIMIT: usize = 32;
/// The most bytes of a key.
pub const KEY_LIMIT: usize = 64;
/// The most bytes of a value.
pub const VALUE_LIMIT: usize = 256;
/// The most bytes of an error text.
pub const TEXT_LIMIT: usize = 64;
/// The number of bytes of an entry version.
pub const VERSION_BYTES: usize = 8;

/// The answer of every reader.
#[derive(Clone, Debug, PartialEq, Eq)]
pub enum Read<T> {
    /// The thing read, and how many bytes it took.
    Whole(T, usize),
    /// The bytes end before the thing is whole.
    More,
    /// The refusal number.
    Refused(u8),
}

/// Reads a length, which is a vInt, and so many bytes.
pub fn read_limited(bytes: &[u8], limit: usize) -> Read<&[u8]> {
    let (length, start) = match read_number(bytes, VINT_BYTES) {
        Read::Whole(length, start) => (length, start),
        Read::More => return Read::More,
        Read::Refused(number) => return Read::Refused(number),
    };
    if length > limit as u64 {
        return Read::Refused(6);
    }
    let behind = &bytes[start..];
    let length = length as usize;
    if behind.len() < length {
        return Read::More;
    }
    Read::Whole(&behind[..length], start + length)
}

/// Reads a length and so many bytes, which must be UTF-8.
pub fn read_limited_text(bytes: &[u8], limit: usize) -> Read<&[u8]> {
    match read_limited(bytes, limit) {
        Read::Whole(text, _) if !is_text(text) => Read::Refused(7),
        answer => answer,
    }
}

/// Reads an entry version: eight bytes, highest first.
pub fn read_version(bytes: &[u8]) -> Read<u64> {
    if bytes.len() < VERSION_BYTES {
        return Read::More;
    }
    let mut version: u64 = 0;
    for byte in &bytes[..VERSION_BYTES] {
        version = version * 256 + u64::from(*byte);
    }
    Read::Whole(version, VERSION_BYTES)
}

/// Puts eight bytes, highest first, behind the bytes in `out`.
pub fn write_eight(number: u64, out: &mut Vec<u8>) {
    out.extend_from_slice(&number.to_be_bytes());
}

/// Puts a length and the bytes themselves behind the bytes in `out`.
pub fn write_limited(bytes: &[u8], out: &mut Vec<u8>) {
    crate::number::write_number(bytes.len() as u64, out);
    out.extend_from_slice(bytes);
}

/// Why a cursor could not go on.
#[derive(Clone, Copy, Debug, PartialEq, Eq)]
pub enum Stop {
    More,
    Refused(u8),
}

/// Reads fields one after another.
pub struct Cursor<'a> {
    bytes: &'a [u8],
    at: usize,
}

impl<'a> Cursor<'a> {
    pub fn new(bytes: &'a [u8]) -> Cursor<'a> {
        Cursor { bytes, at: 0 }
    }

    /// The bytes not read yet.
    pub fn rest(&self) -> &'a [u8] {
        &self.bytes[self.at..]
    }

    /// Goes behind a field that is whole.
    fn pass<T>(&mut self, field: Read<T>) -> Result<T, Stop> {
        match field {
            Read::Whole(value, taken) => {
                self.at += taken;
                Ok(value)
            }
            Read::More => Err(Stop::More),
            Read::Refused(number) => Err(Stop::Refused(number)),
        }
    }

    /// One byte that must pass the test, else it is the refusal given.
    pub fn byte(&mut self, good: impl Fn(u8) -> bool, refusal: u8) -> Result<u8, Stop> {
        let field = match self.rest().first() {
            None => Read::More,
            Some(&byte) if good(byte) => Read::Whole(byte, 1),
            Some(_) => Read::Refused(refusal),
        };
        self.pass(field)
    }

    pub fn vint(&mut self) -> Result<u32, Stop> {
        let number = self.pass(read_number(self.rest(), VINT_BYTES))?;
        Ok(number as u32)
    }

    pub fn vlong(&mut self) -> Result<u64, Stop> {
        self.pass(read_number(self.rest(), VLONG_BYTES))
    }

    pub fn eight(&mut self) -> Result<u64, Stop> {
        self.pass(read_version(self.rest()))
    }

    pub fn limited(&mut self, limit: usize) -> Result<Vec<u8>, Stop> {
        let bytes = self.pass(read_limited(self.rest(), limit))?;
        Ok(bytes.to_vec())
    }

    pub fn limited_text(&mut self, limit: usize) -> Result<Vec<u8>, Stop> {
        let bytes = self.pass(read_limited_text(self.rest(), limit))?;
        Ok(bytes.to_vec())
    }

    /// The answer to the caller, when all fields were tried.
    pub fn answer<T>(&self, message: Result<T, Stop>) -> Read<T> {
        match message {
            Ok(message) => Read::Whole(message, self.at),
            Err(Stop::More) => Read::More,
            Err(Stop::Refused(number)) => Read::Refused(number),
        }
    }
}

/// Copies a written message to the front of the caller's buffer, or gives 12
/// if there is not room enough. The bytes behind the message are kept.
pub fn copy_out(message: &[u8], out: &mut [u8]) -> Result<usize, u8> {
    if out.len() < message.len() {
        return Err(12);
    }
    out[..message.len()].copy_from_slice(message);
    Ok(message.len())
}
