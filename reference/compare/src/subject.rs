//! The functions that are compared, over byte slices, and their return codes.

use reference::{Read, Verdict};

pub use reference::Asked;

/// A message read or written is this code plus its length; served is this
/// code alone. More needed is 0, a refusal its number.
pub const GOOD: u64 = 0x100;

/// A stream that ends before a call for which no room is left.
pub const FULL: u64 = 0x101;

/// The ends of many connections are none.
pub const NO_ENDS: u64 = 0x102;

/// The answer to a call whose list for the answer is too short: nothing is
/// done.
pub const UNTOLD: u64 = 12;

/// The words of an answer.
pub const REQUEST_WORDS: usize = 17;
pub const REPLY_WORDS: usize = 21;
pub const ENTRY_WORDS: usize = 6;
pub const SERVE_WORDS: usize = 2;
pub const STREAM_WORDS: usize = 3;
pub const LINES_WORDS: usize = 3;
/// For each connection.
pub const SHARE_WORDS: usize = 3;
pub const KEYS_WORDS: usize = 2;

/// The numbers a writer is given.
pub const REQUEST_NUMBERS: usize = 10;
pub const REPLY_NUMBERS: usize = 4;
pub const STATISTICS_NUMBERS: usize = 9;

/// The numbers for one entry of a bulk reply: start and length of its key and
/// of its value.
pub const ENTRY_NUMBERS: usize = 4;

/// What is sent beside the numbers: of a request name, key and value, of a
/// reply value and text.
#[derive(Clone, Copy)]
pub struct RequestParts<'a> {
    pub name: &'a [u8],
    pub key: &'a [u8],
    pub value: &'a [u8],
}

#[derive(Clone, Copy)]
pub struct ReplyParts<'a> {
    pub value: &'a [u8],
    pub text: &'a [u8],
}

/// The entries of a bulk reply: whether their values are sent, and four
/// numbers for each, which name parts of the bytes.
#[derive(Clone, Copy)]
pub struct EntryParts<'a> {
    pub values: bool,
    pub bytes: &'a [u8],
    pub numbers: &'a [u64],
}

/// Messages, serving and the table.
pub trait Subject {
    fn read_request(&mut self, input: &[u8], answer: &mut [u64]) -> u64;

    fn write_request(&mut self, out: &mut [u8], numbers: &[u64], parts: RequestParts) -> u64;

    fn read_reply(&mut self, input: &[u8], asked: Asked, answer: &mut [u64]) -> u64;

    fn write_reply(
        &mut self,
        out: &mut [u8],
        asked: Asked,
        numbers: &[u64],
        parts: ReplyParts,
    ) -> u64;

    /// A stats reply, which `write_reply` does not write.
    fn write_statistics(&mut self, out: &mut [u8], version: u8, id: u64, numbers: &[u64]) -> u64;

    /// One entry of a bulk reply, or its end, at this place of the input.
    fn next_entry(&mut self, input: &[u8], at: usize, values: bool, answer: &mut [u64]) -> u64;

    /// A bulk reply, of which `write_reply` writes only one without entries.
    fn write_entries(&mut self, out: &mut [u8], version: u8, id: u64, entries: EntryParts) -> u64;

    fn serve(
        &mut self,
        input: &[u8],
        table: &mut [u8],
        second: u32,
        reply: &mut [u8],
        answer: &mut [u64],
    ) -> u64;

    fn serve_stream(
        &mut self,
        input: &[u8],
        table: &mut [u8],
        second: u32,
        reply: &mut [u8],
        answer: &mut [u64],
    ) -> u64;

    fn is_table(&mut self, table: &[u8]) -> bool;

    fn make(&mut self, table: &mut [u8]) -> u64;
}

/// Listings of keys.
pub trait ListsKeys: Subject {
    fn list_keys(
        &mut self,
        table: &[u8],
        name: &[u8],
        from: &[u8],
        most: u64,
        out: &mut [u8],
    ) -> u64;
}

/// Many connections.
pub trait ServesMany: Subject {
    fn serve_many(
        &mut self,
        input: &[u8],
        ends: &[u64],
        table: &mut [u8],
        second: u32,
        reply: &mut [u8],
        answer: &mut [u64],
    ) -> u64;
}

/// What a piece of a request file is: whether the rest of a line is to be
/// passed over first, and whether nothing comes behind the piece.
#[derive(Clone, Copy, Debug)]
pub struct Piece {
    pub passing: bool,
    pub last: bool,
}

/// Request files.
pub trait ServesLines: Subject {
    fn serve_lines(
        &mut self,
        input: &[u8],
        table: &mut [u8],
        out: &mut [u8],
        piece: Piece,
        answer: &mut [u64],
    ) -> u64;
}

/// Stored tables.
pub trait Stores: Subject {
    fn store(&mut self, table: &[u8], out: &mut [u8]) -> u64;

    fn load(&mut self, file: &[u8], table: &mut [u8]) -> u64;
}

/// Keys.
pub trait ComparesKeys: Subject {
    fn same_key(&mut self, one: &[u8], other: &[u8], answer: &mut [u64]) -> u64;
}

pub fn read_code<T>(read: &Read<T>) -> u64 {
    match read {
        Read::Whole(_, taken) => GOOD + *taken as u64,
        Read::More => 0,
        Read::Refused(number) => u64::from(*number),
    }
}

pub fn write_code(written: Result<usize, u8>) -> u64 {
    match written {
        Ok(length) => GOOD + length as u64,
        Err(number) => u64::from(number),
    }
}

pub fn verdict_code(verdict: Verdict) -> u64 {
    match verdict {
        Verdict::Served => GOOD,
        Verdict::More => 0,
        Verdict::Refused(number) => u64::from(number),
        Verdict::Full => FULL,
    }
}
