//! The functions of the proved library. A slice goes over as a pointer and a
//! length; a slice that may be written overlaps no other, which Rust's borrows
//! ensure.

use std::ops::Range;

use crate::limits::{
    DONE, ENTRY_TOLD, LONGEST_FILE, LONGEST_KEYS, REPLY_FULL, REPLY_GIVEN, REPLY_TOLD,
    REQUEST_GIVEN, REQUEST_TOLD, SHARE_TOLD, STATISTICS, TABLE_SIZE,
};

extern "C" {
    fn fq_read_request(input: *const u8, len: usize, answer: *mut u64, told: usize) -> u64;
    fn fq_read_reply(
        input: *const u8,
        len: usize,
        version: u8,
        op: u8,
        flag: bool,
        answer: *mut u64,
        told: usize,
    ) -> u64;
    fn fq_next_entry(
        input: *const u8,
        len: usize,
        at: u64,
        values: bool,
        answer: *mut u64,
        told: usize,
    ) -> u64;
    fn fq_write_request(
        out: *mut u8,
        out_len: usize,
        numbers: *const u64,
        given: usize,
        name: *const u8,
        name_len: usize,
        key: *const u8,
        key_len: usize,
        value: *const u8,
        value_len: usize,
    ) -> u64;
    fn fq_write_reply(
        out: *mut u8,
        out_len: usize,
        version: u8,
        op: u8,
        flag: bool,
        numbers: *const u64,
        given: usize,
        value: *const u8,
        value_len: usize,
        text: *const u8,
        text_len: usize,
    ) -> u64;
    fn fq_make(table: *mut u8, len: usize) -> u64;
    fn fq_serve_many(
        input: *const u8,
        input_len: usize,
        ends: *const u64,
        count: usize,
        table: *mut u8,
        table_len: usize,
        second: u32,
        reply: *mut u8,
        reply_len: usize,
        answer: *mut u64,
        told: usize,
    ) -> u64;
    fn fq_store(table: *const u8, len: usize, out: *mut u8, out_len: usize) -> u64;
    fn fq_load(file: *const u8, file_len: usize, table: *mut u8, len: usize) -> u64;
    fn fq_list_keys(
        table: *const u8,
        len: usize,
        name: *const u8,
        name_len: usize,
        key: *const u8,
        key_len: usize,
        most: u64,
        out: *mut u8,
        out_len: usize,
    ) -> u64;
}

/// What a reader finds at the front of bytes.
pub enum Found<T> {
    Whole(T),
    More,
    Refused(u64),
}

/// A request's size, its numbers, and where its parts are in the bytes read.
pub struct Request {
    pub size: usize,
    pub version: u8,
    pub operation: u8,
    pub flags: u64,
    /// How many entries a bulkGet asks for, 0 for all; the scope of bulkGetKeys.
    pub bulk: u64,
    pub key: Range<usize>,
}

/// A reply's size, its numbers, and where its parts are in the bytes read.
pub struct Reply {
    pub size: usize,
    pub id: u64,
    pub operation: u8,
    pub status: u8,
    pub entry_version: u64,
    pub value: Range<usize>,
    pub text: Range<usize>,
    /// Those of a stats reply, in the order of the protocol; 0 in any other.
    pub statistics: [u64; STATISTICS],
    /// Where the entries of a bulk reply begin.
    entries: usize,
}

/// The range that a start and a length tell.
fn range(told: &[u64]) -> Range<usize> {
    told[0] as usize..(told[0] + told[1]) as usize
}

/// Reads the request at the front of the input.
pub fn read_request(input: &[u8]) -> Found<Request> {
    let mut told = [0; REQUEST_TOLD];
    // SAFETY: both slices are lent for the call, with their lengths.
    let code =
        unsafe { fq_read_request(input.as_ptr(), input.len(), told.as_mut_ptr(), told.len()) };
    match code {
        0 => Found::More,
        1..DONE => Found::Refused(code),
        _ => Found::Whole(Request {
            size: told[0] as usize,
            version: told[2] as u8,
            operation: told[3] as u8,
            flags: told[4],
            bulk: told[10],
            key: range(&told[13..15]),
        }),
    }
}

/// What was asked, by which the reply is read: the protocol version and the
/// operation, and whether with the value before.
#[derive(Clone, Copy)]
pub struct Asked {
    pub version: u8,
    pub operation: u8,
    pub previous: bool,
}

/// Reads the reply at the front of the input, to what was asked.
pub fn read_reply(input: &[u8], asked: Asked) -> Found<Reply> {
    let mut told = [0; REPLY_TOLD];
    // SAFETY: both slices are lent for the call, with their lengths.
    let code = unsafe {
        fq_read_reply(
            input.as_ptr(),
            input.len(),
            asked.version,
            asked.operation,
            asked.previous,
            told.as_mut_ptr(),
            told.len(),
        )
    };
    match code {
        0 => Found::More,
        1..DONE => Found::Refused(code),
        _ => Found::Whole(reply_of(&told)),
    }
}

/// The reply that these numbers tell.
fn reply_of(told: &[u64; REPLY_TOLD]) -> Reply {
    let mut statistics = [0; STATISTICS];
    statistics.copy_from_slice(&told[9..9 + STATISTICS]);
    Reply {
        size: told[0] as usize,
        id: told[1],
        operation: told[2] as u8,
        status: told[3] as u8,
        entry_version: told[4],
        value: range(&told[5..7]),
        text: range(&told[7..9]),
        statistics,
        entries: told[19] as usize,
    }
}

/// An entry of a bulk reply: its key and its value.
pub type Entry<'a> = (&'a [u8], &'a [u8]);

/// The entries of a bulk reply that was read from these bytes: with their
/// values, as in the reply to bulkGet, or with empty ones.
pub fn entries<'a>(bytes: &'a [u8], reply: &Reply, values: bool) -> Vec<Entry<'a>> {
    entries_at(bytes, reply.entries, values)
}

/// The entries that begin at a place of these bytes.
pub fn entries_at(bytes: &[u8], start: usize, values: bool) -> Vec<Entry<'_>> {
    let mut entries = Vec::new();
    let mut at = start;
    while let Some(told) = next_entry(bytes, at, values) {
        entries.push((&bytes[range(&told[2..4])], &bytes[range(&told[4..6])]));
        at += told[0] as usize;
    }
    entries
}

/// What is told of the entry at this place, if there is one.
fn next_entry(bytes: &[u8], at: usize, values: bool) -> Option<[u64; ENTRY_TOLD]> {
    let mut told = [0; ENTRY_TOLD];
    // SAFETY: both slices are lent for the call, with their lengths.
    let code = unsafe {
        fq_next_entry(
            bytes.as_ptr(),
            bytes.len(),
            at as u64,
            values,
            told.as_mut_ptr(),
            told.len(),
        )
    };
    (code >= DONE && told[1] == 1).then_some(told)
}

/// The count in a code, or the refusal's number.
fn counted(code: u64) -> Result<usize, u64> {
    code.checked_sub(DONE)
        .map(|count| count as usize)
        .ok_or(code)
}

/// Writes a request to the default cache; answers its length or the refusal.
pub fn write_request(
    out: &mut [u8],
    numbers: &[u64; REQUEST_GIVEN],
    key: &[u8],
    value: &[u8],
) -> Result<usize, u64> {
    let name: &[u8] = &[];
    // SAFETY: all slices are lent for the call, with their lengths.
    counted(unsafe {
        fq_write_request(
            out.as_mut_ptr(),
            out.len(),
            numbers.as_ptr(),
            numbers.len(),
            name.as_ptr(),
            name.len(),
            key.as_ptr(),
            key.len(),
            value.as_ptr(),
            value.len(),
        )
    })
}

/// Writes an error reply with this id, status and text, as one to a request of
/// a served version and operation; answers its length or the refusal.
pub fn write_error(
    out: &mut [u8],
    version: u8,
    operation: u8,
    numbers: &[u64; REPLY_GIVEN],
    text: &[u8],
) -> Result<usize, u64> {
    let value: &[u8] = &[];
    // SAFETY: all slices are lent for the call, with their lengths.
    counted(unsafe {
        fq_write_reply(
            out.as_mut_ptr(),
            out.len(),
            version,
            operation,
            false,
            numbers.as_ptr(),
            numbers.len(),
            value.as_ptr(),
            value.len(),
            text.as_ptr(),
            text.len(),
        )
    })
}

/// How serving a stream came to its end.
#[derive(Clone, Copy, Debug, PartialEq, Eq)]
pub enum End {
    /// What is left is no whole request, or nothing.
    More,
    /// The replies have to be taken out first.
    Full,
    /// A refusal: the last reply is an error reply, and the stream ends.
    Refused(u64),
}

/// What serving the stream of a connection did.
#[derive(Clone, Copy, Debug)]
pub struct Served {
    pub end: End,
    /// Bytes taken of the input.
    pub taken: usize,
    /// Bytes of the replies.
    pub replied: usize,
}

/// A table: memory that only the library writes.
#[derive(Clone, PartialEq, Eq)]
pub struct Table {
    memory: Box<[u8]>,
}

impl Table {
    /// A fresh table.
    pub fn fresh() -> Table {
        let mut memory = vec![0; TABLE_SIZE].into_boxed_slice();
        // SAFETY: the slice is lent for the call, with its length.
        let code = unsafe { fq_make(memory.as_mut_ptr(), memory.len()) };
        assert_eq!(code, DONE, "fq_make refuses the memory of a table");
        Table { memory }
    }

    /// Makes it the same as another table.
    pub fn copy_from(&mut self, other: &Table) {
        self.memory.copy_from_slice(&other.memory);
    }

    /// The table that a file stores, if it stores one.
    pub fn load(file: &[u8]) -> Option<Table> {
        let mut table = Table::fresh();
        // SAFETY: both slices are lent for the call, with their lengths.
        let code = unsafe {
            fq_load(
                file.as_ptr(),
                file.len(),
                table.memory.as_mut_ptr(),
                table.memory.len(),
            )
        };
        (code == DONE).then_some(table)
    }

    /// The file that stores the table.
    pub fn store(&self) -> Vec<u8> {
        let mut out = vec![0; LONGEST_FILE];
        // SAFETY: both slices are lent for the call, with their lengths.
        let code = unsafe {
            fq_store(
                self.memory.as_ptr(),
                self.memory.len(),
                out.as_mut_ptr(),
                out.len(),
            )
        };
        let length = counted(code).expect("fq_store refuses a table");
        out.truncate(length);
        out
    }

    /// The keys of the default cache that stand at the latest second served, in
    /// their order, as the body of a bulkGetKeys reply.
    pub fn list_keys(&self) -> Vec<u8> {
        let mut out = vec![0; LONGEST_KEYS];
        let none: &[u8] = &[];
        // SAFETY: all slices are lent for the call, with their lengths.
        let code = unsafe {
            fq_list_keys(
                self.memory.as_ptr(),
                self.memory.len(),
                none.as_ptr(),
                none.len(),
                none.as_ptr(),
                none.len(),
                u64::MAX,
                out.as_mut_ptr(),
                out.len(),
            )
        };
        let length = counted(code).expect("fq_list_keys refuses a table");
        out.truncate(length);
        out
    }

    /// Serves connections whose inputs stand end to end, each to its end, at
    /// this second. Their replies stand end to end; answers what each got.
    pub fn serve_many<'a>(
        &mut self,
        input: &[u8],
        ends: &[u64],
        second: u32,
        replies: &mut [u8],
        told: &'a mut Vec<u64>,
    ) -> impl Iterator<Item = Served> + 'a {
        told.clear();
        told.resize(SHARE_TOLD * ends.len(), 0);
        // SAFETY: all slices are lent for the call, with their lengths.
        let code = unsafe {
            fq_serve_many(
                input.as_ptr(),
                input.len(),
                ends.as_ptr(),
                ends.len(),
                self.memory.as_mut_ptr(),
                self.memory.len(),
                second,
                replies.as_mut_ptr(),
                replies.len(),
                told.as_mut_ptr(),
                told.len(),
            )
        };
        assert_eq!(code, DONE, "fq_serve_many refuses the call");
        told.chunks_exact(SHARE_TOLD).map(|told| Served {
            end: match told[2] {
                0 => End::More,
                REPLY_FULL => End::Full,
                code => End::Refused(code),
            },
            taken: told[0] as usize,
            replied: told[1] as usize,
        })
    }
}
