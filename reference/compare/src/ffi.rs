//! The library's C functions, and safe wrappers.
//!
//! A slice goes over as pointer and length. After each call a wrapper checks
//! that the code can be one, and that the places and lengths in the answer
//! lie within what was lent; if not, it panics, which ends the run as a
//! difference.

use reference::hex::to_string;

#[cfg(feature = "order")]
use crate::subject::ListsKeys;
#[cfg(feature = "stored")]
use crate::subject::Stores;
use crate::subject::{
    Asked, ComparesKeys, EntryParts, ReplyParts, RequestParts, ServesMany, Subject, ENTRY_WORDS,
    FULL, GOOD, KEYS_WORDS, NO_ENDS, REPLY_WORDS, REQUEST_WORDS, SERVE_WORDS, SHARE_WORDS,
    STREAM_WORDS,
};
#[cfg(feature = "lines")]
use crate::subject::{Piece, ServesLines, LINES_WORDS};

extern "C" {
    fn fq_read_request(
        input: *const u8,
        input_len: usize,
        answer: *mut u64,
        answer_len: usize,
    ) -> u64;

    fn fq_write_request(
        out: *mut u8,
        out_len: usize,
        numbers: *const u64,
        numbers_len: usize,
        name: *const u8,
        name_len: usize,
        key: *const u8,
        key_len: usize,
        value: *const u8,
        value_len: usize,
    ) -> u64;

    fn fq_read_reply(
        input: *const u8,
        input_len: usize,
        version: u8,
        op: u8,
        flag: bool,
        answer: *mut u64,
        answer_len: usize,
    ) -> u64;

    fn fq_write_reply(
        out: *mut u8,
        out_len: usize,
        version: u8,
        op: u8,
        flag: bool,
        numbers: *const u64,
        numbers_len: usize,
        value: *const u8,
        value_len: usize,
        text: *const u8,
        text_len: usize,
    ) -> u64;

    fn fq_write_statistics(
        out: *mut u8,
        out_len: usize,
        version: u8,
        id: u64,
        numbers: *const u64,
        numbers_len: usize,
    ) -> u64;

    fn fq_next_entry(
        input: *const u8,
        input_len: usize,
        at: u64,
        values: bool,
        answer: *mut u64,
        answer_len: usize,
    ) -> u64;

    fn fq_write_entries(
        out: *mut u8,
        out_len: usize,
        version: u8,
        id: u64,
        values: bool,
        bytes: *const u8,
        bytes_len: usize,
        numbers: *const u64,
        numbers_len: usize,
    ) -> u64;

    fn fq_serve(
        input: *const u8,
        input_len: usize,
        table: *mut u8,
        table_len: usize,
        second: u32,
        reply: *mut u8,
        reply_len: usize,
        answer: *mut u64,
        answer_len: usize,
    ) -> u64;

    fn fq_serve_stream(
        input: *const u8,
        input_len: usize,
        table: *mut u8,
        table_len: usize,
        second: u32,
        reply: *mut u8,
        reply_len: usize,
        answer: *mut u64,
        answer_len: usize,
    ) -> u64;

    fn fq_serve_many(
        input: *const u8,
        input_len: usize,
        ends: *const u64,
        ends_len: usize,
        table: *mut u8,
        table_len: usize,
        second: u32,
        reply: *mut u8,
        reply_len: usize,
        answer: *mut u64,
        answer_len: usize,
    ) -> u64;

    fn fq_is_table(table: *const u8, table_len: usize) -> u8;

    fn fq_make(table: *mut u8, table_len: usize) -> u64;

    fn fq_same_key(
        one: *const u8,
        one_len: usize,
        other: *const u8,
        other_len: usize,
        answer: *mut u64,
        answer_len: usize,
    ) -> u64;
}

#[cfg(feature = "lines")]
extern "C" {
    fn fq_serve_lines(
        input: *const u8,
        input_len: usize,
        table: *mut u8,
        table_len: usize,
        out: *mut u8,
        out_len: usize,
        passing: bool,
        last: bool,
        answer: *mut u64,
        answer_len: usize,
    ) -> u64;
}

#[cfg(feature = "order")]
extern "C" {
    fn fq_list_keys(
        table: *const u8,
        table_len: usize,
        name: *const u8,
        name_len: usize,
        key: *const u8,
        key_len: usize,
        most: u64,
        out: *mut u8,
        out_len: usize,
    ) -> u64;
}

#[cfg(feature = "stored")]
extern "C" {
    fn fq_store(table: *const u8, table_len: usize, out: *mut u8, out_len: usize) -> u64;

    fn fq_load(file: *const u8, file_len: usize, table: *mut u8, table_len: usize) -> u64;
}

/// The library linked to this program.
pub struct Library;

/// More needed, a refusal, or good with at most so many bytes.
fn check_code(function: &str, code: u64, most: usize, input: &[u8]) {
    let good = code <= 17 || (GOOD..=GOOD + most as u64).contains(&code);
    assert!(
        good,
        "{function} gives {code:#x} where {most} bytes are the most; input {}",
        to_string(input)
    );
}

/// Each word of the answer is at most its limit.
fn check_words(function: &str, answer: &[u64], limits: &[usize], input: &[u8]) {
    let within = answer
        .iter()
        .zip(limits)
        .all(|(word, limit)| *word <= *limit as u64);
    assert!(
        within,
        "{function} answers {answer:?} where {limits:?} are the most; input {}",
        to_string(input)
    );
}

/// Each pair of start and length lies within the input.
fn check_spans(function: &str, spans: &[u64], input: &[u8]) {
    let length = input.len() as u64;
    let within = spans
        .chunks(2)
        .all(|span| span[1] <= length && span[0] <= length - span[1]);
    assert!(
        within,
        "{function} answers spans {spans:?} beyond the input {}",
        to_string(input)
    );
}

/// A truth value is 0 or 1.
fn truth(function: &str, byte: u8) -> bool {
    assert!(byte <= 1, "{function} gives {byte} for a truth value");
    byte == 1
}

impl Subject for Library {
    fn read_request(&mut self, input: &[u8], answer: &mut [u64]) -> u64 {
        // SAFETY: both slices are lent for the call, with their lengths.
        let code = unsafe {
            fq_read_request(
                input.as_ptr(),
                input.len(),
                answer.as_mut_ptr(),
                answer.len(),
            )
        };
        check_code("fq_read_request", code, input.len(), input);
        if code >= GOOD && answer.len() >= REQUEST_WORDS {
            check_spans("fq_read_request", &answer[11..REQUEST_WORDS], input);
        }
        code
    }

    fn write_request(&mut self, out: &mut [u8], numbers: &[u64], parts: RequestParts) -> u64 {
        // SAFETY: all slices are lent for the call, with their lengths.
        let code = unsafe {
            fq_write_request(
                out.as_mut_ptr(),
                out.len(),
                numbers.as_ptr(),
                numbers.len(),
                parts.name.as_ptr(),
                parts.name.len(),
                parts.key.as_ptr(),
                parts.key.len(),
                parts.value.as_ptr(),
                parts.value.len(),
            )
        };
        check_code("fq_write_request", code, out.len(), &[]);
        code
    }

    fn read_reply(&mut self, input: &[u8], asked: Asked, answer: &mut [u64]) -> u64 {
        // SAFETY: both slices are lent for the call, with their lengths.
        let code = unsafe {
            fq_read_reply(
                input.as_ptr(),
                input.len(),
                asked.version,
                asked.op,
                asked.flag,
                answer.as_mut_ptr(),
                answer.len(),
            )
        };
        check_code("fq_read_reply", code, input.len(), input);
        if code >= GOOD && answer.len() >= REPLY_WORDS {
            check_spans("fq_read_reply", &answer[5..9], input);
            check_spans("fq_read_reply", &answer[19..REPLY_WORDS], input);
        }
        code
    }

    fn write_reply(
        &mut self,
        out: &mut [u8],
        asked: Asked,
        numbers: &[u64],
        parts: ReplyParts,
    ) -> u64 {
        // SAFETY: all slices are lent for the call, with their lengths.
        let code = unsafe {
            fq_write_reply(
                out.as_mut_ptr(),
                out.len(),
                asked.version,
                asked.op,
                asked.flag,
                numbers.as_ptr(),
                numbers.len(),
                parts.value.as_ptr(),
                parts.value.len(),
                parts.text.as_ptr(),
                parts.text.len(),
            )
        };
        check_code("fq_write_reply", code, out.len(), &[]);
        code
    }

    fn write_statistics(&mut self, out: &mut [u8], version: u8, id: u64, numbers: &[u64]) -> u64 {
        // SAFETY: both slices are lent for the call, with their lengths.
        let code = unsafe {
            fq_write_statistics(
                out.as_mut_ptr(),
                out.len(),
                version,
                id,
                numbers.as_ptr(),
                numbers.len(),
            )
        };
        check_code("fq_write_statistics", code, out.len(), &[]);
        code
    }

    fn next_entry(&mut self, input: &[u8], at: usize, values: bool, answer: &mut [u64]) -> u64 {
        // SAFETY: both slices are lent for the call, with their lengths.
        let code = unsafe {
            fq_next_entry(
                input.as_ptr(),
                input.len(),
                at as u64,
                values,
                answer.as_mut_ptr(),
                answer.len(),
            )
        };
        check_code("fq_next_entry", code, input.len(), input);
        if code >= GOOD && answer.len() >= ENTRY_WORDS {
            check_words("fq_next_entry", answer, &[input.len(), 1], input);
            check_spans("fq_next_entry", &answer[2..ENTRY_WORDS], input);
        }
        code
    }

    fn write_entries(&mut self, out: &mut [u8], version: u8, id: u64, entries: EntryParts) -> u64 {
        // SAFETY: all slices are lent for the call, with their lengths, and
        // the buffer overlaps none of the others.
        let code = unsafe {
            fq_write_entries(
                out.as_mut_ptr(),
                out.len(),
                version,
                id,
                entries.values,
                entries.bytes.as_ptr(),
                entries.bytes.len(),
                entries.numbers.as_ptr(),
                entries.numbers.len(),
            )
        };
        check_code("fq_write_entries", code, out.len(), &[]);
        code
    }

    fn serve(
        &mut self,
        input: &[u8],
        table: &mut [u8],
        second: u32,
        reply: &mut [u8],
        answer: &mut [u64],
    ) -> u64 {
        // SAFETY: all slices are lent for the call, with their lengths, and
        // no two of them overlap.
        let code = unsafe {
            fq_serve(
                input.as_ptr(),
                input.len(),
                table.as_mut_ptr(),
                table.len(),
                second,
                reply.as_mut_ptr(),
                reply.len(),
                answer.as_mut_ptr(),
                answer.len(),
            )
        };
        check_code("fq_serve", code, 0, input);
        if answer.len() >= SERVE_WORDS {
            check_words("fq_serve", answer, &[input.len(), reply.len()], input);
        }
        code
    }

    fn serve_stream(
        &mut self,
        input: &[u8],
        table: &mut [u8],
        second: u32,
        reply: &mut [u8],
        answer: &mut [u64],
    ) -> u64 {
        // SAFETY: as for `serve`.
        let code = unsafe {
            fq_serve_stream(
                input.as_ptr(),
                input.len(),
                table.as_mut_ptr(),
                table.len(),
                second,
                reply.as_mut_ptr(),
                reply.len(),
                answer.as_mut_ptr(),
                answer.len(),
            )
        };
        check_code("fq_serve_stream", code, 1, input);
        if answer.len() >= STREAM_WORDS {
            let limits = [input.len(), reply.len(), input.len() + 1];
            check_words("fq_serve_stream", answer, &limits, input);
        }
        code
    }

    fn is_table(&mut self, table: &[u8]) -> bool {
        // SAFETY: the slice is lent for the call, with its length.
        let byte = unsafe { fq_is_table(table.as_ptr(), table.len()) };
        truth("fq_is_table", byte)
    }

    fn make(&mut self, table: &mut [u8]) -> u64 {
        // SAFETY: the slice is lent for the call, with its length.
        let code = unsafe { fq_make(table.as_mut_ptr(), table.len()) };
        check_code("fq_make", code, 0, &[]);
        code
    }
}

impl ServesMany for Library {
    fn serve_many(
        &mut self,
        input: &[u8],
        ends: &[u64],
        table: &mut [u8],
        second: u32,
        reply: &mut [u8],
        answer: &mut [u64],
    ) -> u64 {
        // SAFETY: all slices are lent for the call, with their lengths, and
        // those that may be written overlap no other.
        let code = unsafe {
            fq_serve_many(
                input.as_ptr(),
                input.len(),
                ends.as_ptr(),
                ends.len(),
                table.as_mut_ptr(),
                table.len(),
                second,
                reply.as_mut_ptr(),
                reply.len(),
                answer.as_mut_ptr(),
                answer.len(),
            )
        };
        check_code("fq_serve_many", code, (NO_ENDS - GOOD) as usize, input);
        if code == GOOD {
            let told = answer.chunks(SHARE_WORDS).take(ends.len());
            let limits = [input.len(), reply.len(), FULL as usize];
            told.for_each(|share| check_words("fq_serve_many", share, &limits, input));
        }
        code
    }
}

impl ComparesKeys for Library {
    fn same_key(&mut self, one: &[u8], other: &[u8], answer: &mut [u64]) -> u64 {
        // SAFETY: all slices are lent for the call, with their lengths, and
        // the answer overlaps none of the others.
        let code = unsafe {
            fq_same_key(
                one.as_ptr(),
                one.len(),
                other.as_ptr(),
                other.len(),
                answer.as_mut_ptr(),
                answer.len(),
            )
        };
        check_code("fq_same_key", code, 0, one);
        if code == GOOD && answer.len() >= KEYS_WORDS {
            check_words("fq_same_key", answer, &[1, one.len()], one);
        }
        code
    }
}

#[cfg(feature = "order")]
impl ListsKeys for Library {
    fn list_keys(
        &mut self,
        table: &[u8],
        name: &[u8],
        from: &[u8],
        most: u64,
        out: &mut [u8],
    ) -> u64 {
        // SAFETY: all slices are lent for the call, with their lengths, and
        // the buffer overlaps none of the others.
        let code = unsafe {
            fq_list_keys(
                table.as_ptr(),
                table.len(),
                name.as_ptr(),
                name.len(),
                from.as_ptr(),
                from.len(),
                most,
                out.as_mut_ptr(),
                out.len(),
            )
        };
        check_code("fq_list_keys", code, out.len(), from);
        code
    }
}

#[cfg(feature = "lines")]
impl ServesLines for Library {
    fn serve_lines(
        &mut self,
        input: &[u8],
        table: &mut [u8],
        out: &mut [u8],
        piece: Piece,
        answer: &mut [u64],
    ) -> u64 {
        // SAFETY: all slices are lent for the call, with their lengths, and
        // no two of them overlap.
        let code = unsafe {
            fq_serve_lines(
                input.as_ptr(),
                input.len(),
                table.as_mut_ptr(),
                table.len(),
                out.as_mut_ptr(),
                out.len(),
                piece.passing,
                piece.last,
                answer.as_mut_ptr(),
                answer.len(),
            )
        };
        check_code("fq_serve_lines", code, 0, input);
        if code == GOOD && answer.len() >= LINES_WORDS {
            check_words(
                "fq_serve_lines",
                answer,
                &[input.len(), out.len(), 1],
                input,
            );
        }
        code
    }
}

#[cfg(feature = "stored")]
impl Stores for Library {
    fn store(&mut self, table: &[u8], out: &mut [u8]) -> u64 {
        // SAFETY: both slices are lent for the call, with their lengths.
        let code = unsafe { fq_store(table.as_ptr(), table.len(), out.as_mut_ptr(), out.len()) };
        check_code("fq_store", code, out.len(), &[]);
        code
    }

    fn load(&mut self, file: &[u8], table: &mut [u8]) -> u64 {
        // SAFETY: both slices are lent for the call, with their lengths, and
        // they do not overlap.
        let code = unsafe { fq_load(file.as_ptr(), file.len(), table.as_mut_ptr(), table.len()) };
        check_code("fq_load", code, 0, file);
        code
    }
}
