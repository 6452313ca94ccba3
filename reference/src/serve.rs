//! Serving calls: bytes in, bytes out, one table.

use crate::fields::{copy_out, Read};
use crate::map::{is_table, step, Table};
use crate::operation::greatest_bulk;
use crate::reply::{error_bytes, reply_bytes};
use crate::request::{message_id, read_request, Request};

/// The least reply room of a call.
pub const LEAST_ROOM: usize = 512;
/// The least reply room of a bulk request.
pub const BULK_ROOM: usize = 41_600;

#[derive(Clone, Copy, Debug, PartialEq, Eq)]
pub enum Verdict {
    Served,
    More,
    Refused(u8),
    /// A stream ends before a call for which the replies left no room.
    Full,
}

/// The answer to one call.
#[derive(Clone, Copy, Debug, PartialEq, Eq)]
pub struct Answer {
    /// The number of input bytes taken.
    pub taken: usize,
    /// The number of bytes written to the reply buffer.
    pub reply_len: usize,
    pub verdict: Verdict,
}

/// An answer that takes nothing and writes nothing.
fn bare(verdict: Verdict) -> Answer {
    Answer {
        taken: 0,
        reply_len: 0,
        verdict,
    }
}

/// Copies the message to the reply buffer and makes the answer.
fn send(message: &[u8], taken: usize, verdict: Verdict, reply: &mut [u8]) -> Answer {
    match copy_out(message, reply) {
        Ok(reply_len) => Answer {
            taken,
            reply_len,
            verdict,
        },
        // Not reached: no reply is longer than its least room.
        Err(number) => bare(Verdict::Refused(number)),
    }
}

/// One call: reads one request from the front of the input and answers it.
/// The order of refusals is 12, 13, then 1 to 8 in field order, then 12 of a
/// bulk request, then 9, 10, 11. A bulk request refused 12 is taken.
pub fn serve(input: &[u8], table: &mut Table, second: u32, reply: &mut [u8]) -> Answer {
    if reply.len() < LEAST_ROOM {
        return bare(Verdict::Refused(12));
    }
    if !is_table(table) {
        return bare(Verdict::Refused(13));
    }
    match read_request(input) {
        Read::More => bare(Verdict::More),
        Read::Refused(number) => {
            let message = error_bytes(error_id(number, input), number);
            send(&message, 0, Verdict::Refused(number), reply)
        }
        Read::Whole(request, taken) if reply.len() < room_of(request.operation) => Answer {
            taken,
            ..bare(Verdict::Refused(12))
        },
        Read::Whole(request, taken) => {
            let (message, verdict) = answer_request(&request, second, table);
            send(&message, taken, verdict, reply)
        }
    }
}

/// The least reply room of a request that is read.
fn room_of(operation: u8) -> usize {
    match greatest_bulk(operation) {
        Some(_) => BULK_ROOM,
        None => LEAST_ROOM,
    }
}

/// The message id of the error reply to a request refused in reading.
pub fn error_id(refusal: u8, input: &[u8]) -> u64 {
    if refusal == 1 || refusal == 2 {
        0
    } else {
        message_id(input)
    }
}

/// Plays a whole request on the table and gives the bytes to send.
pub fn answer_request(request: &Request, second: u32, table: &mut Table) -> (Vec<u8>, Verdict) {
    match step(request, second, table) {
        Ok(reply) => {
            let message = reply_bytes(request.asked(), &reply);
            (message, Verdict::Served)
        }
        Err(number) => (error_bytes(request.id, number), Verdict::Refused(number)),
    }
}

/// The answer to a list of calls on one row of bytes.
#[derive(Clone, Copy, Debug, PartialEq, Eq)]
pub struct StreamAnswer {
    /// The number of input bytes taken by all calls.
    pub taken: usize,
    /// The number of bytes written by all calls, one reply behind another.
    pub reply_len: usize,
    /// The number of calls that sent a reply, error replies included.
    pub answered: usize,
    /// The verdict of the last call, or that there was no room for a further
    /// one.
    pub verdict: Verdict,
}

/// Calls `serve` again and again at one second. Each call gets the rest of
/// the input and the rest of the reply buffer. Stops after a call that takes
/// nothing: after 1 to 8, 13 and 12 for every request, and when more is needed.
/// No request meets 12 because earlier replies filled the buffer: the stream
/// ends before it.
pub fn serve_stream(
    input: &[u8],
    table: &mut Table,
    second: u32,
    replies: &mut [u8],
) -> StreamAnswer {
    stream_behind(input, table, second, replies, 0)
}

/// The stream whose replies stand behind `start` bytes of replies to others.
fn stream_behind(
    input: &[u8],
    table: &mut Table,
    second: u32,
    replies: &mut [u8],
    start: usize,
) -> StreamAnswer {
    let mut stream = StreamAnswer {
        taken: 0,
        reply_len: 0,
        answered: 0,
        verdict: Verdict::More,
    };
    loop {
        let sent = start + stream.reply_len;
        let rest = &input[stream.taken..];
        let answer = serve(rest, table, second, &mut replies[sent..]);
        // A call that is refused 12 has done nothing.
        if answer.verdict == Verdict::Refused(12) && sent > 0 {
            stream.verdict = Verdict::Full;
            return stream;
        }
        stream.taken += answer.taken;
        stream.reply_len += answer.reply_len;
        stream.verdict = answer.verdict;
        if answer.reply_len > 0 {
            stream.answered += 1;
        }
        if answer.taken == 0 {
            return stream;
        }
    }
}

/// Why the streams of many connections are not served.
#[derive(Clone, Copy, Debug, PartialEq, Eq)]
pub enum NotServed {
    /// The ends do not ascend, or one is behind the end of the input.
    Ends,
    /// 12 for the reply buffer, or 13.
    Refused(u8),
}

/// Serves the streams of several connections at one second. Their inputs stand
/// end to end, each up to its end; bytes behind the last end are nobody's. Each
/// is served on the table that the one before left, and its replies stand behind
/// all replies before. The answers are those of the streams, in their order.
pub fn serve_many(
    input: &[u8],
    ends: &[u64],
    table: &mut Table,
    second: u32,
    replies: &mut [u8],
) -> Result<Vec<StreamAnswer>, NotServed> {
    let inputs = parts(input, ends).ok_or(NotServed::Ends)?;
    if replies.len() < LEAST_ROOM {
        return Err(NotServed::Refused(12));
    }
    if !is_table(table) {
        return Err(NotServed::Refused(13));
    }
    let mut sent = 0;
    let mut answers = Vec::new();
    for input in inputs {
        let answer = stream_behind(input, table, second, replies, sent);
        sent += answer.reply_len;
        answers.push(answer);
    }
    Ok(answers)
}

/// The inputs of the connections, if their ends are ends.
fn parts<'a>(input: &'a [u8], ends: &[u64]) -> Option<Vec<&'a [u8]>> {
    let mut start = 0;
    let mut inputs = Vec::new();
    for end in ends {
        let end = usize::try_from(*end).ok()?;
        inputs.push(input.get(start..end)?);
        start = end;
    }
    Some(inputs)
}
