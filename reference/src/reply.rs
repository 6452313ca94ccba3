//! Replies: reading and writing, and the error replies of the server.

use crate::fields::{
    copy_out, write_eight, write_limited, Cursor, Read, Stop, TEXT_LIMIT, VALUE_LIMIT,
};
use crate::listing::{self, Listed};
use crate::number::{write_number, LARGEST_VLONG};
use crate::operation::{body, may_answer, Asked, Body, ERROR, PING};
use crate::statistics::{self, Statistics};
use crate::text::is_text;

/// The first byte of every reply.
pub const MAGIC: u8 = 0xa1;

/// A reply. A field that its operation, flag and status do not send is zero
/// or empty. The marker is not held, since it is always 0.
#[derive(Clone, Debug, Default, PartialEq, Eq)]
pub struct Reply {
    /// The message id.
    pub id: u64,
    /// The request's operation plus 1, or 0x50 for an error.
    pub operation: u8,
    pub status: u8,
    /// The entry version.
    pub version: u64,
    pub value: Vec<u8>,
    /// The error text.
    pub text: Vec<u8>,
    pub statistics: Statistics,
    /// The entries of a bulk reply, in the order sent.
    pub entries: Vec<Listed>,
}

fn is_error_status(status: u8) -> bool {
    (0x81..=0x86).contains(&status)
}

/// Reads the reply at the front of the bytes. A version that is not served is
/// 3, then an operation that the version does not have 4, both before any byte
/// is looked at.
pub fn read_reply(asked: Asked, bytes: &[u8]) -> Read<Reply> {
    if let Some(number) = asked.refusal() {
        return Read::Refused(number);
    }
    let mut cursor = Cursor::new(bytes);
    let reply = read_fields(asked, &mut cursor);
    cursor.answer(reply)
}

fn read_fields(asked: Asked, cursor: &mut Cursor) -> Result<Reply, Stop> {
    let mut reply = read_header(asked, cursor)?;
    if reply.operation == ERROR {
        reply.text = cursor.limited_text(TEXT_LIMIT)?;
        return Ok(reply);
    }
    match body(asked, reply.status) {
        Body::Nothing => {}
        Body::Value => reply.value = cursor.limited(VALUE_LIMIT)?,
        Body::EmptyValue => reply.value = cursor.limited(0)?,
        Body::VersionAndValue => {
            reply.version = cursor.eight()?;
            reply.value = cursor.limited(VALUE_LIMIT)?;
        }
        Body::Statistics => reply.statistics = statistics::read(cursor)?,
        Body::Entries => reply.entries = listing::read(cursor, true)?,
        Body::Keys => reply.entries = listing::read(cursor, false)?,
    }
    Ok(reply)
}

fn read_header(asked: Asked, cursor: &mut Cursor) -> Result<Reply, Stop> {
    cursor.byte(|byte| byte == MAGIC, 1)?;
    let id = cursor.vlong()?;
    let operation = cursor.byte(|code| code == asked.op + 1 || code == ERROR, 4)?;
    let status = cursor.byte(|status| status_is_good(asked, operation, status), 8)?;
    cursor.byte(|marker| marker == 0, 8)?;
    Ok(Reply {
        id,
        operation,
        status,
        ..Reply::default()
    })
}

/// `operation` is the reply's code.
fn status_is_good(asked: Asked, operation: u8, status: u8) -> bool {
    if operation == ERROR {
        is_error_status(status)
    } else {
        may_answer(asked, status)
    }
}

/// Whether the reply breaks no rule as an answer to this.
pub fn keeps_rules(asked: Asked, reply: &Reply) -> bool {
    if asked.refusal().is_some() || reply.id > LARGEST_VLONG {
        return false;
    }
    if reply.operation == ERROR {
        return error_keeps_rules(reply);
    }
    reply.operation == asked.op + 1
        && may_answer(asked, reply.status)
        && reply.text.is_empty()
        && body_keeps_rules(body(asked, reply.status), reply)
}

fn error_keeps_rules(reply: &Reply) -> bool {
    is_error_status(reply.status)
        && reply.text.len() <= TEXT_LIMIT
        && is_text(&reply.text)
        && reply.version == 0
        && reply.value.is_empty()
        && reply.statistics == Statistics::default()
        && reply.entries.is_empty()
}

fn body_keeps_rules(body: Body, reply: &Reply) -> bool {
    let (value_limit, sends_version) = match body {
        Body::Nothing | Body::EmptyValue | Body::Statistics | Body::Entries | Body::Keys => {
            (0, false)
        }
        Body::Value => (VALUE_LIMIT, false),
        Body::VersionAndValue => (VALUE_LIMIT, true),
    };
    let statistics_kept = if body == Body::Statistics {
        statistics::keep_rules(&reply.statistics)
    } else {
        reply.statistics == Statistics::default()
    };
    let entries_kept = match body {
        Body::Entries => listing::keep_rules(&reply.entries, true),
        Body::Keys => listing::keep_rules(&reply.entries, false),
        _ => reply.entries.is_empty(),
    };
    reply.value.len() <= value_limit
        && (sends_version || reply.version == 0)
        && statistics_kept
        && entries_kept
}

/// The bytes of a reply that keeps the rules.
pub fn reply_bytes(asked: Asked, reply: &Reply) -> Vec<u8> {
    let mut out = vec![MAGIC];
    write_number(reply.id, &mut out);
    out.push(reply.operation);
    out.push(reply.status);
    out.push(0);
    if reply.operation == ERROR {
        write_limited(&reply.text, &mut out);
        return out;
    }
    match body(asked, reply.status) {
        Body::Nothing => {}
        Body::Value | Body::EmptyValue => write_limited(&reply.value, &mut out),
        Body::VersionAndValue => {
            write_eight(reply.version, &mut out);
            write_limited(&reply.value, &mut out);
        }
        Body::Statistics => statistics::write(&reply.statistics, &mut out),
        Body::Entries => listing::write(&reply.entries, true, &mut out),
        Body::Keys => listing::write(&reply.entries, false, &mut out),
    }
    out
}

/// Writes the reply to the front of the buffer and gives its length.
/// A reply that breaks a rule is 16, and so is a version not served or an
/// operation that it does not have; too little room is 12. On a refusal nothing
/// is written.
pub fn write_reply(asked: Asked, reply: &Reply, out: &mut [u8]) -> Result<usize, u8> {
    if !keeps_rules(asked, reply) {
        return Err(16);
    }
    copy_out(&reply_bytes(asked, reply), out)
}

/// The wire status and text of a refusal, for 1 to 11.
fn status_and_text(refusal: u8) -> Option<(u8, &'static str)> {
    match refusal {
        1 => Some((0x81, "bad magic")),
        2 => Some((0x81, "bad message id")),
        3 => Some((0x83, "bad version")),
        4 => Some((0x82, "bad command")),
        5 => Some((0x84, "bad number")),
        6 => Some((0x84, "too long")),
        7 => Some((0x84, "bad text")),
        8 => Some((0x84, "bad field")),
        9 => Some((0x85, "no such cache")),
        10 => Some((0x85, "full")),
        11 => Some((0x85, "no versions left")),
        _ => None,
    }
}

/// The error reply for a refusal 1 to 11. The other refusals send none.
pub fn error_reply(id: u64, refusal: u8) -> Option<Reply> {
    let (status, text) = status_and_text(refusal)?;
    Some(Reply {
        id,
        operation: ERROR,
        status,
        text: text.as_bytes().to_vec(),
        ..Reply::default()
    })
}

/// The bytes of the error reply, and none for a refusal that sends none.
pub fn error_bytes(id: u64, refusal: u8) -> Vec<u8> {
    // An error reply is the same whatever it answers.
    let asked = Asked {
        version: 10,
        op: PING,
        flag: false,
    };
    match error_reply(id, refusal) {
        Some(reply) => reply_bytes(asked, &reply),
        None => Vec::new(),
    }
}
