//! Replies in words for people.

use crate::border::library::{entries, Asked, Entry, Reply};
use crate::command::{
    BULK_GET, BULK_GET_KEYS, CLEAR, CONTAINS_KEY, ERROR, GET, GET_WITH_VERSION, PING,
    PUT_IF_ABSENT, REMOVE, REMOVE_IF_UNMODIFIED, REPLACE, STATS,
};
use crate::hex::to_digits;
use crate::limits::STATISTICS;

/// How a call went.
#[derive(Clone, Copy, Debug, PartialEq, Eq)]
pub enum Went {
    /// As asked.
    Done,
    /// As asked, and there is nothing to list.
    Empty,
    /// The server's answer is no.
    No,
    /// An error reply.
    Failed,
}

const EMPTY: &str = "(empty)";
/// What stands before digits.
const DIGITS: &str = "0x";

/// Bytes for people: text as it is; what is no text, or has characters that a
/// terminal obeys, in hexadecimal digits behind 0x. No other bytes are shown
/// the same: a text that looks like such digits is in digits too.
pub fn shown(bytes: &[u8]) -> String {
    match std::str::from_utf8(bytes) {
        Ok("") => EMPTY.to_string(),
        Ok(text) if is_plain(text) => text.to_string(),
        _ => format!("{DIGITS}{}", to_digits(bytes)),
    }
}

/// Whether a text can be shown as it is.
fn is_plain(text: &str) -> bool {
    !text.chars().any(char::is_control) && text != EMPTY && !text.starts_with(DIGITS)
}

/// The words for a reply, whose parts are in these bytes.
pub fn of_reply(asked: Asked, reply: &Reply, bytes: &[u8]) -> (Went, String) {
    if reply.operation == ERROR {
        let text = shown(&bytes[reply.text.clone()]);
        let words = format!("the server refuses: {text} (status {:02x})", reply.status);
        return (Went::Failed, words);
    }
    let value = &bytes[reply.value.clone()];
    let (went, status) = match is_done(reply) {
        true => (Went::Done, 0),
        false => (Went::No, status_of(reply)),
    };
    let mut words = match (asked.operation, status) {
        (GET, 0) => shown(value),
        (STATS, _) => of_statistics(&reply.statistics),
        (BULK_GET, _) => lines(entries(bytes, reply, true), of_entry),
        (BULK_GET_KEYS, _) => of_keys(entries(bytes, reply, false)),
        (GET_WITH_VERSION, 0) => format!("version {}: {}", reply.entry_version, shown(value)),
        (operation, status) => outcome(operation, status).to_string(),
    };
    if words.is_empty() {
        return (Went::Empty, NO_ENTRIES.to_string());
    }
    if has_previous(asked, reply.status, value) {
        let when = if status == 0 { "before" } else { "held" };
        words.push_str(&format!("; {when}: {}", shown(value)));
    }
    (went, words)
}

/// The statuses of version 20 that say that a value follows: done, with the
/// value before; and not done, with the value held.
const DONE_WITH_VALUE: u8 = 3;
const NO_WITH_VALUE: u8 = 4;

/// Whether a reply says that it was done as asked.
pub fn is_done(reply: &Reply) -> bool {
    matches!(reply.status, 0 | DONE_WITH_VALUE)
}

/// The status of a reply, without whether a value follows.
pub fn status_of(reply: &Reply) -> u8 {
    match reply.status {
        DONE_WITH_VALUE => 0,
        NO_WITH_VALUE => 1,
        status => status,
    }
}

/// Whether a reply of this status tells a value that the call found. In
/// versions before 20 an empty one may mean that there was none.
pub fn has_previous(asked: Asked, status: u8, value: &[u8]) -> bool {
    match status {
        DONE_WITH_VALUE | NO_WITH_VALUE => true,
        0 => asked.previous && !value.is_empty(),
        _ => asked.previous && asked.operation == PUT_IF_ABSENT && !value.is_empty(),
    }
}

/// The keys of entries, one a line; nothing where there are none.
pub fn of_keys(entries: Vec<Entry>) -> String {
    lines(entries, |(key, _)| shown(key))
}

/// The entries, one a line.
fn lines(entries: Vec<Entry>, one: impl Fn(Entry) -> String) -> String {
    let lines: Vec<String> = entries.into_iter().map(one).collect();
    lines.join("\n")
}

/// The words for a table without entries.
pub const NO_ENTRIES: &str = "there are no entries";

/// An entry in words.
pub fn of_entry((key, value): Entry) -> String {
    format!("{}: {}", shown(key), shown(value))
}

/// The names of the statistics, in the order of the protocol.
pub const STATISTIC_NAMES: [&str; STATISTICS] = [
    "timeSinceStart",
    "currentNumberOfEntries",
    "totalNumberOfEntries",
    "stores",
    "retrievals",
    "hits",
    "misses",
    "removeHits",
    "removeMisses",
];

/// What each statistic counts.
const COUNTED: [&str; STATISTICS] = [
    "seconds since the first call",
    "entries",
    "keys added",
    "puts",
    "gets",
    "gets that found the key",
    "gets that did not",
    "removes that found the key",
    "removes that did not",
];

/// The statistics, one a line.
fn of_statistics(statistics: &[u64; STATISTICS]) -> String {
    let line = |(name, number): (&&str, &u64)| format!("{name}: {number}");
    let lines: Vec<String> = COUNTED.iter().zip(statistics).map(line).collect();
    lines.join("\n")
}

/// The words for a status, by the reply table of docs/PROTOCOL.md.
pub fn outcome(operation: u8, status: u8) -> &'static str {
    match (operation, status) {
        (PING, _) => "the server answers",
        (CLEAR, _) => "cleared",
        (CONTAINS_KEY, 0) => "yes",
        (CONTAINS_KEY, _) => "no",
        (REMOVE | REMOVE_IF_UNMODIFIED, 0) => "removed",
        (REMOVE_IF_UNMODIFIED, 1) => "not removed: the entry has another version",
        (GET | GET_WITH_VERSION | REMOVE | REMOVE_IF_UNMODIFIED, _) => "there is no such key",
        (PUT_IF_ABSENT, 1) => "not stored: the key is there",
        (REPLACE, 1) | (_, 2) => "not stored: there is no such key",
        (_, 1) => "not stored: the entry has another version",
        _ => "stored",
    }
}

#[cfg(test)]
mod tests {
    use super::*;

    #[test]
    fn no_two_values_are_shown_the_same() {
        let cases: [(&[u8], &str); 9] = [
            (b"", "(empty)"),
            (b"(empty)", "0x28656d70747929"),
            (b"(empty) ", "(empty) "),
            (b"\xff\x80", "0xff80"),
            (b"0xff80", "0x307866663830"),
            (b"0x", "0x3078"),
            (b"a\nb", "0x610a62"),
            (b"a\r", "0x610d"),
            ("Äß 0x".as_bytes(), "Äß 0x"),
        ];
        for (bytes, wanted) in cases {
            assert_eq!(shown(bytes), wanted);
        }
    }
}
