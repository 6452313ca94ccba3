//! Answers and entries as JSON, an object a line, for programs. A string has no
//! control characters; bytes that are no text are an object of their digits.

use std::fmt::Write;

use crate::border::library::{entries, Asked, Entry, Reply};
use crate::command::{
    BULK_GET, BULK_GET_KEYS, CLEAR, CONTAINS_KEY, GET, GET_WITH_VERSION, PING, STATS,
};
use crate::hex::to_digits;
use crate::words::{has_previous, is_done, outcome, status_of, STATISTIC_NAMES};

/// Bytes as a value: a string, or an object of digits.
pub fn of_bytes(bytes: &[u8]) -> String {
    match std::str::from_utf8(bytes) {
        Ok(text) => of_text(text),
        Err(_) => format!("{{\"digits\":\"{}\"}}", to_digits(bytes)),
    }
}

/// A text as a string.
pub fn of_text(text: &str) -> String {
    let mut out = String::from("\"");
    for character in text.chars() {
        match character {
            '"' | '\\' => out.extend(['\\', character]),
            _ if character.is_control() => {
                let _ = write!(out, "\\u{:04x}", u32::from(character));
            }
            _ => out.push(character),
        }
    }
    out.push('"');
    out
}

/// An entry, with its value.
pub fn of_entry((key, value): Entry) -> String {
    format!(
        "{{\"key\":{},\"value\":{}}}",
        of_bytes(key),
        of_bytes(value)
    )
}

/// The objects for a reply that is no error reply, a line each: one for each
/// entry of a list, and else one that says whether it was done or found.
pub fn of_reply(asked: Asked, key: &[u8], reply: &Reply, bytes: &[u8]) -> String {
    match asked.operation {
        BULK_GET => lines(entries(bytes, reply, true), of_entry),
        BULK_GET_KEYS => lines(entries(bytes, reply, false), |(key, _)| {
            format!("{{\"key\":{}}}", of_bytes(key))
        }),
        STATS => of_statistics(&reply.statistics),
        _ => of_one(asked, key, reply, &bytes[reply.value.clone()]),
    }
}

fn lines(entries: Vec<Entry>, one: impl Fn(Entry) -> String) -> String {
    entries.into_iter().map(|entry| one(entry) + "\n").collect()
}

fn of_statistics(statistics: &[u64]) -> String {
    let pair = |(name, number): (&&str, &u64)| format!("\"{name}\":{number}");
    let pairs: Vec<String> = STATISTIC_NAMES.iter().zip(statistics).map(pair).collect();
    format!("{{{}}}\n", pairs.join(","))
}

/// The object for an answer about one key, or about none.
fn of_one(asked: Asked, key: &[u8], reply: &Reply, value: &[u8]) -> String {
    let (operation, done) = (asked.operation, is_done(reply));
    let mut out = String::from("{");
    if !matches!(operation, CLEAR | PING) {
        let _ = write!(out, "\"key\":{},", of_bytes(key));
    }
    let reads = matches!(operation, GET | GET_WITH_VERSION | CONTAINS_KEY);
    let _ = write!(out, "\"{}\":{done}", if reads { "found" } else { "done" });
    if operation == GET_WITH_VERSION && done {
        let _ = write!(out, ",\"version\":{}", reply.entry_version);
    }
    if matches!(operation, GET | GET_WITH_VERSION) && done {
        let _ = write!(out, ",\"value\":{}", of_bytes(value));
    }
    if !reads && !done {
        let reason = outcome(operation, status_of(reply));
        let _ = write!(out, ",\"reason\":{}", of_text(reason));
    }
    if has_previous(asked, reply.status, value) {
        let _ = write!(out, ",\"previous\":{}", of_bytes(value));
    }
    out.push_str("}\n");
    out
}

#[cfg(test)]
mod tests {
    use super::*;

    #[test]
    fn bytes_are_a_string_or_digits() {
        let cases: [(&[u8], &str); 6] = [
            (b"", r#""""#),
            (b"Ida \"7\" \\", r#""Ida \"7\" \\""#),
            (b"a\nb\x7f\t", r#""a\u000ab\u007f\u0009""#),
            ("Äß\u{85}😀".as_bytes(), "\"Äß\\u0085😀\""),
            (b"0xff", r#""0xff""#),
            (b"\xff\x00", r#"{"digits":"ff00"}"#),
        ];
        for (bytes, wanted) in cases {
            assert_eq!(of_bytes(bytes), wanted);
        }
    }
}
