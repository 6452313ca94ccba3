//! The entries as JSON. What comes from a key or a value is a letter, a digit,
//! a blank or an escape, so that it is data wherever it is put.

use std::fmt::Write;

use super::order::compare;
use crate::border::library::Entry;
use crate::hex::to_digits;

/// The entries by key, as people count, behind the number of the page that
/// shows them.
pub fn of_entries(mut entries: Vec<Entry>, page: &str) -> String {
    entries.sort_by(|one, other| compare(one.0, other.0));
    let mut out = format!("{{\"page\":\"{page}\",\"entries\":[");
    for (at, (key, value)) in entries.iter().enumerate() {
        let comma = if at > 0 { "," } else { "" };
        let _ = write!(out, "{comma}\n{{\"key\":{},", of_field(key));
        let _ = write!(out, "\"value\":{}}}", of_field(value));
    }
    out.push_str("\n]}\n");
    out
}

/// A key or a value: text as a string; what is no text, or has control
/// characters, as digits.
fn of_field(bytes: &[u8]) -> String {
    match std::str::from_utf8(bytes) {
        Ok(text) if !text.chars().any(char::is_control) => of_text(text),
        _ => format!("{{\"digits\":\"{}\"}}", to_digits(bytes)),
    }
}

fn of_text(text: &str) -> String {
    let mut out = String::from("\"");
    let mut units = [0; 2];
    for character in text.chars() {
        if character.is_ascii_alphanumeric() || character == ' ' {
            out.push(character);
            continue;
        }
        for unit in character.encode_utf16(&mut units) {
            let _ = write!(out, "\\u{unit:04x}");
        }
    }
    out.push('"');
    out
}

#[cfg(test)]
mod tests {
    use super::*;

    #[test]
    fn fields_are_escaped() {
        let cases: [(&[u8], &str); 6] = [
            (b"Ida 7", "\"Ida 7\""),
            (b"", "\"\""),
            (b"<\"\\'&>", r#""\u003c\u0022\u005c\u0027\u0026\u003e""#),
            ("ä\u{2028}😀".as_bytes(), r#""\u00e4\u2028\ud83d\ude00""#),
            (b"a\nb", "{\"digits\":\"610a62\"}"),
            (b"\xff\x80", "{\"digits\":\"ff80\"}"),
        ];
        for (bytes, wanted) in cases {
            assert_eq!(of_field(bytes), wanted);
        }
    }

    #[test]
    fn entries_stand_by_key() {
        let entries: Vec<Entry> = vec![(b"b10", b""), (b"b2", b"x"), (b"b", b"z")];
        let wanted = "{\"page\":\"7f\",\"entries\":[\n{\"key\":\"b\",\"value\":\"z\"},\n{\"key\":\"b2\",\"value\":\"x\"},\n{\"key\":\"b10\",\"value\":\"\"}\n]}\n";
        assert_eq!(of_entries(entries, "7f"), wanted);
        let none = of_entries(Vec::new(), "7f");
        assert_eq!(none, "{\"page\":\"7f\",\"entries\":[\n]}\n");
    }
}
