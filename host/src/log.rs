//! What a server says to those who run it: a line for each message, with its time
//! and its level.

use std::fmt::Display;
use std::io::{self, Write};

use crate::clock::second;
use crate::date::stamp;

/// Says how things are.
pub fn info(words: impl Display) {
    write("info", words);
}

/// Says what somebody should look at.
pub fn warning(words: impl Display) {
    write("warning", words);
}

/// Says what failed, so that the server or its page ends.
pub fn error(words: impl Display) {
    write("error", words);
}

/// Writes a line in one piece. Where standard error can't be written, nothing
/// can be said.
fn write(level: &str, words: impl Display) {
    let line = line(u64::from(second()), level, &words.to_string());
    let _ = io::stderr().write_all(line.as_bytes());
}

/// A message in one line, whatever is in it.
fn line(second: u64, level: &str, words: &str) -> String {
    let mut out = format!("{} {level} feyqoolad: ", stamp(second));
    for (at, sentence) in words.lines().enumerate() {
        if at > 0 {
            out.push_str(if out.ends_with('.') { " " } else { ". " });
        }
        out.extend(
            sentence
                .chars()
                .map(|one| if one.is_control() { ' ' } else { one }),
        );
    }
    out.push('\n');
    out
}

#[cfg(test)]
mod tests {
    use super::*;

    #[test]
    fn a_message_is_one_line() {
        let begin = "2026-12-24T18:00:00Z warning feyqoolad: ";
        for (words, wanted) in [
            ("all is well", "all is well"),
            ("no room\nTry again.\nSoon", "no room. Try again. Soon"),
            ("a\tb\x1b[1m", "a b [1m"),
            ("", ""),
        ] {
            let line = line(1_798_135_200, "warning", words);
            assert_eq!(line, format!("{begin}{wanted}\n"));
        }
    }
}
