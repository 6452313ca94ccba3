//! What failed, in words.

use std::fmt::Display;

/// A sentence or more for standard error.
pub type Failure = String;

/// Says what could not be done, and the system's word for it.
pub fn because(what: impl Display, error: std::io::Error) -> Failure {
    format!("{what}: {}", plain(&error))
}

/// A failure to understand the words that were given.
pub fn not_understood(failure: impl Display) -> Failure {
    format!("{failure}\n'feyqoolad help' shows what is understood. Nothing was done.")
}

/// The system's word, without its number.
pub fn plain(error: &std::io::Error) -> String {
    let text = error.to_string();
    match text.find(" (os error") {
        Some(at) => text[..at].to_string(),
        None => text,
    }
}

/// Says something on standard error. Where that can't be written, nothing can
/// be said.
pub fn say(words: impl Display) {
    use std::io::Write;
    let _ = writeln!(std::io::stderr(), "feyqoolad: {words}");
}
