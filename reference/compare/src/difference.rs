//! A difference found, told in full.

use std::fmt::{self, Display, Formatter};

use reference::hex::to_string;

/// What differs, and the things to know about it, each with its name.
#[derive(Debug)]
pub struct Difference {
    what: String,
    facts: Vec<(String, String)>,
}

pub type Outcome = Result<(), Difference>;

impl Difference {
    pub fn new(what: &str) -> Difference {
        Difference {
            what: what.to_string(),
            facts: Vec::new(),
        }
    }

    pub fn with(mut self, name: &str, fact: impl Display) -> Difference {
        self.facts.push((name.to_string(), fact.to_string()));
        self
    }

    pub fn bytes(self, name: &str, bytes: &[u8]) -> Difference {
        let shown = format!("{} bytes: {}", bytes.len(), to_string(bytes));
        self.with(name, shown)
    }
}

impl Display for Difference {
    fn fmt(&self, out: &mut Formatter) -> fmt::Result {
        writeln!(out, "difference: {}", self.what)?;
        for (name, fact) in &self.facts {
            writeln!(out, "  {name}: {fact}")?;
        }
        Ok(())
    }
}

/// A difference unless the fact holds.
pub fn hold(fact: bool, what: &str) -> Outcome {
    if fact {
        return Ok(());
    }
    Err(Difference::new(what))
}

pub fn same<T: PartialEq + Display>(what: &str, expected: T, got: T) -> Outcome {
    if expected == got {
        return Ok(());
    }
    Err(Difference::new(what)
        .with("expected", expected)
        .with("got", got))
}

pub fn same_bytes(what: &str, expected: &[u8], got: &[u8]) -> Outcome {
    if expected == got {
        return Ok(());
    }
    let at = expected.iter().zip(got).position(|(a, b)| a != b);
    let at = at.unwrap_or(expected.len().min(got.len()));
    Err(Difference::new(what)
        .with("first place", at)
        .bytes("expected", expected)
        .bytes("got", got))
}
