//! What a round needs: the subject, the generator, and the counts.

use std::fmt::Write;

use crate::chance::Chance;
use crate::subject::GOOD;

pub struct Trial<'a, S> {
    pub subject: &'a mut S,
    /// The number of the round, from 0 on.
    pub round: u64,
    pub chance: Chance,
    pub counts: Counts,
}

/// What was compared, and how often each code was given.
#[derive(Clone, Debug, Default)]
pub struct Counts {
    pub rounds: u64,
    /// Inputs compared.
    pub inputs: u64,
    /// Of these, messages read or written.
    pub messages: u64,
    /// Of these, calls to the server, those within streams and files too.
    pub served: u64,
    good: u64,
    /// More needed, and the refusals 1 to 17.
    codes: [u64; 18],
}

impl Counts {
    pub fn code(&mut self, code: u64) {
        if code >= GOOD {
            self.good += 1;
        } else if let Some(count) = self.codes.get_mut(code as usize) {
            *count += 1;
        }
    }

    pub fn input(&mut self, code: u64) {
        self.inputs += 1;
        self.code(code);
    }

    pub fn message(&mut self, code: u64) {
        self.messages += 1;
        self.input(code);
    }

    pub fn call(&mut self, code: u64) {
        self.served += 1;
        self.input(code);
    }

    pub fn add(&mut self, other: &Counts) {
        self.rounds += other.rounds;
        self.inputs += other.inputs;
        self.messages += other.messages;
        self.served += other.served;
        self.good += other.good;
        for (sum, count) in self.codes.iter_mut().zip(other.codes) {
            *sum += count;
        }
    }

    /// How often the code was given; all good codes count as one.
    pub fn given(&self, code: u64) -> u64 {
        if code >= GOOD {
            return self.good;
        }
        self.codes[code as usize]
    }

    /// The codes that were given, each with its count.
    pub fn shown(&self) -> String {
        let mut text = format!("good {}", self.good);
        for (code, count) in self.codes.iter().enumerate() {
            if *count > 0 && code == 0 {
                let _ = write!(text, ", more {count}");
            } else if *count > 0 {
                let _ = write!(text, ", {code}: {count}");
            }
        }
        text
    }
}
