//! Bytes and words lent to a subject, each with a margin on both sides that
//! has to stay as it is.

use std::hint::black_box;

use crate::chance::Chance;
use crate::difference::{hold, same_bytes, Outcome};

/// The bytes of a margin.
pub const MARGIN: usize = 32;

/// Random bytes come again after so many.
const PERIOD: usize = 8209;

#[derive(Clone)]
pub struct Lent {
    bytes: Vec<u8>,
}

impl Lent {
    /// So many random bytes.
    pub fn random(chance: &mut Chance, length: usize) -> Lent {
        let length = length + 2 * MARGIN;
        let period = chance.bytes(length.min(PERIOD));
        let mut bytes = Vec::with_capacity(length);
        while bytes.len() < length {
            let rest = period.len().min(length - bytes.len());
            bytes.extend_from_slice(&period[..rest]);
        }
        Lent { bytes }
    }

    /// These bytes.
    pub fn of(bytes: &[u8]) -> Lent {
        let mut all = vec![0xc7; bytes.len() + 2 * MARGIN];
        all[MARGIN..MARGIN + bytes.len()].copy_from_slice(bytes);
        Lent { bytes: all }
    }

    pub fn slice(&self) -> &[u8] {
        &self.bytes[MARGIN..self.bytes.len() - MARGIN]
    }

    pub fn slice_mut(&mut self) -> &mut [u8] {
        let end = self.bytes.len() - MARGIN;
        &mut self.bytes[MARGIN..end]
    }

    /// The bytes and both margins.
    pub fn all(&self) -> &[u8] {
        black_box(&self.bytes)
    }

    /// Whether all bytes are those of the other, the margins too.
    pub fn same(&self, what: &str, expected: &Lent) -> Outcome {
        same_bytes(what, expected.all(), self.all())
    }

    /// Whether the margins are those of the other.
    pub fn margins_kept(&self, what: &str, before: &Lent) -> Outcome {
        let (old, new) = (before.all(), self.all());
        let end = new.len() - MARGIN;
        hold(
            old[..MARGIN] == new[..MARGIN] && old[end..] == new[end..],
            what,
        )
    }
}

const WORD: u64 = 0xd1ce_0000_0000_0000;
const WORD_MARGIN: usize = 2;

/// Words for an answer, each filled with a pattern at first.
pub struct Words {
    words: Vec<u64>,
}

/// The word that stands at this place before a call.
fn pattern(at: usize) -> u64 {
    WORD + at as u64
}

impl Words {
    pub fn new(length: usize) -> Words {
        Words {
            words: (0..length + 2 * WORD_MARGIN).map(pattern).collect(),
        }
    }

    /// Mostly as long as needed; at times longer, at times too short.
    pub fn about(chance: &mut Chance, needed: usize) -> Words {
        match chance.below(16) {
            0 => Words::new(chance.below(needed)),
            1 => Words::new(needed + 1 + chance.below(4)),
            _ => Words::new(needed),
        }
    }

    /// Mostly as long as needed; at times longer.
    pub fn enough(chance: &mut Chance, needed: usize) -> Words {
        match chance.below(16) {
            0 => Words::new(needed + 1 + chance.below(4)),
            _ => Words::new(needed),
        }
    }

    pub fn slice(&self) -> &[u64] {
        &self.words[WORD_MARGIN..self.words.len() - WORD_MARGIN]
    }

    pub fn slice_mut(&mut self) -> &mut [u64] {
        let end = self.words.len() - WORD_MARGIN;
        &mut self.words[WORD_MARGIN..end]
    }

    /// Whether only the first so many words may have been written.
    pub fn kept_behind(&self, written: usize) -> Outcome {
        let words = black_box(&self.words);
        for (at, word) in words.iter().enumerate() {
            let inside = at >= WORD_MARGIN && at < WORD_MARGIN + written;
            hold(
                inside || *word == pattern(at),
                "the answer's words are written where they have to be left",
            )?;
        }
        Ok(())
    }

    /// Whether the answer holds these words, or is as it was if too short.
    pub fn are(&self, expected: &[u64]) -> Outcome {
        if self.slice().len() < expected.len() {
            return self.kept_behind(0);
        }
        for (at, word) in expected.iter().enumerate() {
            crate::difference::same(&format!("word {at} of the answer"), *word, self.slice()[at])?;
        }
        self.kept_behind(expected.len())
    }
}
