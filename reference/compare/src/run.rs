//! Plays rounds of all parts in turn, and tells what was compared.

use std::panic::{catch_unwind, AssertUnwindSafe};
use std::time::{Duration, Instant};

use crate::chance::Chance;
use crate::difference::{Difference, Outcome};
use crate::subject::{ComparesKeys, ListsKeys, ServesLines, ServesMany, Stores, Subject};
use crate::trial::{Counts, Trial};
use crate::{
    bulk, dates, edges, expiry, keys, lines, many, messages, order, serving, statistics, stored,
    streams, tables, values, versions,
};

/// One part, and how many rounds of it a quick run plays. A long run plays
/// the parts in the same proportion.
pub struct Part<S> {
    pub name: &'static str,
    pub rounds: u64,
    pub round: fn(&mut Trial<S>) -> Outcome,
    /// Goes into the seeds of its rounds.
    number: u64,
}

fn part<S>(
    number: u64,
    name: &'static str,
    rounds: u64,
    round: fn(&mut Trial<S>) -> Outcome,
) -> Part<S> {
    Part {
        name,
        rounds,
        round,
        number,
    }
}

/// Parts a to e, h, l and n.
pub fn parts<S: Subject>() -> Vec<Part<S>> {
    vec![
        part(0, "messages", 9_000, messages::round),
        part(1, "serving", 12_100, serving::round),
        part(2, "streams", 27_000, streams::round),
        part(3, "tables", 4_000, tables::round),
        part(4, "values", 22_000, values::round),
        part(7, "edges", 80, edges::round),
        part(11, "bulk", 200, bulk::round),
        part(13, "versions", 256, versions::round),
    ]
}

/// Part f, request files.
pub fn lines_part<S: ServesLines>() -> Part<S> {
    part(5, "lines", 4_800, lines::round)
}

/// Part g, stored tables.
pub fn stored_part<S: Stores>() -> Part<S> {
    part(6, "stored", 1_200, stored::round)
}

/// Part i, deadlines.
pub fn dates_part<S: ServesLines + Stores>() -> Part<S> {
    part(8, "dates", 12, dates::round)
}

/// Part j, keys.
pub fn keys_part<S: ComparesKeys>() -> Part<S> {
    part(9, "keys", 40, keys::round)
}

/// Part k, statistics.
pub fn statistics_part<S: Stores>() -> Part<S> {
    part(10, "statistics", 3_000, statistics::round)
}

/// Part o, many connections.
pub fn many_part<S: ServesMany>() -> Part<S> {
    part(14, "many", 400, many::round)
}

/// Part p, the order of the keys.
pub fn order_part<S: ListsKeys + Stores>() -> Part<S> {
    part(15, "order", 200, order::round)
}

/// Part m, entries that expire.
pub fn expiry_part<S: Stores>() -> Part<S> {
    part(12, "expiry", 1_200, expiry::round)
}

/// Plays one round. The same seed, part and round are the same inputs.
pub fn play<S>(
    part: &Part<S>,
    subject: &mut S,
    seed: u64,
    round: u64,
) -> Result<Counts, Difference> {
    let mut trial = Trial {
        subject,
        round,
        chance: Chance::of_round(seed, part.number, round),
        counts: Counts::default(),
    };
    let played = catch_unwind(AssertUnwindSafe(|| (part.round)(&mut trial)));
    let outcome = played.unwrap_or_else(|reason| Err(panicked(reason.as_ref())));
    trial.counts.rounds = 1;
    match outcome {
        Ok(()) => Ok(trial.counts),
        Err(found) => Err(found
            .with("part", part.name)
            .with("seed", seed)
            .with("round", round)
            .with(
                "again with",
                format!("compare again {seed} {} {round}", part.name),
            )),
    }
}

/// A wrapper found an answer that cannot be, or the harness itself failed.
fn panicked(reason: &(dyn std::any::Any + Send)) -> Difference {
    let words = match reason.downcast_ref::<String>() {
        Some(words) => words.clone(),
        None => reason
            .downcast_ref::<&str>()
            .map_or(String::new(), |words| (*words).to_string()),
    };
    Difference::new("the round broke off").with("reason", words)
}

/// The totals of each part.
pub struct Totals {
    pub counts: Vec<Counts>,
}

impl Totals {
    fn new(parts: usize) -> Totals {
        Totals {
            counts: vec![Counts::default(); parts],
        }
    }

    /// How much of the part's rounds was played; 1.0 is a quick run.
    fn played<S>(&self, parts: &[Part<S>], at: usize) -> f64 {
        self.counts[at].rounds as f64 / parts[at].rounds as f64
    }

    /// The part of which the least was played.
    fn next<S>(&self, parts: &[Part<S>]) -> usize {
        let least = |a: &usize, b: &usize| {
            let (a, b) = (self.played(parts, *a), self.played(parts, *b));
            a.total_cmp(&b)
        };
        (0..parts.len()).min_by(least).unwrap_or(0)
    }

    /// Plays one round of the part that is next.
    fn go_on<S>(
        &mut self,
        parts: &[Part<S>],
        subject: &mut S,
        seed: u64,
    ) -> Result<(), Difference> {
        let at = self.next(parts);
        let counts = play(&parts[at], subject, seed, self.counts[at].rounds)?;
        self.counts[at].add(&counts);
        Ok(())
    }

    pub fn sum(&self) -> Counts {
        let mut sum = Counts::default();
        for counts in &self.counts {
            sum.add(counts);
        }
        sum
    }

    /// A line a part.
    pub fn shown<S>(&self, parts: &[Part<S>]) -> String {
        let mut text = String::new();
        for (part, counts) in parts.iter().zip(&self.counts) {
            text += &format!(
                "{:10} {:>7} rounds {:>10} inputs  {}\n",
                part.name,
                counts.rounds,
                counts.inputs,
                counts.shown()
            );
        }
        text
    }

    /// The last line of a run without differences.
    pub fn last_line(&self) -> String {
        let sum = self.sum();
        format!(
            "compared {} messages, {} served requests, 0 differences",
            sum.messages, sum.served
        )
    }
}

/// Plays the rounds of a quick run, or up to the first difference. The same
/// seed is the same inputs on every machine.
pub fn all_rounds<S>(parts: &[Part<S>], subject: &mut S, seed: u64) -> Result<Totals, Difference> {
    let mut totals = Totals::new(parts.len());
    for _ in 0..parts.iter().map(|part| part.rounds).sum() {
        totals.go_on(parts, subject, seed)?;
    }
    Ok(totals)
}

/// Plays rounds until the time is over or a difference is found. `report` is
/// called after every minute but the last.
pub fn for_time<S>(
    parts: &[Part<S>],
    subject: &mut S,
    seed: u64,
    time: Duration,
    mut report: impl FnMut(&Totals),
) -> Result<Totals, Difference> {
    let start = Instant::now();
    let mut totals = Totals::new(parts.len());
    let mut minutes = 1;
    while start.elapsed() < time {
        totals.go_on(parts, subject, seed)?;
        let elapsed = start.elapsed();
        if elapsed.as_secs() >= 60 * minutes && elapsed < time {
            report(&totals);
            minutes += 1;
        }
    }
    Ok(totals)
}
