//! Whether the server looks for further requests for a moment before it sleeps.
//!
//! Being woken may take longer than many a request, and a client that has just
//! been answered often calls again at once. But looking also keeps a processor
//! from others that may need it, the clients among them. So both are tried for a
//! few turns, and for the next ones it looks only if that was clearly faster. A
//! server that is not called looks for nothing.

use std::thread::available_parallelism;
use std::time::{Duration, Instant};

/// How long it looks at most.
pub const LOOK: Duration = Duration::from_micros(50);
/// The turns of a trial.
const TURNS: u32 = 64;
/// The trials of a round: one without looking, one with it, and the others with
/// what was faster.
const TRIALS: u32 = 32;
/// More time is not counted for a turn: nobody called.
const PAUSE: Duration = Duration::from_micros(200);

pub struct Haste {
    /// Whether a client can call at all while the server looks.
    useful: bool,
    looks: bool,
    trial: u32,
    turns: u32,
    served: u32,
    time: Duration,
    /// When the turn before began.
    last: Instant,
    /// The time for one that was served in the trial without looking.
    slept: f64,
}

impl Haste {
    pub fn new(now: Instant) -> Haste {
        Haste {
            useful: available_parallelism().is_ok_and(|count| count.get() > 1),
            looks: false,
            trial: 0,
            turns: 0,
            served: 0,
            time: Duration::ZERO,
            last: now,
            slept: 0.0,
        }
    }

    /// So many connections are served in a turn that begins at this time. Answers
    /// whether to look for further requests behind it.
    pub fn served(&mut self, count: usize, now: Instant) -> bool {
        self.time += now.saturating_duration_since(self.last).min(PAUSE);
        self.last = now;
        self.turns += 1;
        self.served += count as u32;
        if self.turns == TURNS {
            self.end_trial();
        }
        self.looks && self.useful
    }

    fn end_trial(&mut self) {
        let each = self.time.as_secs_f64() / f64::from(self.served);
        match self.trial {
            0 => (self.slept, self.looks) = (each, true),
            1 => self.looks = each < 0.9 * self.slept,
            _ => {}
        }
        self.trial = (self.trial + 1) % TRIALS;
        self.looks &= self.trial > 0;
        (self.turns, self.served, self.time) = (0, 0, Duration::ZERO);
    }
}

#[cfg(test)]
mod tests {
    use super::*;

    /// In how many of many turns it looks, where a turn takes so many
    /// microseconds without looking and with it.
    fn looks(sleeping: u64, looking: u64) -> u32 {
        let mut now = Instant::now();
        let mut haste = Haste::new(now);
        haste.useful = true;
        let (mut looks, mut count) = (false, 0);
        for _ in 0..100 * TURNS * TRIALS {
            now += Duration::from_micros(if looks { looking } else { sleeping });
            looks = haste.served(1, now);
            count += u32::from(looks);
        }
        count / (100 * TURNS)
    }

    #[test]
    fn it_looks_where_that_is_faster() {
        assert_eq!(looks(50, 30), TRIALS - 1);
        assert_eq!(looks(30, 50), 1);
        assert_eq!(looks(50, 48), 1);
        assert_eq!(looks(1_000_000, 500_000), 1);
    }
}
