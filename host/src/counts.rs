//! What a server counts for those who watch it. The thread that serves, the one
//! that stores and the one of the page share it.

use std::sync::atomic::{AtomicBool, AtomicU64, Ordering::Relaxed};
use std::time::{Duration, Instant};

use crate::refusals::TEXTS;

pub struct Counts {
    begin: Instant,
    /// Whether somebody may ask for the refusals.
    pub watched: bool,
    /// Connections that are open, and how many may be.
    pub open: AtomicU64,
    pub limit: AtomicU64,
    /// Connections that were taken, turned away, and closed since they were idle.
    pub accepted: AtomicU64,
    pub turned_away: AtomicU64,
    pub idle: AtomicU64,
    refusals: [AtomicU64; TEXTS.len()],
    /// Stores that were done and that failed, and the microseconds of the first.
    stores: AtomicU64,
    failures: AtomicU64,
    micros: AtomicU64,
    /// Whether the last store failed.
    failing: AtomicBool,
    /// The microsecond behind the beginning at which the last store was done, and
    /// 0 for none.
    last: AtomicU64,
}

impl Counts {
    pub fn new(watched: bool) -> Counts {
        let zero = || AtomicU64::new(0);
        Counts {
            begin: Instant::now(),
            watched,
            open: zero(),
            limit: zero(),
            accepted: zero(),
            turned_away: zero(),
            idle: zero(),
            refusals: std::array::from_fn(|_| zero()),
            stores: zero(),
            failures: zero(),
            micros: zero(),
            failing: AtomicBool::new(false),
            last: zero(),
        }
    }

    /// A request was refused with this number.
    pub fn refused(&self, number: usize) {
        if let Some(count) = number.checked_sub(1).and_then(|at| self.refusals.get(at)) {
            add(count, 1);
        }
    }

    /// How many requests were refused with each number, from 1 on.
    pub fn refusals(&self) -> Vec<u64> {
        self.refusals.iter().map(get).collect()
    }

    /// The table was stored in so much time, or could not be stored.
    pub fn stored(&self, done: bool, time: Duration) {
        self.failing.store(!done, Relaxed);
        if done {
            add(&self.stores, 1);
            add(&self.micros, micros(time));
            self.last
                .store(micros(self.begin.elapsed()).max(1), Relaxed);
        } else {
            add(&self.failures, 1);
        }
    }

    /// Stores that were done and that failed, and the time of the first.
    pub fn stores(&self) -> (u64, u64, Duration) {
        let time = Duration::from_micros(get(&self.micros));
        (get(&self.stores), get(&self.failures), time)
    }

    pub fn is_failing(&self) -> bool {
        self.failing.load(Relaxed)
    }

    /// How long ago the table was last stored, if it was.
    pub fn age(&self) -> Option<Duration> {
        let last = Duration::from_micros(get(&self.last));
        (!last.is_zero()).then(|| self.begin.elapsed().saturating_sub(last))
    }
}

pub fn add(count: &AtomicU64, more: u64) {
    count.fetch_add(more, Relaxed);
}

pub fn get(count: &AtomicU64) -> u64 {
    count.load(Relaxed)
}

pub fn set(count: &AtomicU64, to: u64) {
    count.store(to, Relaxed);
}

fn micros(time: Duration) -> u64 {
    u64::try_from(time.as_micros()).unwrap_or(u64::MAX)
}

#[cfg(test)]
mod tests {
    use super::*;

    #[test]
    fn stores_and_refusals_are_counted() {
        let counts = Counts::new(true);
        assert_eq!((counts.age(), counts.is_failing()), (None, false));
        counts.stored(true, Duration::from_millis(2));
        counts.stored(true, Duration::from_millis(3));
        counts.stored(false, Duration::from_secs(9));
        assert_eq!(counts.stores(), (2, 1, Duration::from_millis(5)));
        assert!(counts.is_failing() && counts.age().is_some());
        for number in [0, 1, 10, 10, 11, 12] {
            counts.refused(number);
        }
        assert_eq!(counts.refusals(), [1, 0, 0, 0, 0, 0, 0, 0, 0, 2, 1]);
    }
}
