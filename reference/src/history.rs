//! What a map remembers of the calls served since start or the last load.

use crate::number::LARGEST_VLONG;
use crate::operation::{GET, PUT, REMOVE};
use crate::statistics::Statistics;

/// The places of the counts.
pub const TOTAL: usize = 0;
pub const STORES: usize = 1;
pub const RETRIEVALS: usize = 2;
pub const HITS: usize = 3;
pub const MISSES: usize = 4;
pub const REMOVE_HITS: usize = 5;
pub const REMOVE_MISSES: usize = 6;

/// The number of counts.
pub const COUNTS: usize = 7;

/// The largest second of a call.
pub const LARGEST_SECOND: u64 = 4_294_967_295;

#[derive(Clone, Debug, Default, PartialEq, Eq)]
pub struct History {
    /// The second of the first call served, and none before it.
    pub first: Option<u64>,
    /// From totalNumberOfEntries on, in the order of the statistics.
    pub counts: [u64; COUNTS],
    /// The latest second served, and 0 before the first call.
    pub latest: u64,
}

impl History {
    /// Whether no count is above the largest vLong, and neither the first nor
    /// the latest second above the largest second.
    pub fn is_sound(&self) -> bool {
        self.counts.iter().all(|count| *count <= LARGEST_VLONG)
            && self.first.unwrap_or(0) <= LARGEST_SECOND
            && self.latest <= LARGEST_SECOND
    }

    /// The present second of a call: the greatest among its own and those of
    /// the calls served before.
    pub fn present(&self, second: u32) -> u64 {
        self.latest.max(u64::from(second))
    }

    /// A count stops at the largest vLong.
    fn count(&mut self, place: usize) {
        if self.counts[place] < LARGEST_VLONG {
            self.counts[place] += 1;
        }
    }

    /// Remembers a call that was served at this second. `outcome` is the status
    /// that its reply has in versions 10 to 12, so that 03 counts as 00; `added`
    /// says whether it wrote a key that was not held.
    pub fn remember(&mut self, second: u32, operation: u8, outcome: u8, added: bool) {
        self.first.get_or_insert(u64::from(second));
        self.latest = self.present(second);
        if added {
            self.count(TOTAL);
        }
        match operation {
            PUT if outcome == 0 => self.count(STORES),
            GET => {
                self.count(RETRIEVALS);
                self.count(if outcome == 0 { HITS } else { MISSES });
            }
            REMOVE if outcome == 0 => self.count(REMOVE_HITS),
            REMOVE => self.count(REMOVE_MISSES),
            _ => {}
        }
    }

    /// The seconds from the first call served to this call's own second: 0 if
    /// there was none before, or if the clock went back.
    fn since_start(&self, second: u32) -> u64 {
        let first = self.first.unwrap_or(u64::from(second));
        u64::from(second).saturating_sub(first)
    }

    /// The statistics told to a call at this second, with so many keys held.
    pub fn statistics(&self, second: u32, held: usize) -> Statistics {
        let mut statistics = [self.since_start(second), held as u64, 0, 0, 0, 0, 0, 0, 0];
        statistics[2..].copy_from_slice(&self.counts);
        statistics
    }
}
