//! The second of a call, and a warning where the system's clock was set.

use std::time::{SystemTime, UNIX_EPOCH};

use crate::border::system::since_boot;
use crate::date::date;
use crate::failure::say;

/// By how many seconds the clock may be set without a warning.
const MOST: i64 = 60;

/// The system's UNIX time in seconds; before 1970 it is below 0.
fn unix_time() -> i64 {
    of_time(SystemTime::now())
}

/// A time as a UNIX time in seconds.
fn of_time(time: SystemTime) -> i64 {
    match time.duration_since(UNIX_EPOCH) {
        Ok(time) => i64::try_from(time.as_secs()).unwrap_or(i64::MAX),
        Err(before) => -i64::try_from(before.duration().as_secs()).unwrap_or(i64::MAX),
    }
}

/// A UNIX time, as far as the library's seconds go.
fn second_of(time: i64) -> u32 {
    u32::try_from(time.max(0)).unwrap_or(u32::MAX)
}

/// The present second.
pub fn second() -> u32 {
    second_of(unix_time())
}

/// The clock of a server.
pub struct Clock {
    /// The UNIX time at which the system was started, by the clock as it was
    /// read last.
    start: i64,
    /// The latest second that was given out: the table's time.
    latest: u32,
}

impl Default for Clock {
    fn default() -> Clock {
        Clock {
            start: unix_time() - since_boot(),
            latest: 0,
        }
    }
}

impl Clock {
    /// The present second. Where the clock was set since it was read last, that
    /// is said, with both times.
    pub fn second(&mut self) -> u32 {
        let (time, passed) = (unix_time(), since_boot());
        if let Some(words) = self.compare(time, passed) {
            say(words);
        }
        let second = second_of(time);
        self.latest = self.latest.max(second);
        second
    }

    /// Compares the UNIX time with the time that has passed since the system's
    /// start; answers the warning where they part.
    fn compare(&mut self, time: i64, passed: i64) -> Option<String> {
        let awaited = self.start + passed;
        if (time - awaited).abs() <= MOST {
            return None;
        }
        self.start = time - passed;
        let (is, was) = (shown(time), shown(awaited));
        let meaning = if time > awaited {
            "Entries with a deadline up to that time are gone, and lifespans are counted from it."
                .to_string()
        } else {
            format!(
                "The table's time does not go back: until the clock says {}, lifespans are counted from there. A restart counts by the clock again.",
                date(u64::from(self.latest))
            )
        };
        Some(format!(
            "warning: the system's clock was set: it says {is}, and by the time that has passed it should be {was}.\n{meaning}"
        ))
    }
}

/// A UNIX time as a date, within the dates that a table can have.
fn shown(time: i64) -> String {
    date(time.clamp(0, 2 * i64::from(u32::MAX)) as u64)
}

/// The warning for a table whose file was stored later than the clock's present
/// time, if it was.
pub fn from_later(stored: SystemTime) -> Option<String> {
    let (stored, time) = (of_time(stored), unix_time());
    (stored - time > MOST).then(|| {
        format!(
            "warning: the table was stored at {}, and the system's clock says {}.\nThe clock was ahead then, or is behind: entries stay for too long until it is set.",
            shown(stored),
            shown(time)
        )
    })
}

#[cfg(test)]
mod tests {
    use super::*;
    use std::time::Duration;

    #[test]
    fn only_a_clock_that_was_set_is_told() {
        let mut clock = Clock {
            start: 1_000_000,
            latest: 1_000_100,
        };
        assert_eq!(clock.compare(1_000_100, 100), None);
        assert_eq!(clock.compare(1_000_160, 100), None);
        assert_eq!(clock.compare(1_000_040, 100), None);
        let words = clock.compare(1_000_161, 100).unwrap();
        assert!(words.contains("says 1970-01-12 13:49:21 UTC"), "{words}");
        assert!(words.contains("be 1970-01-12 13:48:20 UTC"), "{words}");
        assert_eq!(clock.compare(1_000_162, 101), None, "it is told once");
        let words = clock.compare(1_000_101, 101).unwrap();
        assert!(
            words.contains("does not go back: until the clock says 1970-01-12 13:48:20"),
            "{words}"
        );
        assert!(clock
            .compare(-5, 101)
            .unwrap()
            .contains("says 1970-01-01 00:00:00"));
    }

    #[test]
    fn seconds_are_kept_within_the_librarys() {
        assert_eq!([-5, 0, 7, 1 << 33].map(second_of), [0, 0, 7, u32::MAX]);
        assert_eq!(of_time(UNIX_EPOCH - Duration::from_secs(5)), -5);
        assert_eq!(from_later(SystemTime::now()), None);
        assert!(from_later(SystemTime::now() + Duration::from_secs(90)).is_some());
    }
}
