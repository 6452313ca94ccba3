//! A second as a date for people, in UTC, and a date as a second.

/// The seconds of a day.
pub const DAY: u64 = 86_400;
const MONTHS: [u64; 12] = [31, 28, 31, 30, 31, 30, 31, 31, 30, 31, 30, 31];

fn is_leap(year: u64) -> bool {
    year % 4 == 0 && (year % 100 != 0 || year % 400 == 0)
}

fn days_of_year(year: u64) -> u64 {
    365 + u64::from(is_leap(year))
}

fn days_of_month(year: u64, month: usize) -> u64 {
    MONTHS[month] + u64::from(month == 1 && is_leap(year))
}

/// The UNIX time at which a day begins in UTC, if there is such a day.
pub fn seconds_of_day(year: u64, month: u64, day: u64) -> Option<i64> {
    let at = usize::try_from(month).ok()?.checked_sub(1)?;
    if at >= MONTHS.len() || !(1..=days_of_month(year, at)).contains(&day) {
        return None;
    }
    let years = |from: u64, to: u64| (from..to).map(days_of_year).sum::<u64>() as i64;
    let days: u64 = (0..at).map(|one| days_of_month(year, one)).sum();
    let years = years(1970, year) - years(year, 1970);
    Some((years + (days + day) as i64 - 1) * DAY as i64)
}

/// The date and the time of a second of UNIX time.
pub fn date(second: u64) -> String {
    let [year, month, day, hour, minute, second] = parts(second);
    format!("{year}-{month:02}-{day:02} {hour:02}:{minute:02}:{second:02} UTC")
}

/// The same as ISO 8601 has it, for files.
pub fn stamp(second: u64) -> String {
    let [year, month, day, hour, minute, second] = parts(second);
    format!("{year}-{month:02}-{day:02}T{hour:02}:{minute:02}:{second:02}Z")
}

/// Year, month, day, hour, minute and second.
fn parts(second: u64) -> [u64; 6] {
    let (mut days, time) = (second / DAY, second % DAY);
    let (mut year, mut month) = (1970, 0);
    while days >= days_of_year(year) {
        days -= days_of_year(year);
        year += 1;
    }
    while days >= days_of_month(year, month) {
        days -= days_of_month(year, month);
        month += 1;
    }
    let month = month as u64 + 1;
    [
        year,
        month,
        days + 1,
        time / 3600,
        time / 60 % 60,
        time % 60,
    ]
}

#[cfg(test)]
mod tests {
    use super::*;

    #[test]
    fn dates_are_those_of_the_calendar() {
        let cases = [
            (0, "1970-01-01 00:00:00 UTC"),
            (104, "1970-01-01 00:01:44 UTC"),
            (951_782_399, "2000-02-28 23:59:59 UTC"),
            (951_782_400, "2000-02-29 00:00:00 UTC"),
            (1_798_135_200, "2026-12-24 18:00:00 UTC"),
            (1_798_761_599, "2026-12-31 23:59:59 UTC"),
            (4_107_542_399, "2100-02-28 23:59:59 UTC"),
            (4_107_542_400, "2100-03-01 00:00:00 UTC"),
            (8_589_934_590, "2242-03-16 12:56:30 UTC"),
        ];
        for (second, wanted) in cases {
            assert_eq!(date(second), wanted);
            let (day, time) = wanted.split_at(10);
            assert_eq!(stamp(second), format!("{day}T{}Z", &time[1..9]));
            let numbers: Vec<u64> = day.split('-').map(|one| one.parse().unwrap()).collect();
            let begin = seconds_of_day(numbers[0], numbers[1], numbers[2]);
            assert_eq!(begin, Some((second - second % DAY) as i64), "{wanted}");
        }
        assert_eq!(seconds_of_day(1969, 12, 31), Some(-86_400));
        assert_eq!(seconds_of_day(1968, 2, 29), Some(-58_060_800));
        assert_eq!(seconds_of_day(2100, 2, 29), None);
        assert_eq!(seconds_of_day(2026, 0, 1), None);
    }
}
