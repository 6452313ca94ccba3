//! How long an entry stays, as people say it: a span, or a date and a time. Both
//! become the lifespan of a request, which up to 30 days is a span, and above
//! that a UNIX time.

use crate::border::system::local_offset;
use crate::date::{date, seconds_of_day, DAY};
use crate::failure::Failure;
use crate::options::Words;

/// The greatest lifespan that is a span: 30 days.
const LONGEST_SPAN: u64 = 30 * DAY;
/// The greatest lifespan, and so the last date.
const LAST: u64 = u32::MAX as u64;

/// The options by which a lifespan is given.
pub const OPTIONS: [&str; 3] = ["lifespan", "for", "until"];

/// The lifespan that these words give at the present second; 0 is for ever.
pub fn lifespan(words: &Words, now: u64) -> Result<u64, Failure> {
    let (span, until) = (words.text("for")?, words.text("until")?);
    let seconds = words.number("lifespan", 0..=LAST)?;
    match (seconds, span, until) {
        (seconds, None, None) => Ok(seconds.unwrap_or(0)),
        (None, Some(span), None) => of_span(span, now),
        (None, None, Some(until)) => of_date(until, now),
        _ => Err("only one of --lifespan, --for and --until can be given".to_string()),
    }
}

/// The lifespan of a span that begins at the present second.
fn of_span(text: &str, now: u64) -> Result<u64, Failure> {
    let wrong = "--for has to be a span in s, m, h, d or w, as 90m, 2h, 3d or 1d12h";
    let span = span(text).ok_or(wrong)?;
    match span {
        0 => Err("--for has to be at least 1s".to_string()),
        1..=LONGEST_SPAN => Ok(span),
        _ if now.saturating_add(span) <= LAST => Ok(now + span),
        _ => Err(format!("--for ends after {}, the last date", date(LAST))),
    }
}

/// The seconds of a span: numbers, each with its unit.
fn span(text: &str) -> Option<u64> {
    let mut sum = 0u64;
    let mut rest = text;
    while !rest.is_empty() || text.is_empty() {
        let end = rest.find(|one: char| !one.is_ascii_digit())?;
        let unit = match rest[end..].chars().next()? {
            's' => 1,
            'm' => 60,
            'h' => 3600,
            'd' => DAY,
            'w' => 7 * DAY,
            _ => return None,
        };
        let count: u64 = rest[..end].parse().ok()?;
        sum = sum.checked_add(count.checked_mul(unit)?)?;
        rest = &rest[end + 1..];
    }
    Some(sum)
}

/// The lifespan of an entry that stays until a date. A date of this century is
/// sent as it is, so that it does not matter when the request is served.
fn of_date(text: &str, now: u64) -> Result<u64, Failure> {
    let second = second_of(text, &local_offset)
        .map_err(|wrong| format!("--until {wrong}: '{}'", text.escape_default()))?;
    let second = u64::try_from(second).unwrap_or(0);
    if second <= now {
        let (is, present) = (date(second), date(now));
        return Err(format!(
            "--until is past: it is {is}, and the clock says {present}"
        ));
    }
    match second {
        0..=LONGEST_SPAN => Ok(second - now),
        _ if second <= LAST => Ok(second),
        _ => Err(format!("--until is after {}, the last date", date(LAST))),
    }
}

/// The second of a deadline in a file, in which a date says where it holds or is
/// local, as on a command line.
pub fn deadline(text: &str) -> Result<i64, Failure> {
    second_of(text, &local_offset).map_err(|wrong| format!("the deadline {wrong}"))
}

const FORM: &str = "has to be like '2026-12-24 18:00', local, or like '2026-12-24 18:00 +01:00', or with Z for UTC";

/// The UNIX time of a date and a time of day, which is local unless it says where
/// it holds. The local offset is asked for by a UNIX time.
fn second_of(text: &str, offset_at: &dyn Fn(i64) -> i64) -> Result<i64, String> {
    let (clock, zone) = parted(text).ok_or(FORM)?;
    let local = seconds_of_day(clock[0], clock[1], clock[2]).ok_or("is no day")?;
    let [hour, minute, second] = [clock[3], clock[4], clock[5]];
    if hour > 23 || minute > 59 || second > 59 {
        return Err("is no time of day".to_string());
    }
    let local = local + (hour * 3600 + minute * 60 + second) as i64;
    if let Some(offset) = zone {
        return Ok(local - offset);
    }
    // Before and behind a change of the offset; elsewhere both are the same.
    let mut found: Vec<i64> = [-1, 1]
        .map(|side| local - offset_at(local + side * DAY as i64))
        .into_iter()
        .filter(|second| second + offset_at(*second) == local)
        .collect();
    found.dedup();
    match found[..] {
        [second] => Ok(second),
        [] => Err("is passed over by the local clock, which is set forward there".to_string()),
        _ => Err(
            "comes twice, since the local clock is set back there; say which by its offset, as +01:00"
                .to_string(),
        ),
    }
}

/// Year, month, day, hour, minute and second, and the offset if one is told.
fn parted(text: &str) -> Option<([u64; 6], Option<i64>)> {
    let (day, rest) = text.trim().split_once([' ', 'T'])?;
    let end = rest
        .find(|one: char| !one.is_ascii_digit() && one != ':')
        .unwrap_or(rest.len());
    let (time, zone) = (&rest[..end], rest[end..].trim_start());
    let [year, month, day] = numbers(day, '-', &[4, 2, 2])?[..] else {
        return None;
    };
    let time = numbers(time, ':', &[2, 2, 2]).or_else(|| numbers(time, ':', &[2, 2]))?;
    let second = time.get(2).copied().unwrap_or(0);
    let offset = match zone {
        "" => None,
        "Z" | "UTC" => Some(0),
        _ => Some(offset(zone)?),
    };
    Some(([year, month, day, time[0], time[1], second], offset))
}

/// An offset, as +01:00, -0330 or +01.
fn offset(text: &str) -> Option<i64> {
    let sign = match text.as_bytes().first()? {
        b'+' => 1,
        b'-' => -1,
        _ => return None,
    };
    let rest = &text[1..];
    let parts = match rest.len() {
        2 => vec![numbers(rest, ':', &[2])?[0], 0],
        4 if rest.is_ascii() => vec![
            numbers(&rest[..2], ':', &[2])?[0],
            numbers(&rest[2..], ':', &[2])?[0],
        ],
        _ => numbers(rest, ':', &[2, 2])?,
    };
    (parts[0] < 24 && parts[1] < 60).then_some(sign * (parts[0] * 3600 + parts[1] * 60) as i64)
}

/// Numbers of these counts of digits, with this sign between them.
fn numbers(text: &str, between: char, digits: &[usize]) -> Option<Vec<u64>> {
    let parts: Vec<&str> = text.split(between).collect();
    let fit = |(part, count): (&&str, &usize)| {
        part.len() == *count && part.bytes().all(|byte| byte.is_ascii_digit())
    };
    if parts.len() != digits.len() || !parts.iter().zip(digits).all(fit) {
        return None;
    }
    parts.iter().map(|part| part.parse().ok()).collect()
}

#[cfg(test)]
mod tests {
    use super::*;

    /// 24 December 2026, 18:00 UTC.
    const EVE: i64 = 1_798_135_200;
    /// The clock of a place is set from +1 to +2 hours at this second, 29 March
    /// 2026, 01:00 UTC, and back at the next, 25 October 2026, 01:00 UTC.
    const FORWARD: i64 = 1_774_746_000;
    const BACK: i64 = 1_792_890_000;

    fn place(second: i64) -> i64 {
        if (FORWARD..BACK).contains(&second) {
            7200
        } else {
            3600
        }
    }

    #[test]
    fn spans_are_sums_of_numbers_with_units() {
        for (text, seconds) in [
            ("1s", Some(1)),
            ("90m", Some(5400)),
            ("2h", Some(7200)),
            ("3d", Some(259_200)),
            ("4w", Some(2_419_200)),
            ("1d12h", Some(129_600)),
            ("0s", Some(0)),
            ("", None),
            ("5", None),
            ("h", None),
            ("2 h", None),
            ("-2h", None),
            ("2H", None),
            ("2hä", None),
            ("1.5h", None),
            ("18446744073709551615w", None),
            ("99999999999999999999s", None),
        ] {
            assert_eq!(span(text), seconds, "{text}");
        }
    }

    #[test]
    fn a_span_above_thirty_days_becomes_a_date() {
        assert_eq!(of_span("30d", 1000), Ok(2_592_000));
        assert_eq!(of_span("30d1s", 1000), Ok(2_593_001));
        assert_eq!(of_span("1s", LAST), Ok(1));
        assert_eq!(of_span("31d", LAST - 31 * DAY), Ok(LAST));
        assert!(of_span("31d", LAST - 31 * DAY + 1).is_err());
        assert!(of_span("0h", 1000).is_err());
    }

    #[test]
    fn dates_are_local_unless_they_say_where_they_hold() {
        for (text, second) in [
            ("2026-12-24 18:00", EVE - 3600),
            ("2026-12-24T18:00", EVE - 3600),
            (" 2026-12-24 18:00:30 ", EVE - 3570),
            ("2026-12-24 18:00Z", EVE),
            ("2026-12-24 18:00 UTC", EVE),
            ("2026-12-24T18:00:00Z", EVE),
            ("2026-12-24 18:00+01:00", EVE - 3600),
            ("2026-12-24 18:00 -03:30", EVE + 12_600),
            ("2026-12-24 18:00 +0545", EVE - 20_700),
            ("2026-12-24 18:00 +05", EVE - 18_000),
            ("2026-07-01 12:00", 1_782_900_000),
            ("2026-03-29 01:59:59", FORWARD - 1),
            ("2026-03-29 03:00", FORWARD),
            ("2026-10-25 01:59:59", BACK - 3601),
            ("2026-10-25 02:30 +02:00", BACK - 1800),
            ("2026-10-25 02:30 +01:00", BACK + 1800),
            ("2026-10-25 03:00", BACK + 3600),
        ] {
            assert_eq!(second_of(text, &place), Ok(second), "{text}");
        }
    }

    #[test]
    fn what_is_no_date_is_told() {
        for (text, wanted) in [
            ("2026-03-29 02:00", "is passed over"),
            ("2026-03-29 02:59:59", "is passed over"),
            ("2026-10-25 02:00", "comes twice"),
            ("2026-10-25 02:59:59", "comes twice"),
            ("2026-02-29 12:00", "is no day"),
            ("2026-13-01 12:00", "is no day"),
            ("2026-00-01 12:00", "is no day"),
            ("2026-04-31 12:00", "is no day"),
            ("2026-04-00 12:00", "is no day"),
            ("2026-04-01 24:00", "is no time of day"),
            ("2026-04-01 12:60", "is no time of day"),
            ("2026-04-01", "has to be like"),
            ("18:00", "has to be like"),
            ("2026-4-1 12:00", "has to be like"),
            ("2026-04-01 12", "has to be like"),
            ("2026-04-01 12:00 CET", "has to be like"),
            ("2026-04-01 12:00 +25:00", "has to be like"),
            ("2026-04-01 12:00 +1", "has to be like"),
            ("2026-04-01 12:00 +ää", "has to be like"),
            ("", "has to be like"),
        ] {
            let told = second_of(text, &place).unwrap_err();
            assert!(told.contains(wanted), "{text}: {told}");
        }
    }

    #[test]
    fn a_date_is_sent_as_it_is() {
        assert_eq!(of_date("2026-12-24 18:00Z", EVE as u64 - 1), Ok(EVE as u64));
        assert!(of_date("2026-12-24 18:00Z", EVE as u64).is_err());
        assert_eq!(of_date("1970-01-31 00:00:00Z", 5), Ok(2_592_000 - 5));
        assert_eq!(of_date("1970-01-31 00:00:01Z", 5), Ok(2_592_001));
        assert_eq!(of_date("2106-02-07 06:28:15Z", 5), Ok(LAST));
        assert!(of_date("2106-02-07 06:28:16Z", 5).is_err());
        assert!(of_date("1969-12-31 23:59:59Z", 5).is_err());
    }
}
