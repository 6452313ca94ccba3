//! The nine statistics of a stats reply: a number, then a name and a decimal
//! value for each, in the order of document 000's list.

use crate::fields::{write_limited, Cursor, Stop};
use crate::number::{write_number, LARGEST_VLONG};

/// The names, in their order.
pub const NAMES: [&str; 9] = [
    "timeSinceStart",
    "currentNumberOfEntries",
    "totalNumberOfEntries",
    "stores",
    "retrievals",
    "hits",
    "misses",
    "removeHits",
    "removeMisses",
];

/// A number for each name, in the same order.
pub type Statistics = [u64; NAMES.len()];

/// The most bytes of a name that is read.
pub const NAME_LIMIT: usize = 22;
/// The most bytes of a value that is read.
pub const VALUE_LIMIT: usize = 19;

/// The number whose shortest decimal form the bytes are. Nothing if they are
/// not the shortest decimal form of a vLong.
pub fn decimal(bytes: &[u8]) -> Option<u64> {
    let only_digits = bytes.iter().all(u8::is_ascii_digit);
    let shortest = bytes == b"0" || bytes.first().is_some_and(|digit| *digit != b'0');
    if !only_digits || !shortest {
        return None;
    }
    let number: u64 = std::str::from_utf8(bytes).ok()?.parse().ok()?;
    (number <= LARGEST_VLONG).then_some(number)
}

/// Reads the body of a stats reply.
pub fn read(cursor: &mut Cursor) -> Result<Statistics, Stop> {
    if cursor.vint()? as usize != NAMES.len() {
        return Err(Stop::Refused(8));
    }
    let mut statistics = Statistics::default();
    for (name, number) in NAMES.iter().zip(&mut statistics) {
        if cursor.limited(NAME_LIMIT)? != name.as_bytes() {
            return Err(Stop::Refused(8));
        }
        let value = cursor.limited(VALUE_LIMIT)?;
        *number = decimal(&value).ok_or(Stop::Refused(8))?;
    }
    Ok(statistics)
}

/// Whether each number has a written form.
pub fn keep_rules(statistics: &Statistics) -> bool {
    statistics.iter().all(|number| *number <= LARGEST_VLONG)
}

/// Puts the body of a stats reply behind the bytes in `out`.
pub fn write(statistics: &Statistics, out: &mut Vec<u8>) {
    write_number(NAMES.len() as u64, out);
    for (name, number) in NAMES.iter().zip(statistics) {
        write_limited(name.as_bytes(), out);
        write_limited(number.to_string().as_bytes(), out);
    }
}
