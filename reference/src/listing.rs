//! The entries of a bulk reply: a byte 1 before each and a byte 0 at the end.

use crate::fields::{write_limited, Cursor, Stop, KEY_LIMIT, VALUE_LIMIT};

/// The most entries of a reply.
pub const MOST_LISTED: usize = 128;

/// The byte before an entry.
const MORE: u8 = 1;
/// The byte behind the last entry.
const END: u8 = 0;

/// An entry of a bulk reply. Where keys alone are sent, its value is empty.
#[derive(Clone, Debug, Default, PartialEq, Eq)]
pub struct Listed {
    pub key: Vec<u8>,
    pub value: Vec<u8>,
}

/// Whether an entry follows. Any other byte than 0 and 1 is 8.
fn more(cursor: &mut Cursor) -> Result<bool, Stop> {
    let byte = cursor.byte(|byte| byte == MORE || byte == END, 8)?;
    Ok(byte == MORE)
}

/// Reads one entry with the byte before it, or the byte at the end; `values`
/// says whether values are sent.
pub fn read_one(cursor: &mut Cursor, values: bool) -> Result<Option<Listed>, Stop> {
    if !more(cursor)? {
        return Ok(None);
    }
    let mut entry = Listed {
        key: cursor.limited(KEY_LIMIT)?,
        value: Vec::new(),
    };
    if values {
        entry.value = cursor.limited(VALUE_LIMIT)?;
    }
    Ok(Some(entry))
}

/// Reads the body of a bulk reply. The byte 1 of a 129th entry is 6.
pub fn read(cursor: &mut Cursor, values: bool) -> Result<Vec<Listed>, Stop> {
    let mut entries = Vec::new();
    while entries.len() < MOST_LISTED {
        match read_one(cursor, values)? {
            Some(entry) => entries.push(entry),
            None => return Ok(entries),
        }
    }
    if more(cursor)? {
        return Err(Stop::Refused(6));
    }
    Ok(entries)
}

/// Whether the entries have a written form.
pub fn keep_rules(entries: &[Listed], values: bool) -> bool {
    let value_limit = if values { VALUE_LIMIT } else { 0 };
    let good = |entry: &Listed| entry.key.len() <= KEY_LIMIT && entry.value.len() <= value_limit;
    entries.len() <= MOST_LISTED && entries.iter().all(good)
}

/// Puts the body of a bulk reply behind the bytes in `out`.
pub fn write(entries: &[Listed], values: bool, out: &mut Vec<u8>) {
    for entry in entries {
        out.push(MORE);
        write_limited(&entry.key, out);
        if values {
            write_limited(&entry.value, out);
        }
    }
    out.push(END);
}
