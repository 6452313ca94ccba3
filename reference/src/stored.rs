//! Stored form 1 of a table: a line with 01 and the last version issued, then
//! a line for each entry that stands, ascending by version.

use std::collections::BTreeMap;

use crate::fields::{write_eight, write_limited, Cursor, Stop, KEY_LIMIT, VALUE_LIMIT};
use crate::hex::{from_digits, to_digits};
use crate::history::History;
use crate::lines::{lines_of, LINE_END};
use crate::map::{is_table, Entry, Table, MOST_KEYS};

/// The first byte of the first line.
const FORM: u8 = 1;

/// The most bytes of an entry before they are made digits: version, deadline,
/// a key length of one byte, the key, a value length of two bytes, the value.
const ENTRY_BYTES: usize = 8 + 8 + 1 + KEY_LIMIT + 2 + VALUE_LIMIT;

/// The most bytes that a stored table has.
pub const LONGEST: usize = (2 * 9 + 1) + MOST_KEYS * (2 * ENTRY_BYTES + 1);

fn put_line(bytes: &[u8], file: &mut Vec<u8>) {
    file.extend(to_digits(bytes));
    file.push(LINE_END);
}

/// The stored form of the table: the entries that stand at the latest second
/// served, and the last version issued.
pub fn store(table: &Table) -> Vec<u8> {
    let mut file = Vec::new();
    let mut first = vec![FORM];
    write_eight(table.last, &mut first);
    put_line(&first, &mut file);
    for (key, entry) in table.by_version() {
        if !entry.stands(table.history.latest) {
            continue;
        }
        let mut line = Vec::new();
        write_eight(entry.version, &mut line);
        write_eight(entry.deadline, &mut line);
        write_limited(key, &mut line);
        write_limited(&entry.value, &mut line);
        put_line(&line, &mut file);
    }
    file
}

/// The last version issued, from the first line.
fn load_first(line: &[u8]) -> Option<u64> {
    let bytes = from_digits(line)?;
    let mut cursor = Cursor::new(&bytes);
    cursor.byte(|form| form == FORM, 17).ok()?;
    let last = cursor.eight().ok()?;
    if !cursor.rest().is_empty() {
        return None;
    }
    Some(last)
}

fn read_entry(cursor: &mut Cursor) -> Result<(Vec<u8>, Entry), Stop> {
    let version = cursor.eight()?;
    let deadline = cursor.eight()?;
    let key = cursor.limited(KEY_LIMIT)?;
    let value = cursor.limited(VALUE_LIMIT)?;
    let entry = Entry {
        value,
        version,
        deadline,
    };
    Ok((key, entry))
}

/// The key and the entry of a line.
fn load_entry(line: &[u8]) -> Option<(Vec<u8>, Entry)> {
    let bytes = from_digits(line)?;
    let mut cursor = Cursor::new(&bytes);
    let pair = read_entry(&mut cursor).ok()?;
    if !cursor.rest().is_empty() {
        return None;
    }
    Some(pair)
}

/// The table whose stored form the file is; its counts begin anew, and it
/// starts from second 0. Nothing means refusal 17: the file is not what storing
/// a sound table gives.
pub fn load(file: &[u8]) -> Option<Table> {
    if file.last() != Some(&LINE_END) {
        return None;
    }
    let lines = lines_of(file);
    let (first, rest) = lines.split_first()?;
    let mut table = Table {
        entries: BTreeMap::new(),
        last: load_first(first)?,
        history: History::default(),
    };
    let mut version_before = 0;
    for line in rest {
        let (key, entry) = load_entry(line)?;
        if entry.version <= version_before {
            return None;
        }
        version_before = entry.version;
        if table.entries.insert(key, entry).is_some() {
            return None;
        }
    }
    if !is_table(&table) {
        return None;
    }
    Some(table)
}
