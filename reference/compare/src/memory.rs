//! The table in 45,408 bytes: a head of twelve numbers, then 128 places, each a
//! byte that names a row, then the order, a byte each too, then 128 rows. The
//! first places name the rows held, which ascend by version; the first bytes of
//! the order name the same rows, which ascend by key there. Numbers are eight
//! bytes, highest first.
//!
//! The last number of the head is a lower bound of the deadlines that are not
//! 0 of the rows held. Which one a server writes is its choice.

use std::fmt::Write;

use reference::fields::{KEY_LIMIT, VALUE_LIMIT};
use reference::hex::to_string;
use reference::history::COUNTS;
use reference::map::MOST_KEYS;
use reference::{Entry, History, Table};

pub const PLACES: usize = 8 * 12;
pub const ORDER: usize = PLACES + MOST_KEYS;
pub const ROWS: usize = ORDER + MOST_KEYS;
pub const ROW: usize = 352;
pub const SIZE: usize = ROWS + ROW * MOST_KEYS;

/// Places in the head.
pub const COUNT: usize = 0;
pub const LAST: usize = 8;
/// The first second plus 1, and 0 where no call was served.
pub const FIRST: usize = 16;
/// The seven counts.
pub const COUNTED: usize = 24;
/// The latest second served.
pub const LATEST: usize = 80;
/// No deadline but 0 is below it.
pub const BOUND: usize = 88;

/// Places in a row.
pub const VERSION: usize = 0;
pub const DEADLINE: usize = 8;
pub const KEY_LENGTH: usize = 16;
pub const VALUE_LENGTH: usize = 24;
pub const KEY: usize = 32;
pub const VALUE: usize = 96;

/// One row, as it is read.
#[derive(Clone, Copy, PartialEq, Eq)]
pub struct Row<'a> {
    pub version: u64,
    pub deadline: u64,
    pub key: &'a [u8],
    pub value: &'a [u8],
}

impl Row<'_> {
    /// Whether it stands at this second.
    pub fn stands(&self, now: u64) -> bool {
        self.deadline == 0 || now < self.deadline
    }
}

pub fn number(memory: &[u8], at: usize) -> u64 {
    let mut eight = [0; 8];
    eight.copy_from_slice(&memory[at..at + 8]);
    u64::from_be_bytes(eight)
}

pub fn put_number(memory: &mut [u8], at: usize, number: u64) {
    memory[at..at + 8].copy_from_slice(&number.to_be_bytes());
}

/// What the head remembers of calls.
pub fn history(memory: &[u8]) -> History {
    let mut counts = [0; COUNTS];
    for (at, count) in counts.iter_mut().enumerate() {
        *count = number(memory, COUNTED + 8 * at);
    }
    History {
        first: number(memory, FIRST).checked_sub(1),
        counts,
        latest: number(memory, LATEST),
    }
}

pub fn put_history(memory: &mut [u8], history: &History) {
    let first = history.first.map_or(0, |second| second + 1);
    put_number(memory, FIRST, first);
    put_number(memory, LATEST, history.latest);
    for (at, count) in history.counts.iter().enumerate() {
        put_number(memory, COUNTED + 8 * at, *count);
    }
}

/// Where the row begins that a place names.
pub fn row_at(memory: &[u8], place: usize) -> usize {
    ROWS + ROW * (memory[PLACES + place] as usize % MOST_KEYS)
}

/// Whether the places name each row once.
fn is_permutation(memory: &[u8]) -> bool {
    let mut places = memory[PLACES..ORDER].to_vec();
    places.sort_unstable();
    places
        .iter()
        .enumerate()
        .all(|(at, row)| *row as usize == at)
}

/// The part of at most `limit` bytes, or nothing if its length is above.
fn part(memory: &[u8], start: usize, length: u64, limit: usize) -> Option<&[u8]> {
    if length > limit as u64 {
        return None;
    }
    Some(&memory[start..start + length as usize])
}

fn row(memory: &[u8], place: usize) -> Option<Row<'_>> {
    let at = row_at(memory, place);
    let key_length = number(memory, at + KEY_LENGTH);
    let value_length = number(memory, at + VALUE_LENGTH);
    Some(Row {
        version: number(memory, at + VERSION),
        deadline: number(memory, at + DEADLINE),
        key: part(memory, at + KEY, key_length, KEY_LIMIT)?,
        value: part(memory, at + VALUE, value_length, VALUE_LIMIT)?,
    })
}

/// The rows held, or nothing if the memory's length, the count or a length is
/// not within its limit, or the places are no permutation.
pub fn rows(memory: &[u8]) -> Option<Vec<Row<'_>>> {
    if memory.len() != SIZE || number(memory, COUNT) > MOST_KEYS as u64 {
        return None;
    }
    if !is_permutation(memory) {
        return None;
    }
    let count = number(memory, COUNT) as usize;
    (0..count).map(|at| row(memory, at)).collect()
}

/// The least deadline that is not 0.
fn least(deadlines: impl Iterator<Item = u64>) -> Option<u64> {
    deadlines.filter(|deadline| *deadline > 0).min()
}

/// The greatest bound that the rows held allow; nothing if they allow any.
pub fn greatest_bound(rows: &[Row]) -> Option<u64> {
    least(rows.iter().map(|row| row.deadline))
}

/// Whether the bound is above none of the deadlines.
fn is_bound(memory: &[u8], rows: &[Row]) -> bool {
    greatest_bound(rows).is_none_or(|greatest| number(memory, BOUND) <= greatest)
}

/// The present second of a call at this second, by the latest one served.
pub fn present(memory: &[u8], second: u32) -> u64 {
    number(memory, LATEST).max(u64::from(second))
}

/// The rows that stand for a call at this second; none if `rows` finds none.
pub fn standing(memory: &[u8], second: u32) -> Vec<Row<'_>> {
    let now = present(memory, second);
    let rows = rows(memory).unwrap_or_default().into_iter();
    rows.filter(|row| row.stands(now)).collect()
}

/// The order made afresh: the numbers of the rows held, by their keys. Slices of
/// bytes are compared byte by byte, and a shorter one is before a longer one that
/// it begins.
fn made_order(memory: &[u8], rows: &[Row]) -> Vec<u8> {
    let mut places: Vec<usize> = (0..rows.len()).collect();
    places.sort_by_key(|place| rows[*place].key);
    let row = |place: usize| memory[PLACES + place];
    places.into_iter().map(row).collect()
}

/// Whether the order kept is the order made afresh. The bytes behind the rows
/// held mean nothing.
fn is_in_order(memory: &[u8], rows: &[Row]) -> bool {
    memory[ORDER..ORDER + rows.len()] == made_order(memory, rows)
}

/// Writes the order made afresh.
pub fn set_order(memory: &mut [u8]) {
    let order = made_order(memory, &rows(memory).unwrap_or_default());
    memory[ORDER..ORDER + order.len()].copy_from_slice(&order);
}

fn ascend(rows: &[Row]) -> bool {
    rows.windows(2)
        .all(|pair| pair[0].version < pair[1].version)
}

/// The state that the memory stands for, or nothing if it has not the form:
/// `rows` finds none, the rows do not ascend, the bound is above one of their
/// deadlines, the order is not the one made afresh, or a key is there twice.
pub fn decode(memory: &[u8]) -> Option<Table> {
    let rows = rows(memory)?;
    if !ascend(&rows) || !is_bound(memory, &rows) || !is_in_order(memory, &rows) {
        return None;
    }
    let mut table = Table {
        last: number(memory, LAST),
        history: history(memory),
        ..Table::default()
    };
    for row in rows {
        let entry = Entry {
            value: row.value.to_vec(),
            version: row.version,
            deadline: row.deadline,
        };
        if table.entries.insert(row.key.to_vec(), entry).is_some() {
            return None;
        }
    }
    Some(table)
}

/// Whether the memory is a sound table.
pub fn is_table(memory: &[u8]) -> bool {
    decode(memory).is_some_and(|table| reference::is_table(&table))
}

/// Has the places name each row once. Places that do are kept; else the bytes
/// that stand there say the order of the rows, so that random bytes give a
/// random order.
fn set_places(memory: &mut [u8]) {
    if is_permutation(memory) {
        return;
    }
    let mut order: Vec<u8> = (0..MOST_KEYS as u8).collect();
    order.sort_by_key(|row| memory[PLACES + *row as usize]);
    memory[PLACES..ORDER].copy_from_slice(&order);
}

/// Has the bound above none of the deadlines. One that is not is kept; else
/// the number that stands there says which one it is: the greatest, the one
/// below, or any.
fn set_bound(memory: &mut [u8], table: &Table) {
    let bound = number(memory, BOUND);
    let Some(greatest) = least(table.entries.values().map(|entry| entry.deadline)) else {
        return;
    };
    let lower = match bound % 4 {
        _ if bound <= greatest => bound,
        0 | 1 => greatest,
        2 => greatest - 1,
        _ => bound % (greatest + 1),
    };
    put_number(memory, BOUND, lower);
}

/// Writes the table to the memory. In the rows that are free, and behind each
/// key and value, the bytes are kept.
pub fn encode(table: &Table, memory: &mut [u8]) {
    set_places(memory);
    set_bound(memory, table);
    let mut entries: Vec<(&Vec<u8>, &Entry)> = table.entries.iter().collect();
    entries.sort_by_key(|(_, entry)| entry.version);
    put_number(memory, COUNT, entries.len() as u64);
    put_number(memory, LAST, table.last);
    put_history(memory, &table.history);
    for (place, (key, entry)) in entries.into_iter().enumerate() {
        put_row(memory, place, key, entry);
    }
    set_order(memory);
}

fn put_row(memory: &mut [u8], place: usize, key: &[u8], entry: &Entry) {
    let at = row_at(memory, place);
    put_number(memory, at + VERSION, entry.version);
    put_number(memory, at + DEADLINE, entry.deadline);
    put_number(memory, at + KEY_LENGTH, key.len() as u64);
    put_number(memory, at + VALUE_LENGTH, entry.value.len() as u64);
    memory[at + KEY..at + KEY + key.len()].copy_from_slice(key);
    memory[at + VALUE..at + VALUE + entry.value.len()].copy_from_slice(&entry.value);
}

fn is_entry(row: &Row, table: &Table) -> bool {
    let Some(entry) = table.entries.get(row.key) else {
        return false;
    };
    entry.version == row.version && entry.deadline == row.deadline && entry.value == row.value
}

/// Whether the memory stands for just this table, with a bound that may be
/// there and the order made afresh. Rows that ascend are different entries, so it is enough that each is
/// one and their number fits.
pub fn holds(memory: &[u8], table: &Table) -> bool {
    let Some(rows) = rows(memory) else {
        return false;
    };
    ascend(&rows)
        && is_bound(memory, &rows)
        && is_in_order(memory, &rows)
        && rows.len() == table.entries.len()
        && number(memory, LAST) == table.last
        && history(memory) == table.history
        && rows.iter().all(|row| is_entry(row, table))
}

/// The memory in digits: the head, the places and the order, then a line a row held.
pub fn shown(memory: &[u8]) -> String {
    if memory.len() != SIZE {
        return format!("{} bytes: {}", memory.len(), to_string(memory));
    }
    let mut text = to_string(&memory[..ROWS]);
    let count = number(memory, COUNT).min(MOST_KEYS as u64) as usize;
    for place in 0..count {
        let at = row_at(memory, place);
        let row = &memory[at..at + ROW];
        let _ = write!(text, "\n    place {place}: {}", to_string(row));
    }
    text
}

#[cfg(test)]
mod tests {
    use super::*;
    use crate::chance::Chance;
    use crate::make;

    #[test]
    fn what_is_encoded_is_decoded_and_held() {
        let mut chance = Chance::new(5);
        for _ in 0..200 {
            let keys = make::keys(&mut chance);
            let table = make::table(&mut chance, &keys);
            let mut memory = chance.bytes(SIZE);
            encode(&table, &mut memory);
            assert_eq!(decode(&memory), Some(table.clone()));
            assert!(is_table(&memory) && holds(&memory, &table));
        }
    }

    #[test]
    fn another_history_is_not_held() {
        let mut chance = Chance::new(7);
        let table = make::table_of(&mut chance, &[]);
        let mut memory = vec![0; SIZE];
        encode(&table, &mut memory);
        for at in 0..COUNTS {
            let mut other = table.clone();
            other.history.counts[at] ^= 1;
            assert!(!holds(&memory, &other));
        }
        let mut other = table.clone();
        other.history.first = table.history.first.map_or(Some(0), |_| None);
        assert!(!holds(&memory, &other));
        let mut other = table.clone();
        other.history.latest ^= 1;
        assert!(!holds(&memory, &other));
    }

    #[test]
    fn the_size_is_that_of_the_layout() {
        assert_eq!((PLACES, ORDER, ROWS, SIZE), (96, 224, 352, 45_408));
        assert_eq!((LATEST, BOUND), (COUNTED + 8 * COUNTS, PLACES - 8));
    }

    #[test]
    fn a_bound_above_a_deadline_is_no_table() {
        let mut chance = Chance::new(8);
        let keys: Vec<Vec<u8>> = (0..3).map(|at| vec![at]).collect();
        let mut table = make::table_of(&mut chance, &keys);
        for (entry, deadline) in table.entries.values_mut().zip([0, 700, 600]) {
            entry.deadline = deadline;
        }
        let mut memory = chance.bytes(SIZE);
        encode(&table, &mut memory);
        for (bound, sound) in [(0, true), (600, true), (601, false), (u64::MAX, false)] {
            put_number(&mut memory, BOUND, bound);
            assert_eq!(is_table(&memory), sound, "{bound}");
            assert_eq!(holds(&memory, &table), sound, "{bound}");
        }
        table
            .entries
            .values_mut()
            .for_each(|entry| entry.deadline = 0);
        encode(&table, &mut memory);
        assert_eq!(number(&memory, BOUND), u64::MAX);
        assert!(is_table(&memory) && holds(&memory, &table));
    }

    #[test]
    fn another_state_is_not_held() {
        let mut chance = Chance::new(6);
        let keys: Vec<Vec<u8>> = (0..9).map(|at| vec![at; 3]).collect();
        let table = make::table_of(&mut chance, &keys);
        let mut memory = vec![0; SIZE];
        encode(&table, &mut memory);
        for (key, entry) in &table.entries {
            let mut other = table.clone();
            other.entries.remove(key);
            assert!(!holds(&memory, &other));
            let mut entry = entry.clone();
            entry.deadline += 1;
            other.entries.insert(key.clone(), entry);
            assert!(!holds(&memory, &other));
        }
    }
}
