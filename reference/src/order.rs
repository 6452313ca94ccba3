//! The order of the keys, and the listing that goes by it.

use crate::fields::{copy_out, KEY_LIMIT};
use crate::listing::{self, Listed};
use crate::map::{is_table, Table, MOST_KEYS};

/// The most bytes of a listing: before each key a byte 1 and its length, and a
/// byte 0 at the end.
pub const LONGEST_LISTING: usize = MOST_KEYS * (2 + KEY_LIMIT) + 1;

/// Whether a key stands before another: by the first byte in which they differ,
/// and a shorter key before a longer one that it begins.
pub fn is_before(one: &[u8], other: &[u8]) -> bool {
    for (mine, theirs) in one.iter().zip(other) {
        if mine != theirs {
            return mine < theirs;
        }
    }
    one.len() < other.len()
}

/// The keys of all entries in their order, made afresh: each is put in front of
/// the first one that it stands before.
pub fn keys_in_order(table: &Table) -> Vec<&[u8]> {
    let mut keys: Vec<&[u8]> = Vec::new();
    for (key, _) in table.by_version() {
        let place = keys.iter().position(|other| is_before(key, other));
        keys.insert(place.unwrap_or(keys.len()), key);
    }
    keys
}

/// The keys that stand at the latest second served and are not before the given
/// one: the first of them, at most so many.
fn listed(table: &Table, from: &[u8], most: u64) -> Vec<Listed> {
    let stands = |key: &[u8]| {
        let entry = table.entries.get(key);
        entry.is_some_and(|entry| entry.stands(table.history.latest))
    };
    let mut entries = Vec::new();
    for key in keys_in_order(table) {
        if stands(key) && !is_before(key, from) && (entries.len() as u64) < most {
            entries.push(Listed {
                key: key.to_vec(),
                value: Vec::new(),
            });
        }
    }
    entries
}

/// Writes the listing of a cache's keys to the front of the buffer, as the body
/// of a bulkGetKeys reply, and gives its length: 13, 9, then 12 for less room
/// than it needs. It is no call: it has no second and changes nothing.
pub fn list_keys(
    table: &Table,
    name: &[u8],
    from: &[u8],
    most: u64,
    out: &mut [u8],
) -> Result<usize, u8> {
    if !is_table(table) {
        return Err(13);
    }
    if !name.is_empty() {
        return Err(9);
    }
    let mut body = Vec::new();
    listing::write(&listed(table, from, most), false, &mut body);
    copy_out(&body, out)
}
