//! The order of the keys, and the listing.

use crate::help::*;
use reference::operation::*;
use reference::order::*;
use reference::*;

/// A table of these keys, of versions in the order given.
fn table_of_keys(keys: &[&[u8]]) -> Table {
    let mut table = Table::default();
    for key in keys {
        table.last += 1;
        table
            .entries
            .insert(key.to_vec(), entry(b"v", table.last, 0));
    }
    table
}

/// The keys of a listing in room for all.
fn listing(table: &Table, from: &[u8], most: u64) -> String {
    let mut out = [0xee; 9000];
    let length = list_keys(table, b"", from, most, &mut out).unwrap();
    assert!(out[length..].iter().all(|byte| *byte == 0xee));
    digits(&out[..length])
}

#[test]
fn keys_stand_by_their_bytes() {
    let ordered: [&[u8]; 10] = [
        b"",
        &[0],
        &[0, 0],
        &[0x7f],
        &[0x7f, 0xff],
        &[0x80],
        b"\xc3\xa9",
        &[0xff; 8],
        &[0xff; 9],
        &[0xff; 64],
    ];
    for (one, mine) in ordered.iter().enumerate() {
        for (other, theirs) in ordered.iter().enumerate() {
            assert_eq!(is_before(mine, theirs), one < other);
        }
    }
    let mut mixed = ordered;
    mixed.reverse();
    mixed.swap(2, 7);
    assert_eq!(keys_in_order(&table_of_keys(&mixed)), ordered);
}

#[test]
fn listings_worked_out_by_hand() {
    let table = table_of_keys(&[b"b2", b"a", b"b", b"", b"b1"]);
    assert_eq!(
        listing(&table, b"", 128),
        "0100010161010162010262310102623200"
    );
    assert_eq!(listing(&table, b"", 0), "00");
    assert_eq!(listing(&table, b"", 1), "010000");
    assert_eq!(listing(&table, b"b", 2), "0101620102623100");
    assert_eq!(listing(&table, b"b0", 1), "0102623100");
    assert_eq!(listing(&table, b"b1", u64::MAX), "010262310102623200");
    assert_eq!(listing(&table, b"b2\0", 5), "00");
    assert_eq!(listing(&table, &[0xff; 100], 5), "00");
    assert_eq!(listing(&table, &[b'b'; 65], 5), "00");
    assert_eq!(listing(&table, &[b'a'; 65], 1), "01016200");
    assert_eq!(listing(&Table::default(), b"", 128), "00");
}

#[test]
fn expired_keys_are_left_out() {
    let mut table = table_of_keys(&[b"a", b"b", b"c"]);
    for (key, deadline) in [(b"a", 10), (b"b", 11), (b"c", 9)] {
        table.entries.get_mut(&key[..]).unwrap().deadline = deadline;
    }
    table.history.latest = 10;
    assert_eq!(listing(&table, b"", 5), "01016200");
    assert_eq!(keys_in_order(&table).len(), 3);
    let mut past = Table::default();
    let date = Request {
        lifespan: 2_592_001,
        ..request(PUT, b"k", b"v")
    };
    step(&date, 2_592_001, &mut past).unwrap();
    assert_eq!(keys_in_order(&past), [b"k"]);
    assert_eq!(listing(&past, b"", 5), "00");
}

#[test]
fn refusals_are_13_then_9_then_12() {
    let good = table_of_keys(&[b"a", b"bc"]);
    let mut wrong = good.clone();
    wrong.last = 1;
    let mut none = [0; 0];
    assert_eq!(list_keys(&wrong, b"x", b"", 1, &mut none), Err(13));
    assert_eq!(list_keys(&good, b"x", b"", 1, &mut none), Err(9));
    assert_eq!(list_keys(&good, b"", b"", 1, &mut none), Err(12));
    let mut out = [0xee; 8];
    assert_eq!(list_keys(&good, b"", b"", 2, &mut out[..7]), Err(12));
    assert_eq!(out, [0xee; 8]);
    assert_eq!(list_keys(&good, b"", b"", 2, &mut out), Ok(8));
    assert_eq!(list_keys(&good, b"", b"", 0, &mut out[..1]), Ok(1));
}

#[test]
fn a_listing_of_all_keys_is_the_sorted_bulk_reply() {
    let table = table_of(128);
    let mut room = vec![0; 41_600];
    let bulk = bytes_of(&bare(BULK_GET_KEYS));
    let answer = serve(&bulk, &mut table.clone(), 0, &mut room);
    // The keys of this table ascend with their versions.
    assert_eq!(
        listing(&table, b"", 128),
        digits(&room[5..answer.reply_len])
    );
}
