use crate::help::*;
use reference::stored::LONGEST;
use reference::{load, store, Table};

const LARGEST: u64 = 9_223_372_036_854_775_807;

fn refused(text: &str) {
    assert_eq!(load(text.as_bytes()), None, "{text:?}");
}

fn entry_line(version: u64, deadline: u64, rest: &str) -> String {
    format!("{version:016x}{deadline:016x}{rest}\n")
}

#[test]
fn the_stored_table_of_the_five_lines() {
    let mut table = Table {
        last: 1,
        ..Table::default()
    };
    table.entries.insert(b"b1".to_vec(), entry(b"Ida", 1, 104));
    assert_eq!(store(&table), FIVE_STORED.as_bytes());
    assert_eq!(load(FIVE_STORED.as_bytes()), Some(table));
}

#[test]
fn fresh_and_full_tables_read_back() {
    assert_eq!(store(&Table::default()), b"010000000000000000\n");
    for table in [
        Table::default(),
        table_of(1),
        table_of(128),
        table_with(b"", 1, LARGEST),
    ] {
        assert_eq!(load(&store(&table)), Some(table));
    }
    let mut table = Table {
        last: 128,
        ..Table::default()
    };
    for number in 1..=128u8 {
        let deadline = u64::from(number) + 8_589_934_462;
        table.entries.insert(
            vec![number; 64],
            entry(&[number; 256], u64::from(129 - number), deadline),
        );
    }
    let file = store(&table);
    assert_eq!(file.len(), LONGEST);
    assert_eq!(load(&file), Some(table));
}

#[test]
fn entries_ascend_by_version_and_not_by_key() {
    let mut table = Table {
        last: 9,
        ..Table::default()
    };
    table.entries.insert(b"a".to_vec(), entry(b"", 9, 0));
    table.entries.insert(b"b".to_vec(), entry(b"", 2, 7));
    let first = "010000000000000009\n";
    let good = format!(
        "{first}{}{}",
        entry_line(2, 7, "016200"),
        entry_line(9, 0, "016100")
    );
    assert_eq!(store(&table), good.as_bytes());
    assert_eq!(load(good.as_bytes()), Some(table));
    refused(&format!(
        "{first}{}{}",
        entry_line(9, 0, "016100"),
        entry_line(2, 7, "016200")
    ));
    refused(&format!(
        "{first}{}{}",
        entry_line(2, 0, "016100"),
        entry_line(2, 7, "016200")
    ));
    refused(&format!(
        "{first}{}{}",
        entry_line(2, 0, "016100"),
        entry_line(9, 7, "016100")
    ));
}

#[test]
fn broken_first_lines() {
    refused("");
    refused("\n");
    refused("010000000000000000");
    refused("01000000000000000\n");
    refused("01000000000000000000\n");
    refused("020000000000000000\n");
    refused("000000000000000000\n");
    refused("018000000000000000\n");
    refused("01ffffffffffffffff\n");
    refused("01000000000000000A\n");
    refused(" 010000000000000000\n");
    refused("010000000000000000 \n");
    refused("010000000000000000\r\n");
    refused("010000000000000000\n\n");
    refused("\n010000000000000000\n");
    refused("01 0000000000000000\n");
    assert!(load(b"017fffffffffffffff\n").is_some());
    assert!(load(b"01000000000000000a\n").is_some());
}

#[test]
fn broken_entry_lines() {
    let file = |line: &str| format!("010000000000000005\n{line}");
    let good = |line: String| assert!(load(file(&line).as_bytes()).is_some(), "{line}");
    let bad = |line: String| refused(&file(&line));
    good(entry_line(1, 0, "0000"));
    good(entry_line(5, 8_589_934_590, "0000"));
    bad(entry_line(0, 0, "0000"));
    bad(entry_line(6, 0, "0000"));
    bad(entry_line(1, 8_589_934_591, "0000"));
    bad(entry_line(1, 0, "00"));
    bad(entry_line(1, 0, ""));
    bad(entry_line(1, 0, "000000"));
    bad(entry_line(1, 0, "000"));
    bad(entry_line(1, 0, "800000"));
    bad(entry_line(1, 0, "008000"));
    bad(entry_line(1, 0, "01ff0"));
    bad(entry_line(1, 0, "01FF00"));
    bad(entry_line(1, 0, "026231 03496461"));
    bad(entry_line(1, 0, "0000").replace('\n', ""));
    bad(entry_line(1, 0, "0000").replace('\n', "\r\n"));
    bad(entry_line(1, 0, "0000") + "\n");
    bad("\n".to_string() + &entry_line(1, 0, "0000"));
    good(entry_line(1, 0, &format!("40{}00", "61".repeat(64))));
    bad(entry_line(1, 0, &format!("41{}00", "61".repeat(65))));
    good(entry_line(1, 0, &format!("008002{}", "61".repeat(256))));
    bad(entry_line(1, 0, &format!("008102{}", "61".repeat(257))));
}

#[test]
fn more_than_128_entries_are_refused() {
    assert!(load(&store(&table_of(128))).is_some());
    assert!(load(&store(&table_of(129))).is_none());
}

#[test]
fn every_cut_of_a_stored_table_is_another_table_or_refused() {
    let file = store(&table_of(3));
    for end in 0..file.len() {
        match load(&file[..end]) {
            None => {}
            Some(table) => assert_eq!(store(&table), file[..end]),
        }
    }
}
