use crate::help::*;
use reference::operation::*;
use reference::{is_table, step, Request, Table};

const LARGEST: u64 = 9_223_372_036_854_775_807;

#[test]
fn put_get_and_versions() {
    let mut table = Table::default();
    assert_eq!(
        status_and_value(&flagged(PUT, b"k", b"one"), &mut table),
        (0, vec![])
    );
    assert_eq!(
        status_and_value(&flagged(PUT, b"k", b"two"), &mut table),
        (0, b"one".to_vec())
    );
    assert_eq!(
        status_and_value(&request(PUT, b"k", b"six"), &mut table),
        (0, vec![])
    );
    assert_eq!(contents(&table), table_with(b"six", 3, 3));
    assert_eq!(
        status_and_value(&request(GET, b"k", b""), &mut table),
        (0, b"six".to_vec())
    );
    assert_eq!(
        status_and_value(&flagged(GET, b"x", b""), &mut table),
        (2, vec![])
    );
    let reply = step(&request(GET_WITH_VERSION, b"k", b""), 0, &mut table).unwrap();
    assert_eq!((reply.status, reply.version), (0, 3));
    assert_eq!(
        status_and_value(&flagged(CONTAINS_KEY, b"k", b""), &mut table),
        (0, vec![])
    );
    assert_eq!(
        status_and_value(&flagged(CONTAINS_KEY, b"x", b""), &mut table),
        (2, vec![])
    );
    assert_eq!(
        status_and_value(&flagged(PING, b"", b""), &mut table),
        (0, vec![])
    );
    assert_eq!(contents(&table), table_with(b"six", 3, 3));
}

#[test]
fn conditional_writes() {
    let mut table = table_with(b"old", 4, 9);
    let before = table.clone();
    assert_eq!(
        status_and_value(&flagged(PUT_IF_ABSENT, b"k", b"n"), &mut table),
        (1, b"old".to_vec())
    );
    assert_eq!(
        status_and_value(&flagged(REPLACE, b"x", b"n"), &mut table),
        (1, vec![])
    );
    for version in [0, 3, 5, 9, u64::MAX] {
        let write = versioned(REPLACE_IF_UNMODIFIED, b"k", b"n", version);
        assert_eq!(status_and_value(&write, &mut table), (1, vec![]));
        let removal = versioned(REMOVE_IF_UNMODIFIED, b"k", b"", version);
        assert_eq!(status_and_value(&removal, &mut table), (1, vec![]));
    }
    let write = versioned(REPLACE_IF_UNMODIFIED, b"x", b"n", 4);
    assert_eq!(status_and_value(&write, &mut table), (2, vec![]));
    let removal = versioned(REMOVE_IF_UNMODIFIED, b"x", b"", 4);
    assert_eq!(status_and_value(&removal, &mut table), (2, vec![]));
    assert_eq!(
        status_and_value(&flagged(REMOVE, b"x", b""), &mut table),
        (2, vec![])
    );
    assert_eq!(contents(&table), contents(&before));

    let write = versioned(REPLACE_IF_UNMODIFIED, b"k", b"new", 4);
    assert_eq!(status_and_value(&write, &mut table), (0, b"old".to_vec()));
    assert_eq!(contents(&table), table_with(b"new", 10, 10));
    assert_eq!(
        status_and_value(&flagged(REPLACE, b"k", b"newer"), &mut table),
        (0, b"new".to_vec())
    );
    assert_eq!(contents(&table), table_with(b"newer", 11, 11));
    let removal = versioned(REMOVE_IF_UNMODIFIED, b"k", b"", 11);
    assert_eq!(
        status_and_value(&removal, &mut table),
        (0, b"newer".to_vec())
    );
    assert_eq!((table.entries.len(), table.last), (0, 11));
    assert_eq!(
        status_and_value(&flagged(PUT_IF_ABSENT, b"k", b"n"), &mut table),
        (0, vec![])
    );
    assert_eq!(contents(&table), table_with(b"n", 12, 12));
    assert_eq!(
        status_and_value(&flagged(REMOVE, b"k", b""), &mut table),
        (0, b"n".to_vec())
    );
    assert_eq!((table.entries.len(), table.last), (0, 12));
}

#[test]
fn clear_keeps_the_last_version() {
    let mut table = table_of(5);
    assert_eq!(
        status_and_value(&flagged(CLEAR, b"", b""), &mut table),
        (0, vec![])
    );
    assert_eq!((table.entries.len(), table.last), (0, 5));
    step(&request(PUT, b"k", b"v"), 0, &mut table).unwrap();
    assert_eq!(contents(&table), table_with(b"v", 6, 6));
}

/// The deadline that a write with these numbers leaves.
fn deadline(version: u8, flags: u32, lifespan: u32, second: u32) -> u64 {
    let mut table = Table::default();
    let given = Request {
        version,
        flags,
        lifespan,
        max_idle: 77,
        ..request(PUT, b"k", b"")
    };
    step(&given, second, &mut table).unwrap();
    table.entries[&b"k"[..]].deadline
}

#[test]
fn deadlines() {
    assert_eq!(deadline(10, 0, 0, 50), 0);
    assert_eq!(deadline(10, 1, 7, 50), 57);
    assert_eq!(deadline(12, 2, 7, 50), 0);
    assert_eq!(deadline(12, 3, 7, 50), 0);
    assert_eq!(deadline(12, 7, 7, 50), 0);
    assert_eq!(deadline(12, 4, 7, 50), 57);
    assert_eq!(deadline(12, 5, 7, 50), 57);
    assert_eq!(deadline(12, 4, 2_592_000, 1), 2_592_001);
    assert_eq!(deadline(12, 4, 2_592_001, 1), 2_592_001);
}

/// "Up to and including 2,592,000 the lifespan is added to the call's second;
/// above it, the lifespan itself is the deadline, even if that is past."
#[test]
fn a_lifespan_above_thirty_days_is_the_deadline() {
    let edges = [
        (0, 0, 0),
        (1, 0, 1),
        (2_592_000, 0, 2_592_000),
        (2_592_001, 0, 2_592_001),
        (4_294_967_295, 0, 4_294_967_295),
        (0, 4_294_967_295, 0),
        (1, 4_294_967_295, 4_294_967_296),
        (2_592_000, 4_294_967_295, 4_297_559_295),
        (2_592_001, 4_294_967_295, 2_592_001),
        (4_294_967_295, 4_294_967_295, 4_294_967_295),
    ];
    for (lifespan, second, wanted) in edges {
        for (version, flags) in [(10, 0), (10, 1), (11, 0), (12, 0), (12, 5)] {
            assert_eq!(
                deadline(version, flags, lifespan, second),
                wanted,
                "version {version}, flags {flags}, lifespan {lifespan}, second {second}"
            );
        }
        for flags in [2, 3, 6, 7] {
            assert_eq!(deadline(12, flags, lifespan, second), 0);
        }
    }
}

#[test]
fn every_write_that_stores_takes_a_date() {
    for operation in [PUT, PUT_IF_ABSENT, REPLACE, REPLACE_IF_UNMODIFIED] {
        let mut table = table_with(b"old", 4, 9);
        if operation == PUT_IF_ABSENT {
            table.entries.clear();
        }
        let write = Request {
            lifespan: 2_592_001,
            entry_version: if operation == REPLACE_IF_UNMODIFIED {
                4
            } else {
                0
            },
            ..request(operation, b"k", b"new")
        };
        step(&write, 4_000_000_000, &mut table).unwrap();
        assert_eq!(table.entries[&b"k"[..]], entry(b"new", 10, 2_592_001));
    }
}

#[test]
fn another_cache_is_9_for_every_operation() {
    for operation in SERVED {
        let mut table = table_of(128);
        table.last = LARGEST;
        let before = table.clone();
        let given = Request {
            name: b"a".to_vec(),
            ..request(operation, b"k", b"v")
        };
        assert_eq!(step(&given, 0, &mut table), Err(9));
        assert_eq!(table, before);
    }
}

#[test]
fn the_129th_key_and_an_overwrite_at_128() {
    let mut table = table_of(127);
    step(&request(PUT, b"k", b"v"), 0, &mut table).unwrap();
    let before = table.clone();
    assert_eq!(step(&request(PUT, b"new", b"v"), 0, &mut table), Err(10));
    assert_eq!(
        step(&request(PUT_IF_ABSENT, b"new", b"v"), 0, &mut table),
        Err(10)
    );
    assert_eq!(
        status_and_value(&request(REPLACE, b"new", b"v"), &mut table),
        (1, vec![])
    );
    let write = versioned(REPLACE_IF_UNMODIFIED, b"new", b"v", 1);
    assert_eq!(status_and_value(&write, &mut table), (2, vec![]));
    assert_eq!(
        status_and_value(&request(PUT_IF_ABSENT, b"k", b"x"), &mut table),
        (1, vec![])
    );
    assert_eq!(contents(&table), contents(&before));
    assert_eq!(
        status_and_value(&flagged(PUT, b"k", b"w"), &mut table),
        (0, b"v".to_vec())
    );
    assert_eq!(table.last, 129);
    assert_eq!(table.entries[&b"k"[..]].version, 129);
    step(&request(REMOVE, b"k", b""), 0, &mut table).unwrap();
    step(&request(PUT, b"new", b"v"), 0, &mut table).unwrap();
    assert_eq!((table.entries.len(), table.last), (128, 130));
    assert!(is_table(&table));
}

#[test]
fn the_last_version() {
    let mut table = table_with(b"v", 1, LARGEST - 1);
    step(&request(PUT, b"k", b"w"), 0, &mut table).unwrap();
    assert_eq!(contents(&table), table_with(b"w", LARGEST, LARGEST));
    assert!(is_table(&table));
    let before = table.clone();
    assert_eq!(step(&request(PUT, b"k", b"x"), 0, &mut table), Err(11));
    assert_eq!(step(&request(PUT, b"new", b"x"), 0, &mut table), Err(11));
    assert_eq!(
        step(&request(PUT_IF_ABSENT, b"new", b"x"), 0, &mut table),
        Err(11)
    );
    assert_eq!(step(&request(REPLACE, b"k", b"x"), 0, &mut table), Err(11));
    let write = versioned(REPLACE_IF_UNMODIFIED, b"k", b"x", LARGEST);
    assert_eq!(step(&write, 0, &mut table), Err(11));
    let write = versioned(REPLACE_IF_UNMODIFIED, b"k", b"x", 1);
    assert_eq!(status_and_value(&write, &mut table), (1, vec![]));
    assert_eq!(
        status_and_value(&request(PUT_IF_ABSENT, b"k", b"x"), &mut table),
        (1, vec![])
    );
    assert_eq!(
        status_and_value(&request(REPLACE, b"new", b"x"), &mut table),
        (1, vec![])
    );
    assert_eq!(contents(&table), contents(&before));
    let removal = versioned(REMOVE_IF_UNMODIFIED, b"k", b"", LARGEST);
    assert_eq!(status_and_value(&removal, &mut table), (0, b"w".to_vec()));
    step(&request(CLEAR, b"", b""), 0, &mut table).unwrap();
    assert_eq!((table.entries.len(), table.last), (0, LARGEST));
}

#[test]
fn full_comes_before_no_versions_left() {
    let mut table = table_of(128);
    table.last = LARGEST;
    assert_eq!(step(&request(PUT, b"new", b""), 0, &mut table), Err(10));
    assert_eq!(step(&request(PUT, &[0, 0], b""), 0, &mut table), Err(11));
}

#[test]
fn an_empty_key_is_a_key() {
    let mut table = Table::default();
    step(&request(PUT, b"", b"v"), 0, &mut table).unwrap();
    assert_eq!(
        status_and_value(&request(GET, b"", b""), &mut table),
        (0, b"v".to_vec())
    );
    assert_eq!(
        status_and_value(&flagged(PING, b"", b""), &mut table),
        (0, vec![])
    );
    assert_eq!(table.entries.len(), 1);
}

#[test]
fn a_request_that_breaks_a_rule_changes_nothing() {
    let mut table = Table::default();
    for operation in [0x00, 0x02, 0x14, 0x1b, 0xff] {
        assert_eq!(step(&bare(operation), 0, &mut table), Err(16));
    }
    assert_eq!(step(&request(PUT, &[0; 65], b""), 0, &mut table), Err(16));
    assert_eq!(table, Table::default());
}

#[test]
fn what_a_table_is() {
    assert!(is_table(&Table::default()));
    assert!(is_table(&table_of(128)));
    assert!(!is_table(&table_of(129)));
    assert!(is_table(&table_with(&[0; 256], LARGEST, LARGEST)));
    assert!(!is_table(&table_with(&[0; 257], 1, 1)));
    assert!(!is_table(&table_with(b"", 0, 1)));
    assert!(!is_table(&table_with(b"", 2, 1)));
    assert!(!is_table(&table_with(b"", 1, LARGEST + 1)));
    let mut table = table_of(2);
    table.entries.get_mut(&[0, 0][..]).unwrap().deadline = 8_589_934_590;
    assert!(is_table(&table));
    table.entries.get_mut(&[0, 0][..]).unwrap().deadline = 8_589_934_591;
    assert!(!is_table(&table));
    let mut table = table_of(2);
    table.entries.get_mut(&[0, 0][..]).unwrap().version = 2;
    assert!(!is_table(&table));
    let mut table = Table {
        last: 1,
        ..Table::default()
    };
    table.entries.insert(vec![0; 64], entry(b"", 1, 3));
    assert!(is_table(&table));
    let mut table = Table {
        last: 1,
        ..Table::default()
    };
    table.entries.insert(vec![0; 65], entry(b"", 1, 0));
    assert!(!is_table(&table));
}
