use crate::help::*;
use reference::operation::*;
use reference::*;

const LARGEST: u64 = 9_223_372_036_854_775_807;
const LAST_SECOND: u64 = 4_294_967_295;

/// Serves one line of a request file, and gives the reply's digits.
fn line(second: u32, frame: &str, table: &mut Table) -> String {
    let text = format!("{second:08x} {}", digits(&hex(frame)));
    String::from_utf8(serve_line(text.as_bytes(), table)).unwrap()
}

/// Serves each line and compares its reply.
fn session(lines: &[(u32, &str, &str)], table: &mut Table) {
    for (second, frame, reply) in lines {
        let expected = digits(&hex(reply));
        assert_eq!(line(*second, frame, table), expected, "{second} {frame}");
    }
}

/// A table with an entry `k` of value `v` and version 1 for each deadline, the
/// keys of further ones being `l`, `m` and so on.
fn dated(deadlines: &[u64]) -> Table {
    let mut table = Table::default();
    for (at, deadline) in deadlines.iter().enumerate() {
        table.last += 1;
        let key = vec![b'k' + at as u8];
        table
            .entries
            .insert(key, entry(b"v", table.last, *deadline));
    }
    table
}

fn keys_of(table: &Table) -> Vec<&[u8]> {
    table.entries.keys().map(Vec::as_slice).collect()
}

/// A full table whose first `expired` entries have this deadline.
fn full(expired: u64, deadline: u64) -> Table {
    let mut table = table_of(128);
    for entry in table.entries.values_mut() {
        if entry.version <= expired {
            entry.deadline = deadline;
        }
    }
    table
}

fn elsewhere(operation: u8) -> Request {
    Request {
        name: b"x".to_vec(),
        ..request(operation, b"k", b"v")
    }
}

/// A put with this lifespan.
fn lasting(key: &[u8], lifespan: u32) -> Request {
    Request {
        lifespan,
        ..request(PUT, key, b"w")
    }
}

/// "An entry whose deadline isn't 0 and isn't above the present second counts
/// as absent." A put at second 4 for six seconds.
#[test]
fn an_entry_is_there_up_to_the_second_before_its_deadline() {
    let lines = [
        (
            4,
            "a0 01 0a 01 00 00 01 00 00 02 6231 06 00 03 496461",
            "a1 01 02 00 00",
        ),
        (
            9,
            "a0 02 0a 03 00 00 01 00 00 02 6231",
            "a1 02 04 00 00 03 496461",
        ),
        (10, "a0 03 0a 03 00 00 01 00 00 02 6231", "a1 03 04 02 00"),
        (11, "a0 04 0a 03 00 00 01 00 00 02 6231", "a1 04 04 02 00"),
        (9, "a0 05 0a 03 00 00 01 00 00 02 6231", "a1 05 04 02 00"),
        (0, "a0 06 0a 0f 00 00 01 00 00 02 6231", "a1 06 10 02 00"),
    ];
    let mut table = Table::default();
    session(&lines, &mut table);
    assert!(table.entries.is_empty());
    assert_eq!((table.last, table.history.latest), (1, 11));
}

/// A request of each operation for the key `k`, the reply where it is held
/// with value `v` and version 1, and the reply where it is absent. All ask for
/// the old value.
const BY_OPERATION: [(&str, &str, &str); 11] = [
    // put
    (
        "a0 01 0a 01 00 01 01 00 00 01 6b 00 00 01 77",
        "a1 01 02 00 00 01 76",
        "a1 01 02 00 00 00",
    ),
    // get
    (
        "a0 01 0a 03 00 01 01 00 00 01 6b",
        "a1 01 04 00 00 01 76",
        "a1 01 04 02 00",
    ),
    // putIfAbsent
    (
        "a0 01 0a 05 00 01 01 00 00 01 6b 00 00 01 77",
        "a1 01 06 01 00 01 76",
        "a1 01 06 00 00 00",
    ),
    // replace
    (
        "a0 01 0a 07 00 01 01 00 00 01 6b 00 00 01 77",
        "a1 01 08 00 00 01 76",
        "a1 01 08 01 00 00",
    ),
    // replaceIfUnmodified
    (
        "a0 01 0a 09 00 01 01 00 00 01 6b 00 00 0000000000000001 01 77",
        "a1 01 0a 00 00 01 76",
        "a1 01 0a 02 00 00",
    ),
    // remove
    (
        "a0 01 0a 0b 00 01 01 00 00 01 6b",
        "a1 01 0c 00 00 01 76",
        "a1 01 0c 02 00 00",
    ),
    // removeIfUnmodified
    (
        "a0 01 0a 0d 00 01 01 00 00 01 6b 0000000000000001",
        "a1 01 0e 00 00 01 76",
        "a1 01 0e 02 00 00",
    ),
    // containsKey
    (
        "a0 01 0a 0f 00 01 01 00 00 01 6b",
        "a1 01 10 00 00",
        "a1 01 10 02 00",
    ),
    // getWithVersion
    (
        "a0 01 0a 11 00 01 01 00 00 01 6b",
        "a1 01 12 00 00 0000000000000001 01 76",
        "a1 01 12 02 00",
    ),
    // bulkGet
    (
        "a0 01 0a 19 00 01 01 00 00 00",
        "a1 01 1a 00 00 01 01 6b 01 76 00",
        "a1 01 1a 00 00 00",
    ),
    // bulkGetKeys
    (
        "a0 01 0c 1d 00 01 01 00 00 00",
        "a1 01 1e 00 00 01 01 6b 00",
        "a1 01 1e 00 00 00",
    ),
];

/// Each operation before, at and behind deadline 10, and at the last second.
#[test]
fn an_expired_entry_is_absent_for_each_operation() {
    for (frame, before, after) in BY_OPERATION {
        session(&[(9, frame, before)], &mut dated(&[10]));
        session(&[(10, frame, after)], &mut dated(&[10]));
        session(&[(u32::MAX, frame, after)], &mut dated(&[10]));
        session(&[(u32::MAX, frame, before)], &mut dated(&[0]));
        session(&[(u32::MAX, frame, before)], &mut dated(&[LAST_SECOND + 1]));
        session(&[(u32::MAX, frame, after)], &mut dated(&[LAST_SECOND]));
    }
}

#[test]
fn the_present_second_is_the_greatest_of_the_calls_served() {
    let mut table = Table::default();
    for (second, latest) in [
        (7, 7),
        (3, 7),
        (7, 7),
        (8, 8),
        (0, 8),
        (u32::MAX, LAST_SECOND),
    ] {
        step(&bare(PING), second, &mut table).unwrap();
        assert_eq!(table.history.latest, latest);
    }
    step(&bare(PING), 1, &mut table).unwrap();
    assert_eq!(table.history.latest, LAST_SECOND);
}

/// A ping at second 256, then a put at second 3 for five seconds: the deadline
/// is 261, not 8.
#[test]
fn deadlines_are_reckoned_from_the_present_second() {
    let lines = [
        (256, "a0 01 0a 17 00 00 01 00 00", "a1 01 18 00 00"),
        (
            3,
            "a0 02 0a 01 00 00 01 00 00 01 6b 05 00 01 76",
            "a1 02 02 00 00",
        ),
        (
            260,
            "a0 03 0a 03 00 00 01 00 00 01 6b",
            "a1 03 04 00 00 01 76",
        ),
    ];
    let mut table = Table::default();
    session(&lines, &mut table);
    let stored = "010000000000000001\n00000000000000010000000000000105016b0176\n";
    assert_eq!(store(&table), stored.as_bytes());
    session(
        &[(261, "a0 03 0a 03 00 00 01 00 00 01 6b", "a1 03 04 02 00")],
        &mut table,
    );
    assert_eq!(store(&table), b"010000000000000001\n");
}

#[test]
fn thirty_days_from_the_last_second() {
    let mut table = Table::default();
    step(&bare(PING), u32::MAX, &mut table).unwrap();
    step(&lasting(b"k", 2_592_000), 0, &mut table).unwrap();
    assert_eq!(table.entries[&b"k"[..]].deadline, 4_297_559_295);
    assert!(is_table(&table));
}

/// "A refused step leaves the map and the latest second served as they were
/// before it": a call behind it with a lower second sees what it did not.
#[test]
fn a_refused_call_neither_drops_nor_moves_the_second() {
    let mut room = vec![0; 41_600];
    let start = dated(&[10, 20, 0]);
    let bulk = bytes_of(&bare(BULK_GET));
    let get = bytes_of(&request(GET, b"k", b""));
    let mut table = start.clone();
    for operation in SERVED {
        let frame = bytes_of(&elsewhere(operation));
        let answer = serve(&frame, &mut table, 50, &mut room);
        assert_eq!(answer.verdict, Verdict::Refused(9));
        assert_eq!(table, start);
    }
    for (frame, length, verdict) in [
        (&bulk, 41_599, Verdict::Refused(12)),
        (&bulk, 512, Verdict::Refused(12)),
        (&get, 511, Verdict::Refused(12)),
        (&get[..9].to_vec(), 512, Verdict::More),
        (&b"\xa1".to_vec(), 512, Verdict::Refused(1)),
        (&b"\xa0\x01\x0a\x1b".to_vec(), 512, Verdict::Refused(4)),
    ] {
        let answer = serve(frame, &mut table, 50, &mut room[..length]);
        assert_eq!(answer.verdict, verdict);
        assert_eq!(table, start);
    }
    assert_eq!(line(50, "a0 01", &mut table), "refused 15");
    assert_eq!(line(50, "a0010a170000010000 00", &mut table), "refused 15");
    assert_eq!(table, start);
    session(
        &[(
            9,
            "a0 01 0a 03 00 00 01 00 00 01 6b",
            "a1 01 04 00 00 01 76",
        )],
        &mut table,
    );
    assert_eq!(table.history.latest, 9);
}

/// The error reply to a refused call is by the present second, though it is
/// not kept: at second 10 the table is not full, at second 9 it is.
#[test]
fn refusal_10_counts_only_entries_that_stand() {
    let put = "a0 01 0a 01 00 00 01 00 00 01 7a 00 00 00";
    let if_absent = "a0 01 0a 05 00 00 01 00 00 01 7a 00 00 00";
    let full_text = "a1 01 50 85 00 04 66756c6c";
    for (frame, stored) in [(put, "a1 01 02 00 00"), (if_absent, "a1 01 06 00 00")] {
        let mut table = full(1, 10);
        let before = table.clone();
        session(&[(9, frame, full_text)], &mut table);
        assert_eq!(table, before);
        session(&[(10, frame, stored)], &mut table);
        assert_eq!((table.entries.len(), table.last), (128, 129));
        assert!(!table.entries.contains_key(&[0, 0][..]));
        assert!(is_table(&table));
        let second = "a0 01 0a 01 00 00 01 00 00 01 79 00 00 00";
        session(&[(9, second, full_text)], &mut table);
    }
    let mut table = full(128, 10);
    session(&[(9, put, full_text)], &mut table);
    session(&[(10, put, "a1 01 02 00 00")], &mut table);
    assert_eq!(keys_of(&table), [b"z"]);
}

/// A key that expired is a key added: at 128 others its write is refused.
#[test]
fn a_write_to_an_expired_key_of_a_full_table() {
    let mut table = full(1, 10);
    let write = request(PUT, &[0, 0], b"w");
    step(&write, 12, &mut table).unwrap();
    assert_eq!(table.entries[&[0, 0][..]], entry(b"w", 129, 0));
    assert_eq!((table.entries.len(), table.history.counts[0]), (128, 1));
    let replace = request(REPLACE, &[0, 0], b"w");
    let mut table = full(1, 10);
    assert_eq!(step(&replace, 12, &mut table).unwrap().status, 1);
    assert_eq!(table.entries.len(), 127);
}

/// 11 comes where the table is full of entries of which some expired, and
/// leaves those too.
#[test]
fn no_version_left_in_a_table_of_which_some_expired() {
    let mut table = full(3, 10);
    table.last = LARGEST;
    let before = table.clone();
    assert_eq!(step(&lasting(b"z", 1), 9, &mut table), Err(10));
    assert_eq!(step(&lasting(b"z", 1), 10, &mut table), Err(11));
    assert_eq!(step(&lasting(&[0, 0], 1), 10, &mut table), Err(11));
    assert_eq!(table, before);
    let replace = request(REPLACE, &[0, 0], b"w");
    assert_eq!(step(&replace, 9, &mut table), Err(11));
    assert_eq!(table, before);
    assert_eq!(step(&replace, 10, &mut table).unwrap().status, 1);
    assert_eq!(table.entries.len(), 125);
}

/// A put at second 3,000,000 with the date 2,592,001, which is past.
#[test]
fn a_put_with_a_past_date_takes_effect_and_is_gone_for_every_later_call() {
    let put = "a0 01 0a 01 00 01 01 00 00 01 6b 819a9e01 00 01 77";
    let get = "a0 02 0a 03 00 00 01 00 00 01 6b";
    let mut table = dated(&[0]);
    session(&[(3_000_000, put, "a1 01 02 00 00 01 76")], &mut table);
    assert_eq!(table.entries[&b"k"[..]], entry(b"w", 2, 2_592_001));
    assert!(is_table(&table));
    assert_eq!(store(&table), b"010000000000000002\n");
    for second in [3_000_000, 0, 2_592_000, u32::MAX] {
        session(&[(second, get, "a1 02 04 02 00")], &mut table.clone());
    }
    // The next put is one of an absent key, and past too.
    session(&[(0, put, "a1 01 02 00 00 00")], &mut table);
    let stats = step(&bare(STATS), 3_000_001, &mut table).unwrap();
    assert_eq!(stats.statistics, [1, 0, 1, 2, 0, 0, 0, 0, 0]);
    assert_eq!(table.last, 3);
    assert!(table.entries.is_empty());
}

#[test]
fn a_date_at_the_present_second_is_past_and_one_behind_it_is_not() {
    for (date, status) in [(2_999_999, 2), (3_000_000, 2), (3_000_001, 0)] {
        let mut table = Table::default();
        step(&lasting(b"k", date), 3_000_000, &mut table).unwrap();
        let reply = step(&request(GET, b"k", b""), 3_000_000, &mut table).unwrap();
        assert_eq!(reply.status, status, "{date}");
    }
}

#[test]
fn a_past_date_is_refused_10_and_11_like_any_write() {
    let past = lasting(b"z", 2_592_001);
    let mut table = full(0, 0);
    assert_eq!(step(&past, 3_000_000, &mut table), Err(10));
    let mut table = table_with(b"v", 1, LARGEST);
    assert_eq!(step(&past, 3_000_000, &mut table), Err(11));
}

/// Entries of versions 1 to 4, of which the first and the third expired.
#[test]
fn a_listing_shows_what_stands() {
    let start = dated(&[10, 0, 10, 11]);
    let all = "a1 01 1a 00 00 01 01 6c 01 76 01 01 6e 01 76 00";
    let one = "a1 01 1a 00 00 01 01 6c 01 76 00";
    let keys = "a1 01 1e 00 00 01 01 6c 01 01 6e 00";
    for (frame, reply) in [
        ("a0 01 0a 19 00 00 01 00 00 00", all),
        ("a0 01 0a 19 00 00 01 00 00 01", one),
        ("a0 01 0a 19 00 00 01 00 00 02", all),
        ("a0 01 0a 19 00 00 01 00 00 04", all),
        ("a0 01 0c 1d 00 00 01 00 00 00", keys),
        ("a0 01 0c 1d 00 00 01 00 00 02", keys),
    ] {
        session(&[(10, frame, reply)], &mut start.clone());
        let mut later = start.clone();
        step(&bare(PING), 10, &mut later).unwrap();
        session(&[(0, frame, reply)], &mut later);
    }
}

#[test]
fn statistics_count_an_expired_key_as_absent() {
    let mut table = dated(&[10, 10, 0]);
    let calls = [
        request(GET, b"k", b""),    // retrievals 1, misses 1
        request(REMOVE, b"k", b""), // removeMisses 1
        request(GET, b"m", b""),    // retrievals 2, hits 1
        request(REMOVE, b"m", b""), // removeHits 1
        lasting(b"k", 5),           // total 1, stores 1
        lasting(b"k", 5),           // stores 2
    ];
    for call in &calls {
        step(call, 10, &mut table).unwrap();
    }
    let stats = |second, table: &mut Table| step(&bare(STATS), second, table).unwrap().statistics;
    assert_eq!(stats(14, &mut table), [4, 1, 1, 2, 2, 1, 1, 1, 1]);
    assert_eq!(stats(15, &mut table), [5, 0, 1, 2, 2, 1, 1, 1, 1]);
    // Added once more.
    step(&lasting(b"k", 5), 15, &mut table).unwrap();
    assert_eq!(stats(15, &mut table), [5, 1, 2, 3, 2, 1, 1, 1, 1]);
}

/// timeSinceStart goes by the call's own second, not by the present one.
#[test]
fn the_time_since_start_may_go_back() {
    let mut table = Table::default();
    step(&bare(PING), 100, &mut table).unwrap();
    for (second, time) in [(200, 100), (150, 50), (99, 0), (200, 100)] {
        let reply = step(&bare(STATS), second, &mut table).unwrap();
        assert_eq!(reply.statistics[0], time);
        assert_eq!(table.history.latest, 200);
    }
}

#[test]
fn a_stored_file_holds_what_stands_at_the_latest_second() {
    let mut table = dated(&[10, 11, 0]);
    let third = "0000000000000003 0000000000000000 01 6d 01 76";
    let second = "0000000000000002 000000000000000b 01 6c 01 76";
    let first = "0000000000000001 000000000000000a 01 6b 01 76";
    let file = |lines: &[&str]| {
        let mut file = String::from("010000000000000003\n");
        for line in lines {
            file += &line.replace(' ', "");
            file.push('\n');
        }
        file.into_bytes()
    };
    assert_eq!(store(&table), file(&[first, second, third]));
    for (latest, lines) in [
        (9, &[first, second, third][..]),
        (10, &[second, third]),
        (11, &[third]),
        (LAST_SECOND, &[third]),
    ] {
        table.history.latest = latest;
        assert_eq!(store(&table), file(lines));
        let loaded = load(&file(lines)).unwrap();
        assert_eq!(loaded.history, History::default());
        assert_eq!((loaded.entries.len(), loaded.last), (lines.len(), 3));
    }
    assert_eq!(table.entries.len(), 3);
}

/// A call refused at second 50 leaves the entry in the file, one that is
/// served takes it out.
#[test]
fn a_refused_call_leaves_the_stored_file() {
    let mut table = dated(&[10]);
    let before = store(&table);
    assert_eq!(step(&elsewhere(PING), 50, &mut table), Err(9));
    assert_eq!(store(&table), before);
    step(&bare(PING), 50, &mut table).unwrap();
    assert_eq!(store(&table), b"010000000000000001\n");
}

#[test]
fn a_loaded_table_starts_from_second_0() {
    let mut table = dated(&[10]);
    step(&bare(PING), 9, &mut table).unwrap();
    let mut loaded = load(&store(&table)).unwrap();
    assert_eq!(loaded.history.latest, 0);
    step(&lasting(b"z", 4), 2, &mut loaded).unwrap();
    assert_eq!(loaded.entries[&b"z"[..]].deadline, 6);
    let reply = step(&request(GET, b"k", b""), 5, &mut loaded).unwrap();
    assert_eq!((reply.status, reply.value), (0, b"v".to_vec()));
    // A deadline of 1 stands at second 0.
    let early = b"010000000000000001\n00000000000000010000000000000001016b0176\n";
    let mut loaded = load(early).unwrap();
    assert_eq!(store(&loaded), early);
    step(&bare(PING), 0, &mut loaded).unwrap();
    assert_eq!(store(&loaded), early);
    step(&bare(PING), 1, &mut loaded).unwrap();
    assert_eq!(store(&loaded), b"010000000000000001\n");
}

#[test]
fn a_second_above_the_largest_is_13() {
    let sound = dated(&[10, 0]);
    let with = |first, latest| {
        let mut table = sound.clone();
        table.history.first = first;
        table.history.latest = latest;
        table
    };
    for table in [
        with(None, LAST_SECOND),
        with(Some(LAST_SECOND), LAST_SECOND),
        // A first second above the latest is sound too.
        with(Some(LAST_SECOND), 0),
        with(None, 5),
    ] {
        assert!(is_table(&table));
    }
    for mut table in [
        with(None, LAST_SECOND + 1),
        with(None, u64::MAX),
        with(Some(LAST_SECOND + 1), 0),
        with(Some(u64::MAX), LAST_SECOND),
    ] {
        let before = table.clone();
        assert!(!is_table(&table));
        let answer = serve(&bytes_of(&bare(PING)), &mut table, 1, &mut [0; 512]);
        assert_eq!(answer.verdict, Verdict::Refused(13));
        assert_eq!(table, before);
    }
}

/// A table is one by all of its entries, expired or not.
#[test]
fn expired_entries_count_for_what_a_table_is() {
    let mut table = full(128, 1);
    table.history.latest = 100;
    assert!(is_table(&table));
    table.last = 129;
    table.entries.insert(b"z".to_vec(), entry(b"", 129, 1));
    assert!(!is_table(&table));
    let mut table = dated(&[1, 0]);
    table.history.latest = 100;
    table.entries.get_mut(&b"k"[..]).unwrap().version = 2;
    assert!(!is_table(&table));
}

#[test]
fn no_version_comes_twice_where_entries_expire() {
    let mut table = Table::default();
    step(&lasting(b"k", 5), 1, &mut table).unwrap();
    let seen = step(&request(GET_WITH_VERSION, b"k", b""), 5, &mut table).unwrap();
    assert_eq!(seen.version, 1);
    step(&lasting(b"k", 5), 6, &mut table).unwrap();
    let stale = versioned(REPLACE_IF_UNMODIFIED, b"k", b"x", 1);
    assert_eq!(step(&stale, 6, &mut table).unwrap().status, 1);
    let stale = versioned(REMOVE_IF_UNMODIFIED, b"k", b"", 1);
    assert_eq!(step(&stale, 6, &mut table).unwrap().status, 1);
    assert_eq!(table.entries[&b"k"[..]], entry(b"w", 2, 11));
}

#[test]
fn clear_takes_the_expired_entries_as_well() {
    let mut table = dated(&[10, 0, 30]);
    assert_eq!(step(&elsewhere(CLEAR), 20, &mut table), Err(9));
    assert_eq!(table, dated(&[10, 0, 30]));
    step(&bare(CLEAR), 20, &mut table).unwrap();
    assert_eq!((table.entries.len(), table.last), (0, 3));
    assert_eq!(table.history.latest, 20);
}

/// Three requests in one stream at second 3,000,000: a put with a past date,
/// a get of its key, and a put of an older key that expires by the stream.
#[test]
fn a_stream_drops_before_each_of_its_steps() {
    let row = hex("a0 01 0a 01 00 00 01 00 00 01 6b 819a9e01 00 01 77 \
         a0 02 0a 03 00 00 01 00 00 01 6b \
         a0 03 0a 05 00 01 01 00 00 01 6c 01 00 01 78 \
         a0 04 0a 03 00 00 01 00 00 01 6c");
    let replies = hex("a1 01 02 00 00 a1 02 04 02 00 a1 03 06 00 00 00 a1 04 04 00 00 01 78");
    let mut table = dated(&[0, 3_000_000]);
    let mut room = vec![0; 4096];
    let answer = serve_stream(&row, &mut table, 3_000_000, &mut room);
    assert_eq!((answer.taken, answer.verdict), (row.len(), Verdict::More));
    assert_eq!(room[..answer.reply_len], replies);
    assert_eq!(keys_of(&table), [b"l"]);
    assert_eq!(table.entries[&b"l"[..]], entry(b"x", 4, 3_000_001));
}

/// Numbers by chance.
struct Dice(u64);

impl Dice {
    fn roll(&mut self, most: u64) -> u64 {
        let next = self.0.wrapping_mul(6_364_136_223_846_793_005);
        self.0 = next.wrapping_add(1_442_695_040_888_963_407);
        (self.0 >> 33) % most
    }
}

/// What is known of a run: for each key the version and the deadline of the
/// last write, and the latest second served.
#[derive(Default)]
struct Known {
    written: [Option<(u64, u64)>; 4],
    latest: u64,
}

impl Known {
    /// One call of a run, held to what is known: a write that took effect is
    /// shown before its deadline, and none at or behind it.
    fn call(&mut self, dice: &mut Dice, table: &mut Table) {
        let (second, at, lifespan) = (dice.roll(60), dice.roll(4) as usize, dice.roll(12));
        let (now, key) = (second.max(self.latest), [at as u8]);
        let shown = self.written[at].filter(|(_, end)| *end == 0 || *end > now);
        let status = if shown.is_some() { 0 } else { 2 };
        match dice.roll(6) {
            0 => {
                let before = table.clone();
                assert_eq!(step(&elsewhere(GET), second as u32, table), Err(9));
                assert_eq!(*table, before);
                return;
            }
            1 | 2 => {
                step(&lasting(&key, lifespan as u32), second as u32, table).unwrap();
                let end = if lifespan == 0 { 0 } else { now + lifespan };
                self.written[at] = Some((table.last, end));
            }
            3 => {
                let reply = step(&request(REMOVE, &key, b""), second as u32, table).unwrap();
                assert_eq!(reply.status, status);
                self.written[at] = None;
            }
            _ => {
                let get = request(GET_WITH_VERSION, &key, b"");
                let reply = step(&get, second as u32, table).unwrap();
                let version = shown.map_or(0, |(version, _)| version);
                assert_eq!((reply.status, reply.version), (status, version));
            }
        }
        self.latest = now;
    }
}

/// Seconds go back and forth, and calls to another cache come in between.
#[test]
fn no_reply_shows_an_entry_at_or_behind_its_deadline() {
    let mut dice = Dice(1);
    for _ in 0..300 {
        let mut table = Table::default();
        let mut known = Known::default();
        for _ in 0..80 {
            known.call(&mut dice, &mut table);
            assert_eq!(table.history.latest, known.latest);
        }
    }
}
