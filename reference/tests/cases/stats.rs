use crate::help::*;
use reference::operation::*;
use reference::statistics::{decimal, NAMES};
use reference::*;

const LARGEST: u64 = 9_223_372_036_854_775_807;

/// The reply to the first call, a stats request with id 1.
pub const FRESH: &str = "a1 01 16 00 00 09 \
    0e 74696d6553696e63655374617274 01 30 \
    16 63757272656e744e756d6265724f66456e7472696573 01 30 \
    14 746f74616c4e756d6265724f66456e7472696573 01 30 \
    06 73746f726573 01 30 \
    0a 72657472696576616c73 01 30 \
    04 68697473 01 30 \
    06 6d6973736573 01 30 \
    0a 72656d6f766548697473 01 30 \
    0c 72656d6f76654d6973736573 01 30";

/// The reply to id 300 with 7, 2, 10, 128, 4,294,967,295, the largest vLong,
/// 0, 99 and 100.
const BUSY: &str = "a1 ac02 16 00 00 09 \
    0e 74696d6553696e63655374617274 01 37 \
    16 63757272656e744e756d6265724f66456e7472696573 01 32 \
    14 746f74616c4e756d6265724f66456e7472696573 02 3130 \
    06 73746f726573 03 313238 \
    0a 72657472696576616c73 0a 34323934393637323935 \
    04 68697473 13 39323233333732303336383534373735383037 \
    06 6d6973736573 01 30 \
    0a 72656d6f766548697473 02 3939 \
    0c 72656d6f76654d6973736573 03 313030";

const BUSY_NUMBERS: Statistics = [7, 2, 10, 128, 4_294_967_295, LARGEST, 0, 99, 100];

fn stats_reply(id: u64, statistics: Statistics) -> Reply {
    Reply {
        id,
        operation: 0x16,
        statistics,
        ..Reply::default()
    }
}

fn read(form: &[u8]) -> Read<Reply> {
    read_reply(asked(STATS, false), form)
}

/// What a call at this second is told.
fn told(table: &mut Table, second: u32) -> Statistics {
    step(&bare(STATS), second, table).unwrap().statistics
}

fn play(requests: &[Request], second: u32, table: &mut Table) {
    for request in requests {
        let _ = step(request, second, table);
    }
}

#[test]
fn a_request_for_stats_has_no_arguments() {
    for (version, form) in [(10, "0a"), (11, "0b"), (12, "0c")] {
        let request = Request {
            version,
            ..bare(STATS)
        };
        let bytes = hex(&format!("a0 01 {form} 15 00 00 01 00 00"));
        assert_eq!(bytes_of(&request), bytes);
        assert_eq!(read_request(&bytes), Read::Whole(request, 9));
    }
    let with_key = Request {
        key: b"k".to_vec(),
        ..bare(STATS)
    };
    assert_eq!(write_request(&with_key, &mut [0; 100]), Err(16));
}

#[test]
fn replies_worked_out_by_hand() {
    for (form, id, numbers) in [(FRESH, 1, [0; 9]), (BUSY, 300, BUSY_NUMBERS)] {
        let form = hex(form);
        let reply = stats_reply(id, numbers);
        assert_eq!(read(&form), Read::Whole(reply.clone(), form.len()));
        let mut out = vec![0xee; form.len() + 3];
        assert_eq!(
            write_reply(asked(STATS, true), &reply, &mut out),
            Ok(form.len())
        );
        assert_eq!(out, [&form[..], &[0xee; 3]].concat());
        for end in 0..form.len() {
            assert_eq!(read(&form[..end]), Read::More, "{end}");
            let mut short = vec![0xee; end];
            assert_eq!(
                write_reply(asked(STATS, false), &reply, &mut short),
                Err(12)
            );
            assert_eq!(short, vec![0xee; end]);
        }
    }
}

#[test]
fn the_longest_reply_has_307_bytes() {
    let longest = stats_reply(LARGEST, [LARGEST; 9]);
    let mut out = [0; 512];
    assert_eq!(
        write_reply(asked(STATS, false), &longest, &mut out),
        Ok(307)
    );
    assert_eq!(read(&out), Read::Whole(longest, 307));
}

#[test]
fn a_number_above_the_largest_vlong_is_16() {
    for place in 0..9 {
        let mut numbers = [1; 9];
        numbers[place] = LARGEST + 1;
        let reply = stats_reply(1, numbers);
        assert_eq!(
            write_reply(asked(STATS, false), &reply, &mut [0; 512]),
            Err(16)
        );
        assert_eq!(write_reply(asked(STATS, false), &reply, &mut []), Err(16));
    }
    let other = Reply {
        operation: 0x18,
        ..stats_reply(1, [0, 0, 0, 1, 0, 0, 0, 0, 0])
    };
    assert_eq!(
        write_reply(asked(PING, false), &other, &mut [0; 512]),
        Err(16)
    );
}

#[test]
fn an_error_reply_to_stats() {
    let form = hex("a1 01 50 85 00 0d 6e6f2073756368206361636865");
    let error = error_reply(1, 9).unwrap();
    assert_eq!(read(&form), Read::Whole(error.clone(), form.len()));
    let mut out = [0; 19];
    assert_eq!(write_reply(asked(STATS, false), &error, &mut out), Ok(19));
    assert_eq!(out[..], form);
    let with_numbers = Reply {
        statistics: BUSY_NUMBERS,
        ..error
    };
    assert_eq!(
        write_reply(asked(STATS, false), &with_numbers, &mut out),
        Err(16)
    );
}

#[test]
fn status_number_and_names_that_are_wrong() {
    let refused =
        |form: &str, number| assert_eq!(read(&hex(form)), Read::Refused(number), "{form}");
    refused("a1 01 16 01", 8);
    refused("a1 01 16 02", 8);
    refused("a1 01 16 81", 8);
    refused("a1 01 16 00 01", 8);
    refused("a1 01 18", 4);
    refused("a1 01 16 00 00 08", 8);
    refused("a1 01 16 00 00 0a", 8);
    refused("a1 01 16 00 00 00", 8);
    refused("a1 01 16 00 00 ffffffff0f", 8);
    refused("a1 01 16 00 00 8900", 5);
    refused("a1 01 16 00 00 ffffffff10", 5);
    let front = "a1 01 16 00 00 09";
    refused(&format!("{front} 17"), 6);
    refused(&format!("{front} ffffffff0f"), 6);
    refused(&format!("{front} 8e00"), 5);
    refused(&format!("{front} 00"), 8);
    refused(&format!("{front} 01 74"), 8);
    refused(&format!("{front} 01 c3"), 8);
    refused(&format!("{front} 0e 54696d6553696e63655374617274"), 8);
    refused(&format!("{front} 0e 74696d6553696e636553746172ff"), 8);
    refused(
        &format!("{front} 16 63757272656e744e756d6265724f66456e7472696573"),
        8,
    );
    assert_eq!(read(&hex(&format!("{front} 01"))), Read::More);
    assert_eq!(read(&hex(&format!("{front} 16 00000000"))), Read::More);
    assert_eq!(
        read(&hex(&format!("{front} 0e 54696d6553696e636553746172"))),
        Read::More
    );
}

#[test]
fn values_that_are_wrong() {
    let front = "a1 01 16 00 00 09 0e 74696d6553696e63655374617274";
    let value = |rest: &str| read(&hex(&format!("{front} {rest}")));
    assert_eq!(value("00"), Read::Refused(8));
    assert_eq!(value("01 3a"), Read::Refused(8));
    assert_eq!(value("01 2f"), Read::Refused(8));
    assert_eq!(value("02 3030"), Read::Refused(8));
    assert_eq!(value("02 3031"), Read::Refused(8));
    assert_eq!(value("02 2b31"), Read::Refused(8));
    assert_eq!(value("02 2d30"), Read::Refused(8));
    assert_eq!(value("02 3120"), Read::Refused(8));
    assert_eq!(value("01 ff"), Read::Refused(8));
    assert_eq!(value("14"), Read::Refused(6));
    assert_eq!(value("ffffffff0f"), Read::Refused(6));
    assert_eq!(value("8100"), Read::Refused(5));
    assert_eq!(value("ffffffff1f"), Read::Refused(5));
    assert_eq!(
        value("13 39323233333732303336383534373735383038"),
        Read::Refused(8)
    );
    assert_eq!(
        value("13 39393939393939393939393939393939393939"),
        Read::Refused(8)
    );
    assert_eq!(
        value("13 39323233333732303336383534373735383037"),
        Read::More
    );
    assert_eq!(value("02 30"), Read::More);
    assert_eq!(value("01 30"), Read::More);
}

#[test]
fn the_shortest_decimal_of_a_vlong() {
    assert_eq!(decimal(b"0"), Some(0));
    assert_eq!(decimal(b"9"), Some(9));
    assert_eq!(decimal(b"10"), Some(10));
    assert_eq!(decimal(b"9223372036854775807"), Some(LARGEST));
    for bad in [
        &b""[..],
        b"00",
        b"01",
        b"-1",
        b"+1",
        b" 1",
        b"1 ",
        b"1e3",
        b"0x1",
        b"1_0",
        b"9223372036854775808",
        b"18446744073709551616",
        b"\xd9\xa1",
        b"\0",
    ] {
        assert_eq!(decimal(bad), None, "{bad:?}");
    }
}

#[test]
fn nine_names_of_at_most_22_bytes() {
    let longest = NAMES.iter().map(|name| name.len()).max();
    assert_eq!((NAMES.len(), longest), (9, Some(22)));
}

#[test]
fn each_call_counts_where_it_should() {
    let mut table = Table::default();
    let calls = [
        request(PUT, b"a", b"1"),           // total 1, stores 1
        request(PUT, b"a", b"2"),           // stores 2
        request(PUT_IF_ABSENT, b"b", b"1"), // total 2
        request(PUT_IF_ABSENT, b"b", b"2"), // status 01
        request(REPLACE, b"b", b"3"),
        request(REPLACE, b"c", b"3"), // status 01
        versioned(REPLACE_IF_UNMODIFIED, b"a", b"4", 2),
        versioned(REPLACE_IF_UNMODIFIED, b"c", b"4", 2), // status 02
        request(GET, b"a", b""),                         // retrievals 1, hits 1
        request(GET, b"b", b""),                         // retrievals 2, hits 2
        request(GET, b"c", b""),                         // retrievals 3, misses 1
        request(GET_WITH_VERSION, b"a", b""),
        request(CONTAINS_KEY, b"a", b""),
        request(REMOVE, b"a", b""),                    // removeHits 1
        request(REMOVE, b"a", b""),                    // removeMisses 1
        request(REMOVE, b"c", b""),                    // removeMisses 2
        versioned(REMOVE_IF_UNMODIFIED, b"b", b"", 1), // status 01
        versioned(REMOVE_IF_UNMODIFIED, b"c", b"", 1), // status 02
        request(PUT, b"a", b"5"),                      // total 3, stores 3
        bare(PING),
        bare(STATS),
    ];
    play(&calls, 50, &mut table);
    assert_eq!(told(&mut table, 61), [11, 2, 3, 3, 3, 2, 1, 1, 2]);
    play(&[bare(CLEAR)], 50, &mut table);
    assert_eq!(told(&mut table, 62), [12, 0, 3, 3, 3, 2, 1, 1, 2]);
    play(&[request(PUT, b"a", b"6")], 50, &mut table);
    assert_eq!(told(&mut table, 63), [13, 1, 4, 4, 3, 2, 1, 1, 2]);
}

#[test]
fn the_time_since_the_first_call_served() {
    for first in [
        bare(PING),
        bare(STATS),
        request(GET, b"x", b""),
        bare(CLEAR),
    ] {
        let mut table = Table::default();
        assert_eq!(table.history.first, None);
        let mut stats = told(&mut table.clone(), 77);
        assert_eq!(stats[0], 0);
        play(&[first], 100, &mut table);
        assert_eq!(table.history.first, Some(100));
        for (second, time) in [
            (100, 0),
            (103, 3),
            (101, 1),
            (99, 0),
            (0, 0),
            (u32::MAX, 4_294_967_195),
        ] {
            stats = told(&mut table, second);
            assert_eq!(stats[0], time, "{second}");
        }
        assert_eq!(table.history.first, Some(100));
    }
}

#[test]
fn a_refused_step_counts_nowhere() {
    let elsewhere = |operation| Request {
        name: b"x".to_vec(),
        ..request(operation, b"k", b"v")
    };
    let mut table = table_of(128);
    let before = table.clone();
    let refused = [
        elsewhere(GET),
        elsewhere(PUT),
        elsewhere(REMOVE),
        elsewhere(PING),
        elsewhere(STATS),
        request(PUT, b"k", b"v"),
        request(PUT_IF_ABSENT, b"k", b"v"),
    ];
    play(&refused, 9, &mut table);
    assert_eq!(table, before);
    table.last = LARGEST;
    play(&[request(PUT, &[0, 0], b"v")], 9, &mut table);
    assert_eq!(table.history, History::default());
    assert_eq!(told(&mut table, 20), [0, 128, 0, 0, 0, 0, 0, 0, 0]);
    assert_eq!(table.history.first, Some(20));
}

#[test]
fn calls_that_are_not_served_are_no_first_call() {
    let mut table = Table::default();
    let mut room = [0; 512];
    let stats = bytes_of(&bare(STATS));
    for input in [&b""[..], b"\xa0", b"\xa1", &stats[..8], b"\xa0\x01\x0a\x1b"] {
        serve(input, &mut table, 4, &mut room);
    }
    serve(&stats, &mut table, 4, &mut room[..511]);
    serve_line(b"00000004 a0010a1500000100", &mut table);
    serve_line(b"00000004 a0010a15000001000000", &mut table);
    serve_line(b"00000004  a0010a150000010000", &mut table);
    assert_eq!(table, Table::default());
    let line = serve_line(b"00000004 a0010a150000010000", &mut table);
    assert_eq!(line, digits(&hex(FRESH)).into_bytes());
    assert_eq!(table.history.first, Some(4));
}

#[test]
fn each_count_stops_at_the_largest_vlong() {
    let calls = [
        request(PUT, b"k", b""),
        request(GET, b"k", b""),
        request(GET, b"x", b""),
        request(REMOVE, b"k", b""),
        request(REMOVE, b"k", b""),
    ];
    let mut table = Table::default();
    table.history.counts = [LARGEST - 1; 7];
    assert!(is_table(&table));
    play(&calls, 1, &mut table);
    assert_eq!(table.history.counts, [LARGEST; 7]);
    play(&calls, 1, &mut table);
    assert_eq!(table.history.counts, [LARGEST; 7]);
    assert!(is_table(&table));
    let mut table = Table::default();
    table.history.counts[3] = LARGEST;
    play(&calls, 1, &mut table);
    assert_eq!(table.history.counts, [1, 1, 2, LARGEST, 1, 1, 1]);
}

#[test]
fn a_greater_count_is_no_table() {
    for place in 0..7 {
        let mut table = table_of(1);
        table.history.counts[place] = LARGEST + 1;
        let before = table.clone();
        assert!(!is_table(&table));
        let answer = serve(&bytes_of(&bare(STATS)), &mut table, 1, &mut [0; 512]);
        assert_eq!(answer.verdict, Verdict::Refused(13));
        assert_eq!(table, before);
    }
}

#[test]
fn counts_and_a_first_second_need_not_fit_each_other() {
    let mut table = table_of(2);
    table.history.counts = [0, 9, 1, 7, 7, 0, 0];
    assert!(is_table(&table));
    table.history.first = Some(u64::from(u32::MAX));
    assert!(is_table(&table));
    assert_eq!(told(&mut table, 5), [0, 2, 0, 9, 1, 7, 7, 0, 0]);
}

#[test]
fn a_load_begins_the_counts_anew() {
    let mut table = Table::default();
    play(
        &[request(PUT, b"k", b"v"), request(GET, b"k", b"")],
        3,
        &mut table,
    );
    let file = store(&table);
    table.history.counts = [5; 7];
    assert_eq!(store(&table), file);
    let mut loaded = load(&file).unwrap();
    assert_eq!(loaded.history, History::default());
    assert_eq!(told(&mut loaded, 9), [0, 1, 0, 0, 0, 0, 0, 0, 0]);
}
