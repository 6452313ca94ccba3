//! Version 20: its header, its flags, and the statuses that say whether an old
//! value follows.

use crate::help::*;
use reference::history::{REMOVE_HITS, REMOVE_MISSES, STORES, TOTAL};
use reference::operation::*;
use reference::*;

const OLD_VALUE: [u8; 6] = [
    PUT,
    PUT_IF_ABSENT,
    REPLACE,
    REPLACE_IF_UNMODIFIED,
    REMOVE,
    REMOVE_IF_UNMODIFIED,
];

fn two(request: Request) -> Request {
    Request {
        version: 20,
        ..request
    }
}

fn told(version: u8, op: u8, flag: bool) -> Asked {
    Asked { version, op, flag }
}

fn reply(op: u8, status: u8, value: &[u8]) -> Reply {
    Reply {
        id: 1,
        operation: op + 1,
        status,
        value: value.to_vec(),
        ..Reply::default()
    }
}

/// The reply's bytes to a request that is served from the table.
fn served(request: &Request, table: &mut Table) -> String {
    let mut room = [0; 512];
    let answer = serve(&bytes_of(request), table, 0, &mut room);
    assert_eq!(answer.verdict, Verdict::Served);
    digits(&room[..answer.reply_len])
}

#[test]
fn the_header_has_no_transaction_type() {
    let put = two(flagged(PUT, b"b1", b"Ida"));
    assert_eq!(
        digits(&bytes_of(&put)),
        "a001140100010100026231000003496461"
    );
    assert_eq!(digits(&bytes_of(&two(bare(PING)))), "a001141700000100");
    assert_eq!(
        read_request(&hex("a001141700000100")),
        Read::Whole(two(bare(PING)), 8)
    );
    // The byte of a transaction type belongs to what follows: here it is an empty key.
    let get = Read::Whole(two(request(GET, b"", b"")), 9);
    assert_eq!(read_request(&hex("a00114030000010000")), get);
    assert_eq!(read_request(&hex("a0010c1700000100")), Read::More);
}

#[test]
fn flags_are_0_to_31() {
    for flags in 0..=31u32 {
        let ping = Request {
            flags,
            ..two(bare(PING))
        };
        let form = hex(&format!("a0011417 00 {flags:02x} 01 00"));
        assert_eq!(bytes_of(&ping), form);
        assert_eq!(read_request(&form), Read::Whole(ping, 8));
    }
    for (form, refusal) in [
        ("a0011417 00 20 01 00", 8),
        ("a0011417 00 7f 01 00", 8),
        ("a0011417 00 8001 01 00", 8),
        ("a0011417 00 8000 01 00", 5),
        ("a0010c17 00 08 01 00 00", 8),
        ("a0010c17 00 10 01 00 00", 8),
        ("a0010b17 00 02 01 00 00", 8),
    ] {
        assert_eq!(read_request(&hex(form)), Read::Refused(refusal), "{form}");
    }
    let broken = Request {
        flags: 32,
        ..two(bare(PING))
    };
    assert_eq!(write_request(&broken, &mut [0; 100]), Err(16));
}

#[test]
fn versions_that_are_served() {
    for version in 0..=255u8 {
        let form = [0xa0, 1, version];
        let good = [10, 11, 12, 20].contains(&version);
        let expected = if good { Read::More } else { Read::Refused(3) };
        assert_eq!(read_request(&form), expected);
        let asked = told(version, PING, false);
        let expected = if good { Read::More } else { Read::Refused(3) };
        assert_eq!(read_reply(asked, b""), expected);
        // 3 is before 4, and both before any byte.
        let expected = Read::Refused(if good { 4 } else { 3 });
        for op in [0x00, 0x02, 0x1b, 0x1f, 0x50, 0xff] {
            assert_eq!(read_reply(told(version, op, true), b""), expected);
            assert_eq!(
                read_reply(told(version, op, true), &hex("a1015081000178")),
                expected
            );
        }
        let written = write_reply(asked, &reply(PING, 0, b""), &mut [0; 9]);
        assert_eq!(written, if good { Ok(5) } else { Err(16) });
        let error = error_reply(1, 9).unwrap();
        let written = write_reply(asked, &error, &mut [0; 100]).is_ok();
        assert_eq!(written, good);
    }
}

#[test]
fn keys_are_listed_from_12_on() {
    for (version, good) in [(10, false), (11, false), (12, true), (20, true)] {
        let form = hex("a1011e000000");
        let asked = told(version, BULK_GET_KEYS, false);
        let empty = reply(BULK_GET_KEYS, 0, b"");
        let expected = if good {
            Read::Whole(empty.clone(), 6)
        } else {
            Read::Refused(4)
        };
        assert_eq!(read_reply(asked, &form), expected);
        let written = write_reply(asked, &empty, &mut [0; 9]);
        assert_eq!(written, if good { Ok(6) } else { Err(16) });
        let bulk = Request {
            version,
            ..bare(BULK_GET_KEYS)
        };
        assert_eq!(write_request(&bulk, &mut [0; 50]).is_ok(), good);
    }
}

/// The statuses that the papers give to each operation, by version and flag.
fn listed(asked: Asked) -> Vec<u8> {
    let plain = match asked.op {
        PUT | CLEAR | STATS | PING | BULK_GET | BULK_GET_KEYS => vec![0],
        PUT_IF_ABSENT | REPLACE => vec![0, 1],
        REPLACE_IF_UNMODIFIED | REMOVE_IF_UNMODIFIED => vec![0, 1, 2],
        _ => vec![0, 2],
    };
    match (asked.version, asked.flag, asked.op) {
        (20, true, PUT) => vec![0, 3],
        (20, true, PUT_IF_ABSENT) => vec![0, 4],
        (20, true, REPLACE) => vec![1, 3],
        (20, true, REPLACE_IF_UNMODIFIED | REMOVE_IF_UNMODIFIED) => vec![2, 3, 4],
        (20, true, REMOVE) => vec![2, 3],
        _ => plain,
    }
}

#[test]
fn every_status_by_operation_version_and_flag() {
    for version in VERSIONS {
        for op in SERVED.into_iter().filter(|op| serves(version, *op)) {
            for flag in [false, true] {
                let asked = told(version, op, flag);
                for status in 0..=255u8 {
                    let good = listed(asked).contains(&status);
                    let form = [0xa1, 1, op + 1, status];
                    let expected = if good { Read::More } else { Read::Refused(8) };
                    assert_eq!(read_reply(asked, &form), expected, "{asked:?} {status}");
                    let written = write_reply(asked, &reply(op, status, b""), &mut [0; 512]);
                    assert_eq!(written.is_ok(), good, "{asked:?} {status}");
                }
            }
        }
    }
}

#[test]
fn the_old_value_follows_03_and_04_alone() {
    for op in OLD_VALUE {
        let asked = told(20, op, true);
        for status in listed(asked) {
            let front = format!("a101{:02x}{status:02x}00", op + 1);
            let with = reply(op, status, b"Ida");
            let bare = reply(op, status, b"");
            let mut out = [0; 300];
            if status < 3 {
                assert_eq!(read_reply(asked, &hex(&front)), Read::Whole(bare, 5));
                assert_eq!(write_reply(asked, &with, &mut out), Err(16));
                continue;
            }
            let form = hex(&format!("{front}03496461"));
            assert_eq!(read_reply(asked, &hex(&front)), Read::More);
            assert_eq!(read_reply(asked, &form), Read::Whole(with.clone(), 9));
            assert_eq!(write_reply(asked, &with, &mut out), Ok(9));
            assert_eq!(out[..9], form);
            assert_eq!(write_reply(asked, &bare, &mut out), Ok(6));
            let long = hex(&format!("{front}8102"));
            assert_eq!(read_reply(asked, &long), Read::Refused(6));
        }
    }
}

#[test]
fn replies_of_the_map_by_what_is_held() {
    // Operation, entry version, the reply where k is absent, and where it holds Ida.
    let calls = [
        (PUT, 0, "a101020000", "a10102030003496461"),
        (PUT_IF_ABSENT, 0, "a101060000", "a10106040003496461"),
        (REPLACE, 0, "a101080100", "a10108030003496461"),
        (REPLACE_IF_UNMODIFIED, 1, "a1010a0200", "a1010a030003496461"),
        (REPLACE_IF_UNMODIFIED, 2, "a1010a0200", "a1010a040003496461"),
        (REMOVE, 0, "a1010c0200", "a1010c030003496461"),
        (REMOVE_IF_UNMODIFIED, 1, "a1010e0200", "a1010e030003496461"),
        (REMOVE_IF_UNMODIFIED, 2, "a1010e0200", "a1010e040003496461"),
    ];
    for (op, entry_version, absent, present) in calls {
        let asked = Request {
            entry_version,
            ..two(flagged(op, b"k", b"x"))
        };
        assert_eq!(served(&asked, &mut Table::default()), absent);
        let mut table = table_with(b"Ida", 1, 1);
        assert_eq!(served(&asked, &mut table), present);
        // What the step leaves is what it leaves in version 12.
        let mut other = table_with(b"Ida", 1, 1);
        let twelve = Request {
            version: 12,
            ..asked.clone()
        };
        served(&twelve, &mut other);
        assert_eq!(table, other);
        // A held value of no bytes is told too.
        let mut empty = table_with(b"", 1, 1);
        assert_eq!(served(&asked, &mut empty), format!("{}00", &present[..10]));
    }
}

#[test]
fn without_the_flag_replies_are_those_of_12() {
    for op in OLD_VALUE {
        let asked = Request {
            entry_version: if sends_entry_version(op) { 1 } else { 0 },
            ..two(flagged(op, b"k", b"x"))
        };
        for flags in [0, 2, 8, 16, 30] {
            let plain = Request {
                flags,
                ..asked.clone()
            };
            let twelve = Request {
                version: 12,
                flags: 0,
                ..asked.clone()
            };
            let (mut one, mut two) = (table_with(b"Ida", 1, 1), table_with(b"Ida", 1, 1));
            assert_eq!(served(&plain, &mut one), served(&twelve, &mut two));
        }
    }
}

#[test]
fn flags_8_and_16_have_no_effect() {
    for flags in [0, 1, 2, 3, 4, 7] {
        for more in [8, 16, 24] {
            let put = |flags: u32| Request {
                flags,
                lifespan: 100,
                ..two(request(PUT, b"k", b"new"))
            };
            let (mut one, mut other) = (table_with(b"Ida", 1, 1), table_with(b"Ida", 1, 1));
            let reply = served(&put(flags), &mut one);
            assert_eq!(reply, served(&put(flags + more), &mut other));
            assert_eq!(one, other);
        }
    }
}

#[test]
fn other_operations_answer_as_in_12() {
    let mut table = table_with(b"Ida", 1, 1);
    for op in [
        GET,
        GET_WITH_VERSION,
        CONTAINS_KEY,
        STATS,
        PING,
        BULK_GET,
        BULK_GET_KEYS,
    ] {
        let twelve = Request {
            version: 12,
            ..flagged(op, b"k", b"")
        };
        let mut room = vec![0; 41_600];
        let mut other = vec![0; 41_600];
        serve(&bytes_of(&twelve), &mut table, 0, &mut room);
        serve(&bytes_of(&two(twelve)), &mut table, 0, &mut other);
        assert_eq!(room, other);
    }
}

#[test]
fn counts_take_03_as_00_and_04_as_01() {
    let mut table = Table::default();
    let put = two(flagged(PUT, b"k", b"v"));
    served(&put, &mut table);
    assert_eq!(served(&put, &mut table), "a1010203000176");
    assert_eq!(
        (table.history.counts[STORES], table.history.counts[TOTAL]),
        (2, 1)
    );
    served(&two(flagged(PUT_IF_ABSENT, b"k", b"v")), &mut table);
    assert_eq!(
        (table.history.counts[STORES], table.history.counts[TOTAL]),
        (2, 1)
    );
    let remove = two(flagged(REMOVE, b"k", b""));
    served(&remove, &mut table);
    served(&remove, &mut table);
    let counts = table.history.counts;
    assert_eq!((counts[REMOVE_HITS], counts[REMOVE_MISSES]), (1, 1));
}

#[test]
fn refusals_are_those_of_12() {
    let mut full = table_of(128);
    let mut room = [0; 512];
    let named = Request {
        name: b"x".to_vec(),
        ..two(flagged(PUT, b"k", b"v"))
    };
    for (request, number) in [(named, 9), (two(flagged(PUT, b"new", b"v")), 10)] {
        let form = bytes_of(&request);
        let answer = serve(&form, &mut full, 0, &mut room);
        assert_eq!(answer.verdict, Verdict::Refused(number));
        assert_eq!(answer.taken, form.len());
    }
    full.last = 9_223_372_036_854_775_807;
    let held = two(flagged(PUT, &[0, 0], b"v"));
    let answer = serve(&bytes_of(&held), &mut full, 0, &mut room);
    assert_eq!(answer.verdict, Verdict::Refused(11));
}

#[test]
fn versions_mix_in_a_stream_and_in_a_file() {
    let put = |version: u8, value: &[u8]| Request {
        version,
        ..flagged(PUT, b"k", value)
    };
    let requests = [
        put(12, b"one"),
        put(20, b"two"),
        put(10, b"three"),
        put(20, b"four"),
    ];
    let row: Vec<u8> = requests.iter().flat_map(bytes_of).collect();
    let mut room = [0; 1024];
    let mut table = Table::default();
    let answer = serve_stream(&row, &mut table, 0, &mut room);
    let expected = "a10102000000a101020300036f6e65a101020000 0374776f a1010203000574687265 65";
    assert_eq!(room[..answer.reply_len], hex(expected));
    let line = |request: &Request| format!("00000000 {}\n", digits(&bytes_of(request)));
    let file: String = requests.iter().map(line).collect();
    let said = "a10102000000\na101020300036f6e65\na1010200000374776f\na101020300057468726565\n";
    assert_eq!(serve_lines(file.as_bytes()), said.as_bytes());
}

#[test]
fn a_line_with_the_byte_of_a_transaction_type_is_no_frame() {
    let mut table = Table::default();
    assert_eq!(
        serve_line(b"00000000 a001141700000100", &mut table),
        b"a101180000"
    );
    assert_eq!(
        serve_line(b"00000000 a00114170000010000", &mut table),
        b"refused 15"
    );
    assert_eq!(
        serve_line(b"00000000 a0010c1700000100", &mut table),
        b"refused 15"
    );
}
