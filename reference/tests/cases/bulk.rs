use crate::help::*;
use reference::listing::{Listed, MOST_LISTED};
use reference::operation::*;
use reference::*;

/// The least room of the two bulk operations.
const ROOM: usize = 41_600;

/// The reply to a bulkGet with id 300, from a table with three entries: an
/// empty key with `Ida`, `b1` with no value, and `k` with 128 times 0x77.
const THREE: &str = "a1 ac02 1a 00 00 01 00 03 496461 01 02 6231 00 01 01 6b 8001 \
    7777777777777777777777777777777777777777777777777777777777777777 \
    7777777777777777777777777777777777777777777777777777777777777777 \
    7777777777777777777777777777777777777777777777777777777777777777 \
    7777777777777777777777777777777777777777777777777777777777777777 00";

/// The reply to a bulkGetKeys with id 300, from the same table.
const THREE_KEYS: &str = "a1 ac02 1e 00 00 01 00 01 02 6231 01 01 6b 00";

fn listed(key: &[u8], value: &[u8]) -> Listed {
    Listed {
        key: key.to_vec(),
        value: value.to_vec(),
    }
}

fn three() -> Vec<Listed> {
    vec![
        listed(b"", b"Ida"),
        listed(b"b1", b""),
        listed(b"k", &[0x77; 128]),
    ]
}

fn keys_of(entries: &[Listed]) -> Vec<Listed> {
    entries
        .iter()
        .map(|entry| listed(&entry.key, b""))
        .collect()
}

/// A table with the three, in an order of keys that is not that of versions.
fn table_of_three() -> Table {
    let mut table = Table {
        last: 9,
        ..Table::default()
    };
    let entries = [
        (&b""[..], &b"Ida"[..], 2),
        (b"b1", b"", 5),
        (b"k", &[0x77; 128], 8),
    ];
    for (key, value, version) in entries {
        table
            .entries
            .insert(key.to_vec(), entry(value, version, 77));
    }
    table
}

fn bulk_reply(operation: u8, id: u64, entries: Vec<Listed>) -> Reply {
    Reply {
        id,
        operation: operation + 1,
        entries,
        ..Reply::default()
    }
}

fn bulk(operation: u8, number: u32) -> Request {
    Request {
        bulk: number,
        ..bare(operation)
    }
}

fn elsewhere(operation: u8) -> Request {
    Request {
        name: b"x".to_vec(),
        ..bare(operation)
    }
}

/// A table with this many of the longest entries.
fn longest_table(count: u8) -> Table {
    let mut table = Table::default();
    for number in 0..count {
        table.last += 1;
        let mut key = vec![0xff; 64];
        key[0] = 0xff - number;
        table.entries.insert(key, entry(&[7; 256], table.last, 0));
    }
    table
}

fn entries_of(request: &Request, table: &mut Table) -> Vec<Listed> {
    step(request, 0, table).unwrap().entries
}

#[test]
fn requests_worked_out_by_hand() {
    let forms = [
        ("a0 01 0a 19 00 00 01 00 00 00", 10, BULK_GET, 0),
        ("a0 01 0b 19 00 00 01 00 00 7f", 11, BULK_GET, 127),
        ("a0 01 0c 19 00 00 01 00 00 8001", 12, BULK_GET, 128),
        ("a0 01 0c 19 00 00 01 00 00 8101", 12, BULK_GET, 129),
        (
            "a0 01 0a 19 00 00 01 00 00 ffffffff0f",
            10,
            BULK_GET,
            u32::MAX,
        ),
        ("a0 01 0c 1d 00 00 01 00 00 00", 12, BULK_GET_KEYS, 0),
        ("a0 01 0c 1d 00 00 01 00 00 01", 12, BULK_GET_KEYS, 1),
        ("a0 01 0c 1d 00 00 01 00 00 02", 12, BULK_GET_KEYS, 2),
    ];
    for (form, version, operation, number) in forms {
        let request = Request {
            version,
            ..bulk(operation, number)
        };
        let form = hex(form);
        assert_eq!(bytes_of(&request), form);
        for end in 0..form.len() {
            assert_eq!(read_request(&form[..end]), Read::More);
        }
        assert_eq!(read_request(&form), Read::Whole(request, form.len()));
    }
}

#[test]
fn requests_that_are_refused() {
    let read = |form: &str| read_request(&hex(form));
    assert_eq!(read("a0 01 0a 1d"), Read::Refused(4));
    assert_eq!(read("a0 01 0b 1d"), Read::Refused(4));
    assert_eq!(read("a0 01 0c 1d"), Read::More);
    assert_eq!(read("a0 01 0c 1a"), Read::Refused(4));
    assert_eq!(read("a0 01 0c 1e"), Read::Refused(4));
    let count = "a0 01 0a 19 00 00 01 00 00";
    assert_eq!(read(&format!("{count} 8000")), Read::Refused(5));
    assert_eq!(read(&format!("{count} ffffffff10")), Read::Refused(5));
    let scope = "a0 01 0c 1d 00 00 01 00 00";
    assert_eq!(read(&format!("{scope} 03")), Read::Refused(8));
    assert_eq!(read(&format!("{scope} 7f")), Read::Refused(8));
    assert_eq!(read(&format!("{scope} ffffffff0f")), Read::Refused(8));
    assert_eq!(read(&format!("{scope} 83")), Read::More);
    assert_eq!(read(&format!("{scope} 8300")), Read::Refused(5));
    assert_eq!(read(&format!("{scope} ffffffff10")), Read::Refused(5));
}

#[test]
fn requests_that_have_no_written_form() {
    let broken = [
        bulk(BULK_GET_KEYS, 3),
        bulk(BULK_GET_KEYS, u32::MAX),
        Request {
            version: 11,
            ..bulk(BULK_GET_KEYS, 0)
        },
        Request {
            version: 10,
            ..bulk(BULK_GET_KEYS, 0)
        },
        bulk(PING, 1),
        bulk(STATS, 1),
        Request {
            bulk: 1,
            ..request(GET, b"k", b"")
        },
        Request {
            key: b"k".to_vec(),
            ..bulk(BULK_GET, 0)
        },
        Request {
            value: b"v".to_vec(),
            ..bulk(BULK_GET, 0)
        },
        Request {
            entry_version: 1,
            ..bulk(BULK_GET_KEYS, 0)
        },
        Request {
            lifespan: 1,
            ..bulk(BULK_GET, 0)
        },
    ];
    for request in broken {
        assert_eq!(write_request(&request, &mut [0; 100]), Err(16));
        assert_eq!(write_request(&request, &mut []), Err(16));
        assert_eq!(step(&request, 0, &mut Table::default()), Err(16));
    }
}

#[test]
fn replies_worked_out_by_hand() {
    for (operation, form, entries) in [
        (BULK_GET, THREE, three()),
        (BULK_GET_KEYS, THREE_KEYS, keys_of(&three())),
        (BULK_GET, "a1 ac02 1a 00 00 00", vec![]),
        (BULK_GET_KEYS, "a1 ac02 1e 00 00 00", vec![]),
        (
            BULK_GET,
            "a1 ac02 1a 00 00 01 01 61 00 01 01 61 00 00",
            vec![listed(b"a", b""), listed(b"a", b"")],
        ),
    ] {
        let form = hex(form);
        let reply = bulk_reply(operation, 300, entries);
        let whole = Read::Whole(reply.clone(), form.len());
        for flag in [false, true] {
            assert_eq!(read_reply(asked(operation, flag), &form), whole);
            let behind = [&form[..], &[1, 2]].concat();
            assert_eq!(read_reply(asked(operation, flag), &behind), whole);
            let mut out = vec![0xee; form.len() + 3];
            let written = write_reply(asked(operation, flag), &reply, &mut out);
            assert_eq!(written, Ok(form.len()));
            assert_eq!(out, [&form[..], &[0xee; 3]].concat());
        }
        for end in 0..form.len() {
            assert_eq!(
                read_reply(asked(operation, false), &form[..end]),
                Read::More
            );
            let mut short = vec![0xee; end];
            let written = write_reply(asked(operation, false), &reply, &mut short);
            assert_eq!(written, Err(12));
            assert_eq!(short, vec![0xee; end]);
        }
    }
}

#[test]
fn replies_that_are_refused() {
    let read = |form: &str| read_reply(asked(BULK_GET, false), &hex(form));
    let front = "a1 01 1a 00 00";
    assert_eq!(read("a1 01 20"), Read::Refused(4));
    assert_eq!(read("a1 01 1e"), Read::Refused(4));
    assert_eq!(read("a1 01 1a 01"), Read::Refused(8));
    assert_eq!(read("a1 01 1a 02"), Read::Refused(8));
    assert_eq!(read("a1 01 1a 81"), Read::Refused(8));
    assert_eq!(read("a1 01 1a 00 01"), Read::Refused(8));
    assert_eq!(read(&format!("{front} 02")), Read::Refused(8));
    assert_eq!(read(&format!("{front} 80")), Read::Refused(8));
    assert_eq!(read(&format!("{front} ff")), Read::Refused(8));
    assert_eq!(read(&format!("{front} 01 41")), Read::Refused(6));
    assert_eq!(read(&format!("{front} 01 8000")), Read::Refused(5));
    assert_eq!(read(&format!("{front} 01 ffffffff10")), Read::Refused(5));
    assert_eq!(read(&format!("{front} 01 01 6b 8102")), Read::Refused(6));
    assert_eq!(read(&format!("{front} 01 01 6b 8000")), Read::Refused(5));
    assert_eq!(read(&format!("{front} 01 01 6b 00 02")), Read::Refused(8));
    assert_eq!(read(&format!("{front} 01 01 6b 00 01")), Read::More);
    let keys = |form: &str| read_reply(asked(BULK_GET_KEYS, false), &hex(form));
    assert_eq!(keys("a1 01 1a"), Read::Refused(4));
    assert_eq!(keys("a1 01 1e 02"), Read::Refused(8));
    assert_eq!(keys("a1 01 1e 00 00 01 41"), Read::Refused(6));
    assert_eq!(keys("a1 01 1e 00 00 01 01 6b 03"), Read::Refused(8));
    assert_eq!(keys("a1 01 1e 00 00 01 01 6b 01"), Read::More);
}

#[test]
fn an_error_reply_to_a_bulk_request() {
    let form = hex("a1 01 50 85 00 0d 6e6f2073756368206361636865");
    let error = error_reply(1, 9).unwrap();
    for operation in [BULK_GET, BULK_GET_KEYS] {
        assert_eq!(
            read_reply(asked(operation, true), &form),
            Read::Whole(error.clone(), form.len())
        );
        let with_entries = Reply {
            entries: three(),
            ..error.clone()
        };
        let written = write_reply(asked(operation, false), &with_entries, &mut [0; 600]);
        assert_eq!(written, Err(16));
    }
}

#[test]
fn the_129th_entry() {
    // A byte 1, a key length 0 and a value length 0; for keys a byte 1 and a
    // key length 0.
    for (operation, front, entry) in [
        (BULK_GET, "a1 01 1a 00 00", &[1, 0, 0][..]),
        (BULK_GET_KEYS, "a1 01 1e 00 00", &[1, 0]),
    ] {
        let mut form = hex(front);
        for _ in 0..MOST_LISTED {
            form.extend(entry);
        }
        assert_eq!(read_reply(asked(operation, false), &form), Read::More);
        let with = |byte: u8| [&form[..], &[byte]].concat();
        let whole = bulk_reply(operation, 1, vec![listed(b"", b""); 128]);
        assert_eq!(
            read_reply(asked(operation, false), &with(0)),
            Read::Whole(whole.clone(), form.len() + 1)
        );
        assert_eq!(
            read_reply(asked(operation, false), &with(1)),
            Read::Refused(6)
        );
        assert_eq!(
            read_reply(asked(operation, false), &with(2)),
            Read::Refused(8)
        );
        let mut out = vec![0; ROOM];
        let written = write_reply(asked(operation, false), &whole, &mut out);
        assert_eq!(written, Ok(form.len() + 1));
        assert_eq!(out[..=form.len()], with(0));
        let more = bulk_reply(operation, 1, vec![listed(b"", b""); 129]);
        assert_eq!(
            write_reply(asked(operation, false), &more, &mut out),
            Err(16)
        );
        assert_eq!(
            write_reply(asked(operation, false), &more, &mut []),
            Err(16)
        );
    }
}

#[test]
fn entries_that_have_no_written_form() {
    let mut out = vec![0xee; ROOM];
    for (operation, entry) in [
        (BULK_GET, listed(&[1; 65], b"")),
        (BULK_GET, listed(b"", &[1; 257])),
        (BULK_GET_KEYS, listed(&[1; 65], b"")),
        (BULK_GET_KEYS, listed(b"", b"v")),
    ] {
        let reply = bulk_reply(operation, 1, vec![entry]);
        assert_eq!(
            write_reply(asked(operation, false), &reply, &mut out),
            Err(16)
        );
    }
    for operation in [GET, STATS, PING] {
        let reply = bulk_reply(operation, 1, three());
        assert_eq!(
            write_reply(asked(operation, false), &reply, &mut out),
            Err(16)
        );
    }
    let value = Reply {
        value: b"v".to_vec(),
        ..bulk_reply(BULK_GET, 1, three())
    };
    assert_eq!(
        write_reply(asked(BULK_GET, false), &value, &mut out),
        Err(16)
    );
    assert_eq!(out, vec![0xee; ROOM]);
}

#[test]
fn the_longest_replies() {
    let mut table = longest_table(128);
    for (operation, length) in [(BULK_GET, 41_486), (BULK_GET_KEYS, 8_462)] {
        let request = Request {
            id: i64::MAX as u64,
            ..bulk(operation, 0)
        };
        let mut room = vec![0xee; ROOM];
        let answer = serve(&bytes_of(&request), &mut table, 1, &mut room);
        assert_eq!(
            (answer.verdict, answer.reply_len),
            (Verdict::Served, length)
        );
        assert!(room[length..].iter().all(|byte| *byte == 0xee));
        let Read::Whole(reply, _) = read_reply(asked(operation, false), &room) else {
            panic!("the reply is not read");
        };
        assert_eq!(reply.entries.len(), 128);
        let mut line = b"00000001 ".to_vec();
        line.extend(digits(&bytes_of(&request)).bytes());
        let answer = serve_line(&line, &mut table);
        assert_eq!(answer, digits(&room[..length]).into_bytes());
    }
}

#[test]
fn entries_ascend_by_version() {
    let mut table = table_of_three();
    assert_eq!(entries_of(&bulk(BULK_GET, 0), &mut table), three());
    // A write gives an entry the highest version.
    step(&request(PUT, b"", b"new"), 0, &mut table).unwrap();
    step(&request(PUT, b"a", b"x"), 0, &mut table).unwrap();
    let after = [
        listed(b"b1", b""),
        listed(b"k", &[0x77; 128]),
        listed(b"", b"new"),
        listed(b"a", b"x"),
    ];
    assert_eq!(entries_of(&bulk(BULK_GET, 0), &mut table), after);
    let keys = keys_of(&after);
    assert_eq!(entries_of(&bulk(BULK_GET_KEYS, 0), &mut table), keys);
}

#[test]
fn the_lowest_ones_if_fewer_are_asked_for() {
    for held in [0, 1, 2, 127, 128] {
        let mut table = table_of(held);
        let held = usize::from(held);
        let all = entries_of(&bulk(BULK_GET, 0), &mut table);
        assert_eq!(all.len(), held);
        for count in [1, 2, 126, 127, 128, 129, 130, 65_536, u32::MAX] {
            let some = entries_of(&bulk(BULK_GET, count), &mut table);
            assert_eq!(some, all[..held.min(count as usize)]);
        }
        for scope in 0..=2 {
            let keys = entries_of(&bulk(BULK_GET_KEYS, scope), &mut table);
            assert_eq!(keys, keys_of(&all));
        }
    }
}

#[test]
fn flags_change_nothing() {
    let mut table = table_of_three();
    for flags in 0..=7 {
        for operation in [BULK_GET, BULK_GET_KEYS] {
            let request = Request {
                version: 12,
                flags,
                id: 300,
                ..bulk(operation, 0)
            };
            let mut room = vec![0; ROOM];
            let answer = serve(&bytes_of(&request), &mut table, 9, &mut room);
            let form = if operation == BULK_GET {
                THREE
            } else {
                THREE_KEYS
            };
            assert_eq!(room[..answer.reply_len], hex(form));
        }
    }
}

#[test]
fn a_bulk_request_counts_nowhere_but_is_a_call_served() {
    for operation in [BULK_GET, BULK_GET_KEYS] {
        let mut table = table_of_three();
        let before = table.clone();
        step(&bulk(operation, 0), 40, &mut table).unwrap();
        assert_eq!(table.history.first, Some(40));
        assert_eq!(table.history.counts, [0; 7]);
        assert_eq!(contents(&table), before);
    }
}

#[test]
fn room_under_41600() {
    for request in [
        bulk(BULK_GET, 0),
        bulk(BULK_GET, 1),
        bulk(BULK_GET_KEYS, 2),
        elsewhere(BULK_GET),
        elsewhere(BULK_GET_KEYS),
    ] {
        let mut input = bytes_of(&request);
        let length = input.len();
        input.extend(b"behind");
        for room in [512, 513, 20_000, 41_599] {
            let mut table = Table::default();
            let mut reply = vec![0xee; room];
            let answer = serve(&input, &mut table, 3, &mut reply);
            let expected = Answer {
                taken: length,
                reply_len: 0,
                verdict: Verdict::Refused(12),
            };
            assert_eq!(answer, expected);
            assert_eq!(table, Table::default());
            assert_eq!(reply, vec![0xee; room]);
        }
        let mut reply = vec![0xee; 511];
        let answer = serve(&input, &mut Table::default(), 3, &mut reply);
        assert_eq!((answer.taken, answer.verdict), (0, Verdict::Refused(12)));
    }
}

#[test]
fn room_of_41600() {
    let mut room = vec![0xee; ROOM];
    let mut table = table_of(1);
    let served = serve(&bytes_of(&bulk(BULK_GET, 0)), &mut table, 3, &mut room);
    assert_eq!(served.verdict, Verdict::Served);
    assert_eq!(
        digits(&room[..served.reply_len]),
        "a1011a0000010200000176".to_string() + "00"
    );
    let input = bytes_of(&elsewhere(BULK_GET));
    let named = serve(&input, &mut table, 3, &mut room);
    assert_eq!(named.verdict, Verdict::Refused(9));
    assert_eq!(named.taken, input.len());
}

#[test]
fn the_order_of_refusals() {
    let mut bad = table_of(129);
    let whole = bytes_of(&elsewhere(BULK_GET));
    let mut room = vec![0; 600];
    let mut verdict = |input: &[u8], table: &mut Table, length: usize| {
        serve(input, table, 3, &mut room[..length]).verdict
    };
    assert_eq!(verdict(&whole, &mut bad, 511), Verdict::Refused(12));
    assert_eq!(verdict(&whole, &mut bad, 512), Verdict::Refused(13));
    let mut good = Table::default();
    let cut = &whole[..whole.len() - 1];
    assert_eq!(verdict(cut, &mut good, 512), Verdict::More);
    let scope = hex("a0 01 0c 1d 00 00 01 00 00 03");
    assert_eq!(verdict(&scope, &mut good, 512), Verdict::Refused(8));
    let number = hex("a0 01 0a 19 00 00 01 00 00 8000");
    assert_eq!(verdict(&number, &mut good, 512), Verdict::Refused(5));
    let version = hex("a0 01 0b 1d 00 00 01 00 00 00");
    assert_eq!(verdict(&version, &mut good, 512), Verdict::Refused(4));
    assert_eq!(verdict(&whole, &mut good, 512), Verdict::Refused(12));
    assert_eq!(good, Table::default());
}

/// A stream of these requests into so much room, and the replies.
fn streamed(requests: &[Request], room: usize) -> (StreamAnswer, Vec<u8>, Table) {
    let input: Vec<u8> = requests.iter().flat_map(bytes_of).collect();
    let mut table = table_of(1);
    let mut replies = vec![0xee; room];
    let answer = serve_stream(&input, &mut table, 3, &mut replies);
    let behind = replies.split_off(answer.reply_len);
    assert!(behind.iter().all(|byte| *byte == 0xee));
    (answer, replies, table)
}

const PONG: &str = "a101180000";
const ONE: &str = "a1011a0000010200000176";

fn stream_answer(
    taken: usize,
    reply_len: usize,
    answered: usize,
    verdict: Verdict,
) -> StreamAnswer {
    StreamAnswer {
        taken,
        reply_len,
        answered,
        verdict,
    }
}

#[test]
fn a_stream_with_room_for_all() {
    let requests = [bare(PING), bulk(BULK_GET, 0), bare(PING)];
    let (answer, replies, _) = streamed(&requests, 5 + ROOM);
    assert_eq!(answer, stream_answer(28, 22, 3, Verdict::More));
    assert_eq!(digits(&replies), format!("{PONG}{ONE}00{PONG}"));
}

#[test]
fn a_stream_ends_before_a_bulk_request_that_replies_left_no_room_for() {
    let requests = [bare(PING), bulk(BULK_GET, 0), bare(PING)];
    for room in [517, 600, 41_599, ROOM, 4 + ROOM] {
        let (answer, replies, table) = streamed(&requests, room);
        assert_eq!(answer, stream_answer(9, 5, 1, Verdict::Full));
        assert_eq!(digits(&replies), PONG);
        assert_eq!(table.history.first, Some(3));
    }
    // Less than 512 bytes are left behind the first reply.
    let (answer, _, _) = streamed(&requests, 516);
    assert_eq!(answer, stream_answer(9, 5, 1, Verdict::Full));
    // An error reply is a reply.
    let requests = [elsewhere(PING), elsewhere(BULK_GET_KEYS)];
    let (answer, _, _) = streamed(&requests, ROOM);
    assert_eq!(answer, stream_answer(10, 19, 1, Verdict::Full));
}

#[test]
fn a_stream_goes_on_after_a_bulk_request_whose_whole_room_is_too_small() {
    let requests = [
        bulk(BULK_GET, 0),
        bulk(BULK_GET_KEYS, 1),
        elsewhere(BULK_GET),
        bare(PING),
    ];
    for room in [512, 41_599] {
        let (answer, replies, table) = streamed(&requests[..3], room);
        assert_eq!(answer, stream_answer(31, 0, 0, Verdict::More));
        assert!(replies.is_empty());
        assert_eq!(table, table_of(1));
        let (answer, replies, _) = streamed(&requests, room);
        let last = if room == 512 {
            Verdict::Full
        } else {
            Verdict::More
        };
        assert_eq!(answer, stream_answer(40, 5, 1, last));
        assert_eq!(digits(&replies), PONG);
    }
    let (answer, _, _) = streamed(&requests, 511);
    assert_eq!(answer, stream_answer(0, 0, 0, Verdict::Refused(12)));
}

#[test]
fn a_changed_value_shows_only_in_its_own_entry() {
    let requests = |value: &[u8]| {
        [
            request(PUT, b"a", b"first"),
            request(PUT, b"b", value),
            request(PUT, b"c", b"third"),
            bulk(BULK_GET, 0),
            bulk(BULK_GET, 2),
            bulk(BULK_GET_KEYS, 0),
        ]
    };
    let (one, replies, _) = streamed(&requests(b"\x01\x00"), 3 * ROOM);
    let (two, others, _) = streamed(&requests(b"\xff\x01"), 3 * ROOM);
    assert_eq!(one, two);
    let differing: Vec<(u8, u8)> = replies
        .iter()
        .zip(&others)
        .filter(|(a, b)| a != b)
        .map(|(a, b)| (*a, *b))
        .collect();
    // The table held one entry before these, so two are that and `a`.
    assert_eq!(differing, [(1, 0xff), (0, 1)]);
}

#[test]
fn lines_never_meet_12() {
    let mut table = table_of_three();
    let line = serve_line(b"00000003 a0ac020a19000001000000", &mut table);
    assert_eq!(line, digits(&hex(THREE)).into_bytes());
    let line = serve_line(b"00000003 a0ac020c1d000001000002", &mut table);
    assert_eq!(line, digits(&hex(THREE_KEYS)).into_bytes());
    let line = serve_line(b"00000003 a0ac020a1900000100000001", &mut table);
    assert_eq!(line, b"refused 15");
    let line = serve_line(b"00000003 a0ac020b1d000001000002", &mut table);
    assert_eq!(line, b"a1ac025082000b62616420636f6d6d616e64");
}
