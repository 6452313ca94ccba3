use crate::help::*;
use reference::operation::*;
use reference::{error_reply, serve, write_reply, Answer, Request, Table, Verdict};

/// Serves with room 512 and gives the answer and the reply's digits. The
/// bytes behind the reply must be kept.
fn call(input: &[u8], table: &mut Table, second: u32) -> (Answer, String) {
    let mut room = [0xee; 512];
    let answer = serve(input, table, second, &mut room);
    assert!(room[answer.reply_len..].iter().all(|byte| *byte == 0xee));
    (answer, digits(&room[..answer.reply_len]))
}

fn verdict(form: &str, table: &mut Table) -> (Verdict, usize, String) {
    let (answer, reply) = call(&hex(form), table, 0);
    (answer.verdict, answer.taken, reply)
}

#[test]
fn a_served_request_takes_its_own_bytes() {
    let mut table = Table::default();
    let form = "a0020a010000010000026231640003496461 ffff";
    let (answer, reply) = call(&hex(form), &mut table, 4);
    let expected = Answer {
        taken: 18,
        reply_len: 5,
        verdict: Verdict::Served,
    };
    assert_eq!((answer, reply.as_str()), (expected, "a102020000"));
    assert_eq!(table.entries[&b"b1"[..]], entry(b"Ida", 1, 104));
}

#[test]
fn refusals_1_to_8_take_nothing_and_send_the_error() {
    let cases = [
        (1, 0, "a1"),
        (2, 0, "a08000"),
        (2, 0, "a0ffffffffffffffffff"),
        (3, 128, "a080010d"),
        (4, 128, "a080010a1b"),
        (5, 128, "a080010a178000"),
        (6, 128, "a080010a1721"),
        (7, 128, "a080010a1701c3"),
        (8, 128, "a080010a170002"),
    ];
    for (number, id, form) in cases {
        let mut table = table_of(3);
        let (verdict, taken, reply) = verdict(form, &mut table);
        assert_eq!((verdict, taken), (Verdict::Refused(number), 0));
        assert_eq!(table, table_of(3));
        let mut out = [0; 512];
        let error = error_reply(id, number).unwrap();
        let length = write_reply(asked(PING, false), &error, &mut out).unwrap();
        assert_eq!(reply, digits(&out[..length]));
    }
}

#[test]
fn the_error_of_a_bad_magic() {
    let (_, _, reply) = verdict("a1", &mut Table::default());
    assert_eq!(reply, "a10050810009626164206d61676963");
}

#[test]
fn refusals_9_to_11_take_the_request() {
    let named = Request {
        name: b"a".to_vec(),
        ..bare(PING)
    };
    let put = request(PUT, b"new", b"v");
    let mut used_up = table_with(b"v", 1, i64::MAX as u64);
    for (number, given, table) in [
        (9, named, &mut Table::default()),
        (10, put.clone(), &mut table_of(128)),
        (11, put, &mut used_up),
    ] {
        let before = table.clone();
        let mut input = bytes_of(&given);
        let length = input.len();
        input.push(0);
        let (answer, reply) = call(&input, table, 0);
        assert_eq!(
            (answer.verdict, answer.taken),
            (Verdict::Refused(number), length)
        );
        assert_eq!(*table, before);
        assert!(reply.starts_with("a1015085"));
    }
}

#[test]
fn room_comes_first_then_the_table_then_the_bytes() {
    let refused = |number| Answer {
        taken: 0,
        reply_len: 0,
        verdict: Verdict::Refused(number),
    };
    let ping = bytes_of(&bare(PING));
    for input in [&b""[..], &ping, b"\xff"] {
        let mut short = [3; 511];
        assert_eq!(
            serve(input, &mut Table::default(), 0, &mut short),
            refused(12)
        );
        assert_eq!(serve(input, &mut table_of(129), 0, &mut short), refused(12));
        assert_eq!(short, [3; 511]);
        let mut enough = [3; 512];
        assert_eq!(
            serve(input, &mut table_of(129), 0, &mut enough),
            refused(13)
        );
        assert_eq!(enough, [3; 512]);
    }
}

#[test]
fn every_beginning_of_a_request_is_more_needed() {
    let given = Request {
        lifespan: 300,
        ..versioned(REPLACE_IF_UNMODIFIED, &[1; 64], &[2; 256], 1)
    };
    let bytes = bytes_of(&given);
    let mut table = table_of(3);
    for end in 0..bytes.len() {
        let (answer, reply) = call(&bytes[..end], &mut table, 9);
        assert_eq!((answer.verdict, answer.taken), (Verdict::More, 0));
        assert_eq!(reply, "");
    }
    assert_eq!(table, table_of(3));
}

#[test]
fn a_further_call_on_a_refused_row_is_refused_again() {
    let mut table = Table::default();
    let first = verdict("a1", &mut table);
    assert_eq!(verdict("a1", &mut table), first);
}

#[test]
fn the_longest_reply_is_sent_whole() {
    let mut table = table_with(&[0xff; 256], 1, 1);
    let given = Request {
        id: i64::MAX as u64,
        ..request(GET_WITH_VERSION, b"k", b"")
    };
    let (answer, _) = call(&bytes_of(&given), &mut table, 0);
    assert_eq!((answer.reply_len, answer.verdict), (279, Verdict::Served));
}

#[test]
fn flags_without_meaning_add_no_old_value() {
    let mut table = table_with(b"v", 1, 1);
    let (_, reply) = call(&bytes_of(&flagged(CONTAINS_KEY, b"k", b"")), &mut table, 0);
    assert_eq!(reply, "a101100000");
    let (_, reply) = call(&bytes_of(&flagged(GET, b"k", b"")), &mut table, 0);
    assert_eq!(reply, "a1010400000176");
    let (_, reply) = call(&bytes_of(&flagged(CLEAR, b"", b"")), &mut table, 0);
    assert_eq!(reply, "a101140000");
    let (_, reply) = call(&bytes_of(&flagged(PING, b"", b"")), &mut table, 0);
    assert_eq!(reply, "a101180000");
}

#[test]
fn the_flag_for_the_old_value_is_the_lowest_bit_alone() {
    for flags in 0..=7 {
        let mut table = table_with(b"v", 1, 1);
        let given = Request {
            version: 12,
            flags,
            ..request(PUT, b"k", b"w")
        };
        let (_, reply) = call(&bytes_of(&given), &mut table, 0);
        let expected = if flags % 2 == 1 {
            "a1010200000176"
        } else {
            "a101020000"
        };
        assert_eq!(reply, expected);
    }
}
