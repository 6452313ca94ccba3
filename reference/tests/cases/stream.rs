use crate::help::*;
use reference::operation::*;
use reference::{serve_stream, Request, StreamAnswer, Table, Verdict};

fn row(requests: &[Request]) -> Vec<u8> {
    requests.iter().flat_map(bytes_of).collect()
}

fn named(name: &[u8]) -> Request {
    Request {
        name: name.to_vec(),
        ..bare(PING)
    }
}

#[test]
fn all_requests_are_served_and_then_more_is_needed() {
    let requests = [
        request(PUT, b"a", b"1"),
        flagged(PUT, b"a", b"2"),
        request(GET_WITH_VERSION, b"a", b""),
        bare(CLEAR),
        bare(PING),
    ];
    let input = row(&requests);
    let mut table = Table::default();
    let mut replies = [0xee; 2048];
    let answer = serve_stream(&input, &mut table, 3, &mut replies);
    let expected = "a101020000 a1010200000131 a10112000000000000000000020132 a101140000 a101180000";
    assert_eq!(
        digits(&replies[..answer.reply_len]),
        expected.replace(' ', "")
    );
    assert!(replies[answer.reply_len..].iter().all(|byte| *byte == 0xee));
    assert_eq!((answer.taken, answer.answered), (input.len(), 5));
    assert_eq!(answer.verdict, Verdict::More);
    assert_eq!((table.entries.len(), table.last), (0, 2));
}

#[test]
fn goes_on_after_9_and_stops_after_1_to_8() {
    let mut input = row(&[named(b"x"), request(PUT, b"a", b"1")]);
    let good = input.len();
    input.extend(hex("a0010a1701c3"));
    input.extend(bytes_of(&bare(CLEAR)));
    let mut table = Table::default();
    let mut replies = [0; 2048];
    let answer = serve_stream(&input, &mut table, 0, &mut replies);
    assert_eq!((answer.taken, answer.answered), (good, 3));
    assert_eq!(answer.verdict, Verdict::Refused(7));
    assert_eq!(table.last, 1);
    assert_eq!(table.entries.len(), 1);
}

#[test]
fn stops_when_the_room_runs_out() {
    let input = row(&[bare(PING), bare(PING), bare(PING)]);
    let mut replies = [0; 517];
    let answer = serve_stream(&input, &mut Table::default(), 0, &mut replies);
    let expected = StreamAnswer {
        taken: 18,
        reply_len: 10,
        answered: 2,
        verdict: Verdict::Full,
    };
    assert_eq!(answer, expected);
    let none = serve_stream(&input, &mut Table::default(), 0, &mut []);
    assert_eq!((none.taken, none.reply_len, none.answered), (0, 0, 0));
    assert_eq!(none.verdict, Verdict::Refused(12));
}

#[test]
fn a_changed_value_shows_only_where_that_value_is_sent() {
    let requests = |value: &[u8]| {
        row(&[
            request(PUT, b"a", b"first"),
            flagged(PUT, b"b", value),
            request(GET, b"a", b""),
            request(GET, b"b", b""),
            flagged(PUT, b"a", b"again"),
        ])
    };
    let mut one = Table::default();
    let mut other = Table::default();
    let mut one_room = [0; 2048];
    let mut other_room = [0; 2048];
    let first = serve_stream(&requests(b"\xa0\x01\x0a\x17"), &mut one, 5, &mut one_room);
    let second = serve_stream(
        &requests(b"\x00\xff\x80\x80"),
        &mut other,
        5,
        &mut other_room,
    );
    assert_eq!(first, second);
    let differing = one_room
        .iter()
        .zip(&other_room)
        .filter(|(a, b)| a != b)
        .count();
    assert_eq!(differing, 4);
    one.entries.get_mut(&b"b"[..]).unwrap().value = b"\x00\xff\x80\x80".to_vec();
    assert_eq!(one, other);
}
