//! The streams of several connections in one call.

use crate::help::*;
use reference::operation::*;
use reference::*;

/// The inputs end to end, and their ends.
fn joined(inputs: &[Vec<u8>]) -> (Vec<u8>, Vec<u64>) {
    let mut ends = Vec::new();
    let mut row = Vec::new();
    for input in inputs {
        row.extend_from_slice(input);
        ends.push(row.len() as u64);
    }
    (row, ends)
}

fn put(key: &[u8], value: &[u8]) -> Vec<u8> {
    bytes_of(&flagged(PUT, key, value))
}

/// Bytes taken, bytes sent and the verdict of each connection.
fn told(answers: &[StreamAnswer]) -> Vec<(usize, usize, Verdict)> {
    let of = |answer: &StreamAnswer| (answer.taken, answer.reply_len, answer.verdict);
    answers.iter().map(of).collect()
}

#[test]
fn each_is_a_stream_behind_the_others() {
    let bad = hex("ff00");
    let one = put(b"k", b"one");
    let cut = one[..5].to_vec();
    let inputs = [
        one.clone(),
        bad.clone(),
        Vec::new(),
        [one.clone(), cut].concat(),
        put(b"k", b"two"),
    ];
    let (row, ends) = joined(&inputs);
    let mut table = Table::default();
    let mut room = [0xee; 2000];
    let answers = serve_many(&row, &ends, &mut table, 3, &mut room).unwrap();
    let expected = [
        (one.len(), 6, Verdict::More),
        (0, 15, Verdict::Refused(1)),
        (0, 0, Verdict::More),
        (one.len(), 9, Verdict::More),
        (one.len(), 9, Verdict::More),
    ];
    assert_eq!(told(&answers), expected);
    let replies = "a10102000000 a10050810009626164206d61676963 a101020000036f6e65";
    let replies = format!("{replies} a101020000036f6e65");
    assert_eq!(room[..39], hex(&replies));
    assert!(room[39..].iter().all(|byte| *byte == 0xee));
    assert_eq!(table.entries[&b"k"[..]].value, b"two");
}

#[test]
fn ends_that_are_none() {
    let row = put(b"k", b"v");
    let size = row.len() as u64;
    let mut room = [0; 511];
    for ends in [
        &[size + 1][..],
        &[5, 4],
        &[0, size, size - 1],
        &[u64::MAX],
        &[1 << 32],
    ] {
        let mut table = table_with(b"v", 2, 1);
        let answer = serve_many(&row, ends, &mut table, 0, &mut room);
        assert_eq!(answer, Err(NotServed::Ends));
    }
    let mut wrong = table_with(b"v", 2, 1);
    let answer = serve_many(&row, &[], &mut wrong, 0, &mut room);
    assert_eq!(answer, Err(NotServed::Refused(12)));
    let mut room = [0; 512];
    let answer = serve_many(&row, &[size], &mut wrong, 0, &mut room);
    assert_eq!(answer, Err(NotServed::Refused(13)));
    assert_eq!(wrong, table_with(b"v", 2, 1));
    assert_eq!(room, [0; 512]);
    let mut table = Table::default();
    assert_eq!(
        serve_many(&row, &[], &mut table, 0, &mut room),
        Ok(Vec::new())
    );
    let answers = serve_many(&row, &[0, 0], &mut table, 0, &mut room).unwrap();
    assert_eq!(told(&answers), [(0, 0, Verdict::More); 2]);
    assert_eq!(table, Table::default());
}

#[test]
fn who_finds_no_room_waits() {
    let get = bytes_of(&request(GET, b"k", b""));
    let inputs = vec![get.clone(); 4];
    let (row, ends) = joined(&inputs);
    let size = 5 + 2 + 200;
    let mut table = table_with(&[7; 200], 1, 1);
    let mut room = vec![0; 512 + size];
    let answers = serve_many(&row, &ends, &mut table, 0, &mut room).unwrap();
    let full = (0, 0, Verdict::Full);
    let one = (get.len(), size, Verdict::More);
    // The second call of the first connection's stream has still room enough.
    assert_eq!(
        told(&answers),
        [one, (get.len(), size, Verdict::Full), full, full]
    );
}

#[test]
fn a_bulk_request_waits_behind_others_and_is_refused_where_nothing_is_sent() {
    let bulk = bytes_of(&bare(BULK_GET));
    let ping = bytes_of(&bare(PING));
    let both = [bulk.clone(), ping.clone()].concat();
    let (row, ends) = joined(&[both.clone(), both.clone(), ping.clone()]);
    let mut table = Table::default();
    let mut room = vec![0; 41_600];
    let answers = serve_many(&row, &ends, &mut table, 0, &mut room).unwrap();
    let expected = [
        (both.len(), 11, Verdict::More),
        (0, 0, Verdict::Full),
        (ping.len(), 5, Verdict::More),
    ];
    assert_eq!(told(&answers), expected);
    // The whole buffer is too small: the first one is taken and refused 12.
    let (row, ends) = joined(&[bulk.clone(), bulk.clone(), ping.clone(), bulk.clone()]);
    let mut room = vec![0; 41_599];
    let answers = serve_many(&row, &ends, &mut table, 0, &mut room).unwrap();
    let expected = [
        (bulk.len(), 0, Verdict::More),
        (bulk.len(), 0, Verdict::More),
        (ping.len(), 5, Verdict::More),
        (0, 0, Verdict::Full),
    ];
    assert_eq!(told(&answers), expected);
}
