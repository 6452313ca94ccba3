use crate::help::*;
use reference::operation::*;
use reference::{load, serve_line, serve_lines, serve_reader, store, Request, Table};
use std::io::BufReader;

fn line(text: &str) -> String {
    let mut table = Table::default();
    String::from_utf8(serve_line(text.as_bytes(), &mut table)).unwrap()
}

fn lines(text: &str) -> String {
    String::from_utf8(serve_lines(text.as_bytes())).unwrap()
}

/// The streaming server, with a read buffer of this many bytes.
fn streamed(file: &[u8], buffer: usize) -> (Vec<u8>, Table) {
    let mut table = Table::default();
    let mut out = Vec::new();
    let mut input = BufReader::with_capacity(buffer, file);
    serve_reader(&mut input, &mut out, &mut table).unwrap();
    (out, table)
}

#[test]
fn the_five_lines() {
    assert_eq!(lines(FIVE_REQUESTS), FIVE_REPLIES);
    for buffer in [1, 2, 7, 4096] {
        let (out, table) = streamed(FIVE_REQUESTS.as_bytes(), buffer);
        assert_eq!(out, FIVE_REPLIES.as_bytes());
        assert_eq!(store(&table), FIVE_STORED.as_bytes());
    }
}

/// Puts for 2,592,000 and for 2,592,001 seconds at the last second: the first
/// is a span, the second a date, which is past. The third has a date and flag
/// 0x0002.
#[test]
fn a_span_and_a_date_at_the_last_second() {
    let file = "\
ffffffff a0010a0100000100000162809a9e01000100
ffffffff a0010a0100000100000163819a9e01000100
ffffffff a0010c0100020100000164819a9e01000100
";
    let stored = "\
010000000000000003
00000000000000010000000100278cff01620100
0000000000000003000000000000000001640100
";
    let (out, table) = streamed(file.as_bytes(), 100);
    assert_eq!(out, b"a101020000\na101020000\na101020000\n");
    assert_eq!(store(&table), stored.as_bytes());
    assert_eq!(load(stored.as_bytes()), Some(contents(&table)));
}

#[test]
fn lines_not_of_the_form() {
    let ping = "a0010a170000010000";
    assert_eq!(line(&format!("00000000 {ping}")), "a101180000");
    assert_eq!(line(&format!("ffffffff {ping}")), "a101180000");
    let bad = [
        String::new(),
        "00000000".to_string(),
        "0000000 ".to_string(),
        format!("0000000 {ping}"),
        format!("000000000 {ping}"),
        format!("00000000{ping}"),
        format!("00000000  {ping}"),
        format!(" 00000000 {ping}"),
        format!("00000000 {ping} "),
        format!("00000000\t{ping}"),
        format!("00000000 {ping}\r"),
        format!("00000000 {ping}0"),
        format!("0000000A {ping}"),
        format!("0000000g {ping}"),
        "00000000 A0010a170000010000".to_string(),
        "00000000 a0 010a170000010000".to_string(),
        format!("\u{feff}00000000 {ping}"),
        format!("00000000 {ping}\0\0"),
        format!("00000000 {ping}é"),
    ];
    for text in bad {
        assert_eq!(line(&text), "refused 14", "{text:?}");
    }
    assert_eq!(
        serve_line(b"\xff\xfe", &mut Table::default()),
        b"refused 14"
    );
}

#[test]
fn lines_that_are_not_one_frame() {
    assert_eq!(line("00000000 "), "refused 15");
    assert_eq!(line("00000000 a0"), "refused 15");
    assert_eq!(line("00000000 a0010a17000001000000"), "refused 15");
    assert_eq!(line("00000000 a0010a17000001"), "refused 15");
}

#[test]
fn the_order_is_14_then_1_to_8_then_15_then_the_rest() {
    assert_eq!(line("00000000 a1A"), "refused 14");
    assert_eq!(line("00000000 a1ffff"), "a10050810009626164206d61676963");
    assert_eq!(
        line("00000000 a0010a1701c3"),
        "a10150840008626164 2074657874".replace(' ', "")
    );
    let named = "a0010a170161000100 00".replace(' ', "");
    assert_eq!(
        line(&format!("00000000 {named}")),
        "a1015085000d6e6f2073756368206361636865"
    );
    assert_eq!(line(&format!("00000000 {named}00")), "refused 15");
    assert_eq!(line(&format!("00000000 {}", &named[..16])), "refused 15");
}

#[test]
fn a_line_refused_15_changes_nothing() {
    let mut table = Table::default();
    let put = "00000004 a0020a010000010000026231640003496461";
    assert_eq!(
        serve_line(format!("{put}00").as_bytes(), &mut table),
        b"refused 15"
    );
    assert_eq!(table, Table::default());
    assert_eq!(serve_line(put.as_bytes(), &mut table), b"a102020000");
    assert_eq!(table.last, 1);
}

#[test]
fn the_next_line_is_served_whatever_came_before() {
    let ping = "00000000 a0010a170000010000";
    let file = format!("{ping}\n00000000 a1\n{ping}\n\nx\n{ping}\n00000000 a0\n{ping}");
    let expected = "a101180000\na10050810009626164206d61676963\na101180000\nrefused 14\n\
                    refused 14\na101180000\nrefused 15\na101180000\n";
    assert_eq!(lines(&file), expected);
}

#[test]
fn line_ends_and_the_last_line() {
    assert_eq!(lines(""), "");
    assert_eq!(lines("\n"), "refused 14\n");
    assert_eq!(lines("\n\n"), "refused 14\nrefused 14\n");
    assert_eq!(lines("x"), "refused 14\n");
    let ping = "00000000 a0010a170000010000";
    assert_eq!(lines(ping), "a101180000\n");
    assert_eq!(lines(&format!("{ping}\n")), "a101180000\n");
    assert_eq!(
        lines(&format!("{ping}\r\n{ping}")),
        "refused 14\na101180000\n"
    );
}

#[test]
fn the_limit_of_1024_characters() {
    let padded = |length: usize| format!("00000000 a1{}", "0".repeat(length - 11));
    assert_eq!(line(&padded(1023)), "a10050810009626164206d61676963");
    assert_eq!(line(&padded(1024)), "refused 14");
    assert_eq!(line(&padded(1025)), "refused 14");
    let file = format!("{}\n{}\n{}", padded(1025), padded(5001), padded(1023));
    let expected = "refused 14\nrefused 14\na10050810009626164206d61676963\n";
    assert_eq!(lines(&file), expected);
    for buffer in [1, 1000, 1024, 1025, 1026, 8192] {
        assert_eq!(streamed(file.as_bytes(), buffer).0, expected.as_bytes());
    }
}

#[test]
fn the_longest_request_is_a_line() {
    let given = Request {
        id: i64::MAX as u64,
        version: 12,
        name: vec![b'n'; 32],
        flags: 7,
        topology: u32::MAX,
        lifespan: u32::MAX,
        max_idle: u32::MAX,
        ..versioned(REPLACE_IF_UNMODIFIED, &[0; 64], &[0; 256], 0)
    };
    let text = format!("00000000 {}", digits(&bytes_of(&given)));
    assert!(line(&text).ends_with("6e6f2073756368206361636865"));
}

#[test]
fn both_line_servers_agree() {
    let files = [
        "",
        "\n",
        "x",
        "x\n",
        "\nx",
        "\r\n",
        "00000000 \n\n00000000 a1",
        FIVE_REQUESTS,
    ];
    for file in files {
        for buffer in [1, 3, 100] {
            assert_eq!(
                streamed(file.as_bytes(), buffer).0,
                serve_lines(file.as_bytes())
            );
        }
    }
}
