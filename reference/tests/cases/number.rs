use crate::help::{digits, hex};
use reference::{read_number, write_number, Read};

fn vint(digits: &str) -> Read<u64> {
    read_number(&hex(digits), 5)
}

fn vlong(digits: &str) -> Read<u64> {
    read_number(&hex(digits), 9)
}

fn written(number: u64) -> String {
    let mut out = Vec::new();
    write_number(number, &mut out);
    digits(&out)
}

#[test]
fn cases_at_the_edges() {
    let cases = [
        (0, "00"),
        (127, "7f"),
        (128, "8001"),
        (16_383, "ff7f"),
        (16_384, "808001"),
        (4_294_967_295, "ffffffff0f"),
    ];
    for (number, form) in cases {
        assert_eq!(vint(form), Read::Whole(number, form.len() / 2));
        assert_eq!(vlong(form), Read::Whole(number, form.len() / 2));
        assert_eq!(written(number), form);
    }
    assert_eq!(vint("ffffffff10"), Read::Refused(5));
    assert_eq!(vint("8000"), Read::Refused(5));
    assert_eq!(vint("80"), Read::More);
    assert_eq!(vlong("8000"), Read::Refused(2));
    assert_eq!(vlong("80"), Read::More);
    let largest = "ffffffffffffffff7f";
    assert_eq!(vlong(largest), Read::Whole(9_223_372_036_854_775_807, 9));
    assert_eq!(written(9_223_372_036_854_775_807), largest);
}

#[test]
fn the_fifth_and_the_ninth_byte() {
    assert_eq!(vint("8080808080"), Read::Refused(5));
    assert_eq!(vint("ffffffffff"), Read::Refused(5));
    assert_eq!(vint("8080808000"), Read::Refused(5));
    assert_eq!(vint("808080808001"), Read::Refused(5));
    assert_eq!(vint("80808080"), Read::More);
    assert_eq!(vint("8080808001"), Read::Whole(1 << 28, 5));
    assert_eq!(vint("808080800f"), Read::Whole(15 << 28, 5));
    assert_eq!(vlong("ffffffffffffffff80"), Read::Refused(2));
    assert_eq!(vlong("ffffffffffffffffff01"), Read::Refused(2));
    assert_eq!(vlong("808080808080808000"), Read::Refused(2));
    assert_eq!(vlong("8080808080808080"), Read::More);
    assert_eq!(vlong("808080808080808001"), Read::Whole(1 << 56, 9));
    assert_eq!(
        vlong("ffffffff10"),
        Read::Whole((16 << 28) + (1 << 28) - 1, 5)
    );
}

#[test]
fn bytes_behind_a_number_are_not_used() {
    assert_eq!(vint("0000"), Read::Whole(0, 1));
    assert_eq!(vint("800100"), Read::Whole(128, 2));
    assert_eq!(vint(""), Read::More);
    assert_eq!(vlong(""), Read::More);
}

#[test]
fn every_written_number_reads_back() {
    let mut numbers = vec![0, u64::from(u32::MAX), i64::MAX as u64];
    for shift in 0..63 {
        numbers.extend([(1u64 << shift) - 1, 1 << shift, (1 << shift) + 1]);
    }
    for number in numbers {
        let mut out = Vec::new();
        write_number(number, &mut out);
        assert_eq!(read_number(&out, 9), Read::Whole(number, out.len()));
        if number <= u64::from(u32::MAX) {
            assert_eq!(read_number(&out, 5), Read::Whole(number, out.len()));
        }
        for end in 0..out.len() {
            assert_eq!(read_number(&out[..end], 9), Read::More);
        }
    }
}

#[test]
fn a_whole_number_of_up_to_three_bytes_is_written_as_read() {
    for a in 0..=255u8 {
        for b in 0..=255u8 {
            for c in [0u8, 1, 0x7f, 0x80, 0xff] {
                if let Read::Whole(number, taken) = read_number(&[a, b, c], 5) {
                    let mut out = Vec::new();
                    write_number(number, &mut out);
                    assert_eq!(out, [a, b, c][..taken]);
                }
            }
        }
    }
}
