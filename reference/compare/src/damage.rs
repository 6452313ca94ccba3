//! Messages damaged: one byte changed, cut, doubled, followed by others, one
//! field broken.

use reference::statistics::NAMES;

use crate::chance::Chance;
use crate::fields::{join, Field, Kind};

/// Sequences that are no UTF-8, or are none when something else follows.
const BAD_TEXTS: [&[u8]; 22] = [
    &[0x80],
    &[0xbf],
    &[0xc3],
    &[0xff],
    &[0xfe],
    &[0xc0, 0x80],
    &[0xc1, 0xbf],
    &[0xc2, 0x7f],
    &[0xc2, 0xc0],
    &[0xe1, 0x80],
    &[0xe0, 0x9f, 0xbf],
    &[0xe1, 0x80, 0xc0],
    &[0xed, 0xa0, 0x80],
    &[0xed, 0xbf, 0xbf],
    &[0xef, 0xbf, 0x7f],
    &[0xf0, 0x90, 0x80],
    &[0xf0, 0x8f, 0xbf, 0xbf],
    &[0xf1, 0x80, 0x80, 0x7f],
    &[0xf1, 0x80, 0x7f, 0x80],
    &[0xf4, 0x90, 0x80, 0x80],
    &[0xf5, 0x80, 0x80, 0x80],
    &[0xf8, 0x88, 0x80, 0x80, 0x80],
];

/// Puts a bad sequence over some bytes of the text, as far as they go.
pub fn break_text(chance: &mut Chance, text: &mut [u8]) {
    let bad = chance.pick(&BAD_TEXTS);
    if text.is_empty() {
        return;
    }
    let start = match chance.below(3) {
        0 => text.len().saturating_sub(bad.len()),
        _ => chance.below(text.len()),
    };
    for (byte, other) in text[start..].iter_mut().zip(bad) {
        *byte = *other;
    }
}

/// A number that is too large, not shortest, not whole, or at an edge.
/// `most` is the most bytes that a good one has.
fn odd_number(chance: &mut Chance, good: &[u8], most: usize) -> Vec<u8> {
    let fill = chance.pick(&[0x80, 0xff, 0x81]);
    let mut bytes = vec![fill; most - 1];
    match chance.below(9) {
        0 => bytes.push(0x00),
        1 => bytes.push(0x01),
        2 => bytes.push(0x0f),
        3 => bytes.push(0x10),
        4 => bytes.push(0x7f),
        5 => bytes.push(chance.pick(&[0x80, 0xff])),
        6 => bytes = stretched(good),
        7 => bytes.truncate(chance.up_to(most - 1)),
        _ => bytes = vec![chance.byte(), chance.byte()],
    }
    bytes
}

/// The number with a further byte 00.
fn stretched(good: &[u8]) -> Vec<u8> {
    let mut bytes = good.to_vec();
    if let Some(last) = bytes.last_mut() {
        *last |= 0x80;
    }
    bytes.push(0);
    bytes
}

/// A length about its limit, far above it, or no good number.
fn odd_length(chance: &mut Chance, good: &[u8], limit: usize) -> Vec<u8> {
    let length = match chance.below(7) {
        0 => limit as u64,
        1 => (limit as u64 + 1).min(u64::from(u32::MAX)),
        2 => (2 * limit as u64).min(u64::from(u32::MAX)),
        3 => u64::from(u32::MAX),
        4 => chance.below(600) as u64,
        5 => limit.saturating_sub(1) as u64,
        _ => return odd_number(chance, good, 5),
    };
    let mut bytes = Vec::new();
    reference::write_number(length, &mut bytes);
    bytes
}

/// Gives one field another content.
pub fn break_field(chance: &mut Chance, fields: &mut [Field]) {
    let at = chance.below(fields.len());
    break_at(chance, fields, at);
}

/// Gives the field at this place another content.
pub fn break_at(chance: &mut Chance, fields: &mut [Field], at: usize) {
    let field = &mut fields[at];
    match field.kind {
        Kind::Byte | Kind::More => field.bytes = vec![odd_byte(chance, field.bytes[0])],
        Kind::Long => field.bytes = odd_number(chance, &field.bytes, 9),
        Kind::Int => field.bytes = odd_number(chance, &field.bytes, 5),
        Kind::Just(limit) | Kind::UpTo(limit) | Kind::Length(limit) => {
            field.bytes = odd_length(chance, &field.bytes, limit);
        }
        Kind::Eight | Kind::Key | Kind::Value => chance.fill(&mut field.bytes),
        Kind::Name | Kind::Text => break_text(chance, &mut field.bytes),
        Kind::Title => {
            let other = odd_title(chance, &field.bytes);
            replace(fields, at, other);
        }
        Kind::Decimal => {
            let other = odd_decimal(chance, &field.bytes);
            replace(fields, at, other);
        }
    }
}

/// Gives the field these bytes, and the field before it their length.
fn replace(fields: &mut [Field], at: usize, bytes: Vec<u8>) {
    fields[at - 1].bytes.clear();
    reference::write_number(bytes.len() as u64, &mut fields[at - 1].bytes);
    fields[at].bytes = bytes;
}

/// Another name than that of the statistic, at times one of another.
fn odd_title(chance: &mut Chance, good: &[u8]) -> Vec<u8> {
    let mut bytes = good.to_vec();
    match chance.below(7) {
        0 => bytes = chance.pick(&NAMES).as_bytes().to_vec(),
        1 => bytes = one_byte_changed(chance, good),
        2 => bytes.make_ascii_uppercase(),
        3 => drop(bytes.pop()),
        4 => bytes.resize(21 + chance.below(3), b's'),
        5 => break_text(chance, &mut bytes),
        _ => bytes.clear(),
    }
    bytes
}

/// Values at the edge of what is the shortest decimal of a vLong.
const ODD_DECIMALS: [&[u8]; 16] = [
    b"",
    b"0",
    b"00",
    b"01",
    b"+1",
    b"-0",
    b" 1",
    b"1 ",
    b"1e3",
    b"0x1",
    b"9223372036854775807",
    b"9223372036854775808",
    b"9999999999999999999",
    b"0000000000000000001",
    b"18446744073709551615",
    b"18446744073709551616",
];

fn odd_decimal(chance: &mut Chance, good: &[u8]) -> Vec<u8> {
    let mut bytes = good.to_vec();
    match chance.below(6) {
        0 => bytes.insert(0, b'0'),
        1 => bytes.push(b'0'),
        2 => break_text(chance, &mut bytes),
        3 => bytes = one_byte_changed(chance, good),
        _ => bytes = chance.pick(&ODD_DECIMALS).to_vec(),
    }
    bytes
}

fn odd_byte(chance: &mut Chance, byte: u8) -> u8 {
    match chance.below(5) {
        0 => byte.wrapping_add(1),
        1 => byte.wrapping_sub(1),
        2 => byte ^ 0x80,
        3 => chance.below(32) as u8,
        _ => chance.byte(),
    }
}

/// The message with one field broken, at times with two.
pub fn broken(chance: &mut Chance, fields: &[Field]) -> Vec<u8> {
    let mut fields = fields.to_vec();
    break_field(chance, &mut fields);
    if chance.one_in(4) {
        break_field(chance, &mut fields);
    }
    join(&fields)
}

pub fn one_byte_changed(chance: &mut Chance, bytes: &[u8]) -> Vec<u8> {
    let mut bytes = bytes.to_vec();
    if !bytes.is_empty() {
        let at = chance.below(bytes.len());
        bytes[at] = odd_byte(chance, bytes[at]);
    }
    bytes
}

pub fn cut(chance: &mut Chance, bytes: &[u8]) -> Vec<u8> {
    bytes[..chance.up_to(bytes.len())].to_vec()
}

/// Random bytes, often with the right first byte.
pub fn noise(chance: &mut Chance, magic: u8) -> Vec<u8> {
    let length = chance.up_to(60);
    let mut bytes = chance.bytes(length);
    if length > 0 && !chance.one_in(3) {
        bytes[0] = magic;
    }
    bytes
}

/// The message whole, and its damaged forms. `other` may follow it.
pub fn variants(chance: &mut Chance, fields: &[Field], other: &[u8]) -> Vec<Vec<u8>> {
    let whole = join(fields);
    let tail = chance.up_to(20);
    let mut all = vec![
        whole.clone(),
        [&whole[..], &whole].concat(),
        [&whole[..], other].concat(),
        [&whole[..], &chance.bytes(tail)].concat(),
        noise(chance, whole[0]),
    ];
    for _ in 0..3 {
        all.push(one_byte_changed(chance, &whole));
        all.push(broken(chance, fields));
        let bytes = broken(chance, fields);
        all.push(cut(chance, &bytes));
        all.push(cut(chance, &whole));
    }
    if chance.one_in(16) {
        all.extend((0..whole.len()).map(|at| whole[..at].to_vec()));
    }
    all
}
