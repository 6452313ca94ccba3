//! Well-formed UTF-8 after the table of RFC 3629.

/// What the first byte of a sequence says: how many bytes the sequence has,
/// and the smallest and greatest second byte.
struct Kind {
    length: usize,
    low: u8,
    high: u8,
}

fn kind(first: u8) -> Option<Kind> {
    let (length, low, high) = match first {
        0x00..=0x7f => (1, 0x00, 0x00),
        0xc2..=0xdf => (2, 0x80, 0xbf),
        0xe0 => (3, 0xa0, 0xbf),
        0xe1..=0xec => (3, 0x80, 0xbf),
        0xed => (3, 0x80, 0x9f),
        0xee..=0xef => (3, 0x80, 0xbf),
        0xf0 => (4, 0x90, 0xbf),
        0xf1..=0xf3 => (4, 0x80, 0xbf),
        0xf4 => (4, 0x80, 0x8f),
        _ => return None,
    };
    Some(Kind { length, low, high })
}

/// The length of the sequence at the front of the bytes, or nothing if no
/// good sequence stands there.
fn sequence_length(bytes: &[u8]) -> Option<usize> {
    let kind = kind(*bytes.first()?)?;
    if kind.length >= 2 {
        let second = *bytes.get(1)?;
        if second < kind.low || second > kind.high {
            return None;
        }
    }
    for at in 2..kind.length {
        let byte = *bytes.get(at)?;
        if !(0x80..=0xbf).contains(&byte) {
            return None;
        }
    }
    Some(kind.length)
}

/// Whether the bytes are well-formed UTF-8.
pub fn is_text(bytes: &[u8]) -> bool {
    let mut at = 0;
    while at < bytes.len() {
        let Some(length) = sequence_length(&bytes[at..]) else {
            return false;
        };
        at += length;
    }
    true
}
