//! The order of keys as people count: a run of digits is a number, so that
//! berth/2 comes before berth/10; keys that are equal by that stand by their
//! bytes.

use std::cmp::Ordering;

/// Compares two keys.
pub fn compare(one: &[u8], other: &[u8]) -> Ordering {
    let (mut left, mut right) = (one, other);
    while let (Some(first), Some(second)) = (left.first(), right.first()) {
        let by_front = if first.is_ascii_digit() && second.is_ascii_digit() {
            by_number(take_number(&mut left), take_number(&mut right))
        } else {
            left = &left[1..];
            right = &right[1..];
            first.cmp(second)
        };
        if by_front.is_ne() {
            return by_front;
        }
    }
    let by_length = left.len().cmp(&right.len());
    by_length.then_with(|| one.cmp(other))
}

/// Takes the digits at the front; gives them without leading zeros.
fn take_number<'a>(bytes: &mut &'a [u8]) -> &'a [u8] {
    let is_other = |byte: &u8| !byte.is_ascii_digit();
    let end = bytes.iter().position(is_other).unwrap_or(bytes.len());
    let (digits, rest) = bytes.split_at(end);
    *bytes = rest;
    let zeros = digits.iter().take_while(|digit| **digit == b'0').count();
    &digits[zeros..]
}

fn by_number(one: &[u8], other: &[u8]) -> Ordering {
    one.len().cmp(&other.len()).then_with(|| one.cmp(other))
}

#[cfg(test)]
mod tests {
    use super::*;

    #[test]
    fn keys_stand_as_people_count() {
        let ordered: [&[u8]; 21] = [
            b"",
            b"1/2",
            b"01/10",
            b"1/10",
            b"2/1",
            b"9",
            b"10",
            b"a",
            b"a0",
            b"a00",
            b"a1b",
            b"a1b2",
            b"a01b3",
            b"a18446744073709551616",
            b"a18446744073709551617",
            b"ab",
            b"berth/2",
            b"berth/10",
            b"berth/10a",
            b"berth/x",
            b"\xc3\xa4",
        ];
        for (at, one) in ordered.iter().enumerate() {
            for (place, other) in ordered.iter().enumerate() {
                let (one_is, other_is) = (one.escape_ascii(), other.escape_ascii());
                assert_eq!(compare(one, other), at.cmp(&place), "{one_is} {other_is}");
            }
        }
    }
}
