//! Lowercase hexadecimal digits.

/// The value of one lowercase digit.
fn digit_value(digit: u8) -> Option<u8> {
    match digit {
        b'0'..=b'9' => Some(digit - b'0'),
        b'a'..=b'f' => Some(digit - b'a' + 10),
        _ => None,
    }
}

/// The bytes that the digits say. Nothing if their number is odd or one of
/// them is not a lowercase digit.
pub fn from_digits(digits: &[u8]) -> Option<Vec<u8>> {
    if digits.len() % 2 != 0 {
        return None;
    }
    let mut bytes = Vec::with_capacity(digits.len() / 2);
    for pair in digits.chunks(2) {
        bytes.push(digit_value(pair[0])? * 16 + digit_value(pair[1])?);
    }
    Some(bytes)
}

/// Two lowercase digits for each byte.
pub fn to_digits(bytes: &[u8]) -> Vec<u8> {
    let digits = b"0123456789abcdef";
    let mut out = Vec::with_capacity(bytes.len() * 2);
    for byte in bytes {
        out.push(digits[usize::from(byte / 16)]);
        out.push(digits[usize::from(byte % 16)]);
    }
    out
}

/// The same digits as a `String`.
pub fn to_string(bytes: &[u8]) -> String {
    to_digits(bytes).into_iter().map(char::from).collect()
}
