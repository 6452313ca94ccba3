//! Numbers on the wire: seven bits a byte, lowest first, the high bit set on
//! all bytes but the last.

use crate::fields::Read;

/// The most bytes of a vInt.
pub const VINT_BYTES: usize = 5;
/// The most bytes of a vLong.
pub const VLONG_BYTES: usize = 9;
/// The largest vInt.
pub const LARGEST_VINT: u64 = 4_294_967_295;
/// The largest vLong.
pub const LARGEST_VLONG: u64 = 9_223_372_036_854_775_807;

/// Reads a vInt (`max_bytes` is 5) or a vLong (any other `max_bytes`).
/// A bad vInt is refusal 5, a bad vLong is refusal 2.
pub fn read_number(bytes: &[u8], max_bytes: usize) -> Read<u64> {
    if max_bytes == VINT_BYTES {
        read_seven_bits(bytes, VINT_BYTES, 0x0f, 5)
    } else {
        read_seven_bits(bytes, VLONG_BYTES, 0x7f, 2)
    }
}

/// `most` is the most bytes the number may have, `top` the greatest byte that
/// may stand in the last of these places.
fn read_seven_bits(bytes: &[u8], most: usize, top: u8, refusal: u8) -> Read<u64> {
    let mut value: u64 = 0;
    for at in 0..most {
        let Some(&byte) = bytes.get(at) else {
            return Read::More;
        };
        if at + 1 == most && byte > top {
            return Read::Refused(refusal);
        }
        value += u64::from(byte & 0x7f) << (7 * at);
        if byte < 0x80 {
            // A number of two or more bytes that ends in 00 is not shortest.
            if at > 0 && byte == 0 {
                return Read::Refused(refusal);
            }
            return Read::Whole(value, at + 1);
        }
    }
    // Not reached: a last byte with the high bit set was refused above.
    Read::Refused(refusal)
}

/// Puts the shortest form of the number behind the bytes in `out`.
pub fn write_number(number: u64, out: &mut Vec<u8>) {
    let mut rest = number;
    while rest >= 128 {
        out.push((rest % 128) as u8 + 128);
        rest /= 128;
    }
    out.push(rest as u8);
}
