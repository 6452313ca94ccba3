//! The refusals that clients are sent, by their numbers, for those who count them.
//! What refuses is the library; here its replies are read by its own reader.

use crate::border::library::{read_reply, read_request, Asked, Found};
use crate::command::ERROR;

/// The texts of the refusals 1 to 11, in their order.
pub const TEXTS: [&str; 11] = [
    "bad magic",
    "bad message id",
    "bad version",
    "bad command",
    "bad number",
    "too long",
    "bad text",
    "bad field",
    "no such cache",
    "full",
    "no versions left",
];

/// The operation of an error reply and the status of the refusals behind which a
/// stream goes on.
const GOES_ON: [u8; 2] = [ERROR, 0x85];

/// The numbers of the refusals among the replies to these requests, behind which
/// the stream goes on.
pub fn among(requests: &[u8], replies: &[u8]) -> Vec<usize> {
    let mut found = Vec::new();
    if !replies.windows(2).any(|two| two == GOES_ON) {
        return found;
    }
    let (mut from, mut at) = (0, 0);
    while let Found::Whole(request) = read_request(&requests[from..]) {
        let asked = Asked {
            version: request.version,
            operation: request.operation,
            previous: request.flags & 1 == 1,
        };
        let Found::Whole(reply) = read_reply(&replies[at..], asked) else {
            break;
        };
        if reply.operation == ERROR {
            let text = &replies[at + reply.text.start..at + reply.text.end];
            found.extend(number(text));
        }
        from += request.size;
        at += reply.size;
    }
    found
}

/// The number of the refusal with this text.
fn number(text: &[u8]) -> Option<usize> {
    let place = TEXTS.iter().position(|one| one.as_bytes() == text)?;
    Some(place + 1)
}

#[cfg(test)]
mod tests {
    use super::*;
    use crate::border::library::{write_request, Table};
    use crate::command::{BULK_GET, GET, PUT};
    use crate::limits::{BULK_ROOM, LONGEST_REQUEST, TABLE_KEYS};

    fn request(operation: u8, key: &[u8], value: &[u8]) -> Vec<u8> {
        let mut out = vec![0; LONGEST_REQUEST];
        let numbers = [1, 12, u64::from(operation), 0, 1, 0, 0, 0, 0, 0];
        let size = write_request(&mut out, &numbers, key, value).unwrap();
        out[..size].to_vec()
    }

    #[test]
    fn refusals_are_found_among_replies() {
        let (mut table, mut requests) = (Table::fresh(), Vec::new());
        for at in 0..TABLE_KEYS + 2 {
            // The values look like the error replies that are counted.
            requests.extend(request(PUT, &[at as u8], &GOES_ON));
        }
        requests.extend(request(GET, b"\x00", b""));
        // A ping to another cache.
        requests.extend(b"\xa0\x01\x0c\x17\x04none\x00\x01\x00\x00");
        requests.extend(request(BULK_GET, b"", b""));
        requests.extend(request(PUT, b"one more", b""));
        let mut replies = vec![0; 2 * BULK_ROOM];
        let (ends, mut told) = ([requests.len() as u64], Vec::new());
        let mut all = table.serve_many(&requests, &ends, 5, &mut replies, &mut told);
        let served = all.next().unwrap();
        assert_eq!(served.taken, requests.len());
        let found = among(&requests, &replies[..served.replied]);
        assert_eq!(found, [10, 10, 9, 10]);
    }
}
