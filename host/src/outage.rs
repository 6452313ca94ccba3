//! Serving while the table can't be stored.
//!
//! A reply must not show a change that is not stored. So each request is served
//! on a copy of the table: where that leaves the table's file as it is, the copy
//! becomes the table, and the reply goes out; else the copy is dropped, and the
//! request waits, with all behind it on its connection. The file is the
//! library's; nothing here looks into a request or a reply.

use crate::batch::{Rest, REPLIES};
use crate::border::library::{read_request, write_request, End, Found, Table};
use crate::command::{ID, PING, PROTOCOL};
use crate::limits::LONGEST_REQUEST;

/// What a connection got.
pub struct Part {
    /// Bytes taken of its input.
    pub taken: usize,
    /// Bytes of its replies.
    pub replied: usize,
    pub rest: Rest,
    /// Whether a change is next, which waits.
    pub held: bool,
}

/// One turn of serving requests that change nothing.
pub struct Outage {
    second: u32,
    /// The file of the table at this second. It is the stored one, less the
    /// entries whose deadline has come.
    file: Vec<u8>,
    copy: Table,
    told: Vec<u64>,
    pub replies: Box<[u8]>,
}

impl Outage {
    pub fn new(table: &Table, second: u32) -> Outage {
        let mut outage = Outage {
            second,
            file: Vec::new(),
            copy: table.clone(),
            told: Vec::new(),
            replies: vec![0; REPLIES].into_boxed_slice(),
        };
        // A ping changes nothing but the table's second.
        let ping = ping();
        outage.serve_copy(&ping, 0);
        outage.file = outage.copy.store();
        outage
    }

    /// Serves a connection's input up to the first change.
    pub fn serve(&mut self, table: &mut Table, input: &[u8]) -> Part {
        let mut part = self.serve_piece(table, input, 0);
        if !part.held {
            return part;
        }
        // A change is somewhere in it: up to there it is served one by one.
        part = Part {
            taken: 0,
            replied: 0,
            rest: Rest::More,
            held: false,
        };
        while !part.held && part.rest == Rest::More {
            let left = &input[part.taken..];
            let piece = match read_request(left) {
                Found::Whole(request) => &left[..request.size],
                Found::More => return part,
                Found::Refused(_) => left,
            };
            let one = self.serve_piece(table, piece, part.replied);
            part = Part {
                taken: part.taken + one.taken,
                replied: part.replied + one.replied,
                ..one
            };
        }
        part
    }

    /// Serves a piece of the input, whose replies begin at this place, if it
    /// changes nothing.
    fn serve_piece(&mut self, table: &mut Table, piece: &[u8], at: usize) -> Part {
        self.copy.copy_from(table);
        let mut part = self.serve_copy(piece, at);
        if self.copy.store() == self.file {
            table.copy_from(&self.copy);
        } else {
            part = Part {
                taken: 0,
                replied: 0,
                rest: Rest::More,
                held: true,
            };
        }
        part
    }

    fn serve_copy(&mut self, piece: &[u8], at: usize) -> Part {
        let (ends, replies) = ([piece.len() as u64], &mut self.replies[at..]);
        let served = self
            .copy
            .serve_many(piece, &ends, self.second, replies, &mut self.told)
            .next()
            .expect("one connection is served");
        Part {
            taken: served.taken,
            replied: served.replied,
            rest: match served.end {
                End::More => Rest::More,
                End::Full => Rest::Again,
                End::Refused(_) => Rest::Ended,
            },
            held: false,
        }
    }
}

/// The bytes of a ping.
fn ping() -> Vec<u8> {
    let mut out = vec![0; LONGEST_REQUEST];
    let numbers = [
        ID,
        u64::from(PROTOCOL),
        u64::from(PING),
        0,
        1,
        0,
        0,
        0,
        0,
        0,
    ];
    let size = write_request(&mut out, &numbers, &[], &[]).expect("a ping is written");
    out.truncate(size);
    out
}

#[cfg(test)]
mod tests {
    use super::*;
    use crate::command::{CLEAR, GET, PUT, PUT_IF_ABSENT, REMOVE};

    fn request(operation: u8, key: &[u8], value: &[u8]) -> Vec<u8> {
        let mut out = vec![0; LONGEST_REQUEST];
        let numbers = [7, 12, u64::from(operation), 0, 1, 0, 0, 0, 0, 0];
        let size = write_request(&mut out, &numbers, key, value).unwrap();
        out[..size].to_vec()
    }

    /// A table with one entry, at second 5.
    fn table() -> Table {
        let (mut table, mut replies) = (Table::fresh(), vec![0; REPLIES]);
        let put = request(PUT, b"k", b"old");
        let (ends, mut told) = ([put.len() as u64], Vec::new());
        let _ = table.serve_many(&put, &ends, 5, &mut replies, &mut told);
        table
    }

    #[test]
    fn a_change_waits_with_all_behind_it() {
        let get = request(GET, b"k", b"");
        let no_change = [
            get.clone(),
            request(PUT_IF_ABSENT, b"k", b"x"),
            request(REMOVE, b"none", b""),
        ]
        .concat();
        for change in [
            request(PUT, b"k", b"old"),
            request(PUT, b"n", b""),
            request(REMOVE, b"k", b""),
            request(CLEAR, b"", b""),
        ] {
            let mut table = table();
            let file = table.store();
            let input = [&no_change[..], &change, &get].concat();
            let mut outage = Outage::new(&table, 6);
            let part = outage.serve(&mut table, &input);
            assert!(part.held && part.taken == no_change.len());
            assert_eq!(table.store(), file);
            // The same replies come where no change is behind them.
            let replies = outage.replies[..part.replied].to_vec();
            let mut other = self::table();
            let part = Outage::new(&other, 6).serve(&mut other, &no_change);
            assert!(!part.held && part.taken == no_change.len());
            assert_eq!(part.replied, replies.len());
            assert!(table == other, "the counts differ");
            let part = outage.serve(&mut table, &input[no_change.len()..]);
            assert!(part.held && part.taken == 0 && part.replied == 0);
        }
    }

    #[test]
    fn what_is_cut_or_refused_is_not_held() {
        let mut table = table();
        let (get, put) = (request(GET, b"k", b""), request(PUT, b"k", b"v"));
        let mut outage = Outage::new(&table, 6);
        let cut = [&get[..], &put[..5]].concat();
        let part = outage.serve(&mut table, &cut);
        assert!(!part.held && part.taken == get.len() && part.rest == Rest::More);
        let refused = [&get[..], b"x"].concat();
        let part = outage.serve(&mut table, &refused);
        assert!(!part.held && part.rest == Rest::Ended);
        // A refusal behind a change waits for it.
        let behind = [&get[..], &put, b"x"].concat();
        let part = outage.serve(&mut table, &behind);
        assert!(part.held && part.taken == get.len() && part.rest != Rest::Ended);
    }
}
