//! Serving many connections in one call of the library.
//!
//! The library checks the whole table at each call, which takes longer than a
//! request. So the inputs of all connections that are ready are written end to
//! end and served by one call, which says what each of them got. Nothing here
//! looks into a request or a reply.
//!
//! A bulk request needs much room for its reply. The library lets it wait where
//! the replies of others left too little, and it is served in another turn.

use std::ops::Range;

use crate::border::library::{End, Served, Table};
use crate::limits::BULK_ROOM;

/// Bytes of the inputs served in one call.
const INPUTS: usize = 65536;
/// Bytes of the replies given in one turn.
pub const REPLIES: usize = 65536;
const _: () = assert!(REPLIES >= BULK_ROOM, "a bulk request has no room");

/// What one connection got.
pub struct Share {
    pub connection: usize,
    /// Bytes taken of its input.
    pub taken: usize,
    /// Where its replies are.
    pub replies: Range<usize>,
    pub rest: Rest,
}

/// What is left in the input of a connection.
#[derive(Clone, Copy, Debug, PartialEq, Eq)]
pub enum Rest {
    /// No whole request.
    More,
    /// Bytes that are to be served in another turn.
    Again,
    /// The stream has ended by a refusal.
    Ended,
}

/// The turn's inputs and replies, in memory of a fixed size.
pub struct Batch {
    inputs: Vec<u8>,
    ends: Vec<u64>,
    served: Vec<usize>,
    told: Vec<u64>,
    replies: Box<[u8]>,
    pub shares: Vec<Share>,
}

impl Default for Batch {
    fn default() -> Batch {
        Batch {
            inputs: Vec::with_capacity(INPUTS),
            ends: Vec::new(),
            served: Vec::new(),
            told: Vec::new(),
            replies: vec![0; REPLIES].into_boxed_slice(),
            shares: Vec::new(),
        }
    }
}

impl Batch {
    pub fn replies_of(&self, share: &Share) -> &[u8] {
        &self.replies[share.replies.clone()]
    }

    /// Orders the shares so that those who got nothing come first in the next
    /// turn. The first of a turn has the whole room, so none waits for more turns
    /// than there are connections.
    pub fn put_waiting_first(&mut self) {
        if self.shares.iter().any(|share| share.rest == Rest::Again) {
            self.shares.sort_by_key(|share| share.taken > 0);
        }
    }

    /// Serves the inputs of connections in one call. Those for whose input there
    /// is no room any more are served in another turn.
    pub fn serve<'a>(
        &mut self,
        connections: &[usize],
        input: impl Fn(usize) -> Option<&'a [u8]>,
        table: &mut Table,
        second: u32,
    ) {
        self.shares.clear();
        self.inputs.clear();
        self.ends.clear();
        self.served.clear();
        for &connection in connections {
            let Some(input) = input(connection) else {
                continue;
            };
            if self.inputs.len() + input.len() > INPUTS {
                self.share(connection, 0, 0..0, Rest::Again);
                continue;
            }
            self.inputs.extend_from_slice(input);
            self.ends.push(self.inputs.len() as u64);
            self.served.push(connection);
        }
        let mut told = std::mem::take(&mut self.told);
        let all = table.serve_many(
            &self.inputs,
            &self.ends,
            second,
            &mut self.replies,
            &mut told,
        );
        let mut at = 0;
        for (
            place,
            Served {
                end,
                taken,
                replied,
            },
        ) in all.enumerate()
        {
            let rest = match end {
                End::More => Rest::More,
                End::Full => Rest::Again,
                End::Refused(_) => Rest::Ended,
            };
            self.share(self.served[place], taken, at..at + replied, rest);
            at += replied;
        }
        self.told = told;
    }

    fn share(&mut self, connection: usize, taken: usize, replies: Range<usize>, rest: Rest) {
        self.shares.push(Share {
            connection,
            taken,
            replies,
            rest,
        });
    }
}

#[cfg(test)]
mod tests {
    use super::*;
    use crate::border::library::{read_request, write_request, Found};
    use crate::command::{BULK_GET, GET_WITH_VERSION, OPERATIONS, PUT};
    use crate::limits::{KEY_LIMIT, LONGEST_BULK, LONGEST_REQUEST, TABLE_KEYS, VALUE_LIMIT};

    /// Numbers that look like chance, the same each time.
    struct Chance(u64);

    impl Chance {
        fn below(&mut self, most: usize) -> usize {
            self.0 ^= self.0 << 13;
            self.0 ^= self.0 >> 7;
            self.0 ^= self.0 << 17;
            (self.0 >> 11) as usize % most
        }

        /// A few requests; the last may be cut or have a byte changed.
        fn input(&mut self) -> Vec<u8> {
            let mut input = Vec::new();
            for _ in 0..self.below(150) {
                input.extend(self.request());
            }
            match self.below(3) {
                0 => input.extend(&self.request()[..5]),
                1 if !input.is_empty() => {
                    let most = [input.len(), 9][self.below(2)].min(input.len());
                    let at = self.below(most);
                    input[at] = self.below(256) as u8;
                }
                _ => {}
            }
            input
        }

        fn request(&mut self) -> Vec<u8> {
            let key = [b'k', self.below(5) as u8];
            let value = vec![b'v'; self.below(257)];
            let (flag, version) = (self.below(2) as u64, self.below(9) as u64);
            let mut out = vec![0; 394];
            loop {
                let code = OPERATIONS[self.below(OPERATIONS.len())].code;
                // Of these some is written, whatever fields the operation sends.
                for (key, version, value) in [
                    (&key[..], version, &value[..]),
                    (&key[..], 0, &value[..]),
                    (&key[..], version, &[][..]),
                    (&key[..], 0, &[][..]),
                    (&[][..], 0, &[][..]),
                ] {
                    let bulk = if code == BULK_GET { version } else { 0 };
                    let numbers = [7, 12, u64::from(code), flag, 1, 0, 0, 0, version, bulk];
                    if let Ok(size) = write_request(&mut out, &numbers, key, value) {
                        return out[..size].to_vec();
                    }
                }
            }
        }
    }

    /// What a share says is what serving just its bytes gives.
    fn check(batch: &Batch, share: &Share, input: &[u8], table: &mut Table) {
        let mut replies = vec![0; REPLIES];
        let bytes = match share.rest {
            Rest::Ended => input,
            _ => &input[..share.taken],
        };
        let mut told = Vec::new();
        let ends = [bytes.len() as u64];
        let mut all = table.serve_many(bytes, &ends, 5, &mut replies, &mut told);
        let served = all.next().unwrap();
        assert_eq!(served.taken, share.taken);
        assert_eq!(&replies[..served.replied], batch.replies_of(share));
        let left = read_request(&input[share.taken..]);
        match share.rest {
            Rest::More => assert!(matches!(left, Found::More)),
            Rest::Ended => assert!(matches!(left, Found::Refused(_))),
            // What waits is not looked at.
            Rest::Again => {}
        }
    }

    #[test]
    fn together_is_one_after_the_other() {
        let mut chance = Chance(99);
        let (mut table, mut other) = (Table::fresh(), Table::fresh());
        let mut batch = Batch::default();
        let mut seen = [0; 3];
        for _ in 0..200 {
            let inputs: Vec<Vec<u8>> = (0..chance.below(20)).map(|_| chance.input()).collect();
            let all: Vec<usize> = (0..inputs.len()).collect();
            let lent = |at: usize| inputs.get(at).map(Vec::as_slice);
            batch.serve(&all, lent, &mut table, 5);
            assert_eq!(batch.shares.len(), inputs.len());
            batch
                .shares
                .sort_by_key(|share| share.taken == 0 && share.rest == Rest::Again);
            for share in &batch.shares {
                check(&batch, share, &inputs[share.connection], &mut other);
                seen[share.rest as usize] += 1;
            }
            assert!(table == other);
        }
        assert!(seen.iter().all(|count| *count > 50), "{seen:?}");
    }

    fn request(operation: u8, key: &[u8], value: &[u8]) -> Vec<u8> {
        let mut out = vec![0; LONGEST_REQUEST];
        let numbers = [1, 12, u64::from(operation), 0, 1, 0, 0, 0, 0, 0];
        let size = write_request(&mut out, &numbers, key, value).unwrap();
        out[..size].to_vec()
    }

    /// A table with the longest bulk reply.
    fn full_table() -> Table {
        let (mut table, mut replies) = (Table::fresh(), vec![0; REPLIES]);
        for at in 0..TABLE_KEYS {
            let put = request(PUT, &[at as u8; KEY_LIMIT], &[b'v'; VALUE_LIMIT]);
            let ends = [put.len() as u64];
            let mut told = Vec::new();
            let _ = table.serve_many(&put, &ends, 5, &mut replies, &mut told);
        }
        table
    }

    #[test]
    fn no_bulk_request_lacks_room_because_of_others() {
        let mut table = full_table();
        let get = request(GET_WITH_VERSION, &[0; KEY_LIMIT], &[]);
        let list = request(BULK_GET, &[], &[]);
        let one = [get.repeat(30), list.repeat(2), get].concat();
        let mut inputs = vec![one; 9];
        let mut queue: Vec<usize> = (0..inputs.len()).collect();
        let (mut batch, mut given, mut waits) = (Batch::default(), [0; 9], [0; 9]);
        while !queue.is_empty() {
            let lent = |at: usize| inputs.get(at).map(Vec::as_slice);
            batch.serve(&queue, lent, &mut table, 5);
            batch.put_waiting_first();
            queue.clear();
            for share in &batch.shares {
                let at = share.connection;
                given[at] += share.replies.len();
                inputs[at].drain(..share.taken);
                waits[at] = if share.taken > 0 { 0 } else { waits[at] + 1 };
                assert!(waits[at] < inputs.len(), "one waits too long: {waits:?}");
                queue.extend((share.rest == Rest::Again).then_some(at));
            }
        }
        // The id of these requests is eight bytes shorter than the longest.
        let (version, bulk) = (279 - 8, LONGEST_BULK - 8);
        assert_eq!(given, [31 * version + 2 * bulk; 9]);
    }
}
