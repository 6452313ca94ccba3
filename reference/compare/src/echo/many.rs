//! Streams of an `Echo`, of one connection and of many, with their faults.

use reference::serve::LEAST_ROOM;

use super::{fill, Echo, Fault};
use crate::subject::{FULL, GOOD, NO_ENDS, SHARE_WORDS, UNTOLD};

/// What a stream comes to.
#[derive(Clone, Copy, Default)]
pub(super) struct Stream {
    pub taken: usize,
    pub sent: usize,
    pub calls: u64,
    pub code: u64,
}

/// The table's memory, the second of the call, and the whole reply buffer.
pub(super) struct Lent<'a> {
    pub table: &'a mut [u8],
    pub second: u32,
    pub reply: &'a mut [u8],
}

impl Echo {
    /// The stream whose replies stand behind `start` bytes of others.
    pub(super) fn stream(&self, input: &[u8], lent: &mut Lent, start: usize) -> Stream {
        let mut stream = Stream::default();
        loop {
            let behind = start + stream.sent;
            let rest = &input[stream.taken..];
            let reply = &mut lent.reply[behind..];
            let (code, more, length) = self.one_call(rest, lent.table, lent.second, reply);
            let taken_bulk = self.has(Fault::BulkTwelveInStream) && more > 0;
            let others = self.has(Fault::ManyBulkRefused) && more > 0 && stream.sent == 0;
            let full = code == 12 && behind > 0 && !taken_bulk && !others;
            stream.taken += if full { 0 } else { more };
            stream.sent += length;
            let counted = length > 0 || !self.has(Fault::CountsReplies);
            stream.calls += u64::from(!full && counted);
            stream.code = if full { FULL } else { code };
            if full || !self.stream_goes_on(code, more) {
                return stream;
            }
        }
    }

    /// Why the streams are not served, in the order of the refusals.
    fn not_served(&self, ends: &[u64], size: usize, lent: &Lent, words: usize) -> Option<u64> {
        let short = words < SHARE_WORDS * ends.len() && !self.has(Fault::ManyShortList);
        let behind = ends.iter().any(|end| *end > size as u64) && !self.has(Fault::ManyEndCut);
        let falls = ends.windows(2).any(|pair| pair[0] > pair[1]);
        let bad = behind || (falls && !self.has(Fault::ManyAnyOrder));
        let room = lent.reply.len() < LEAST_ROOM;
        let none = self.table(lent.table).is_none() && !self.has(Fault::ManyNoTable);
        let mut tests = [(short, UNTOLD), (bad, NO_ENDS), (room, 12), (none, 13)];
        match self.fault {
            Some(Fault::ManyEndsFirst) => tests.swap(0, 1),
            Some(Fault::ManyRoomFirst) => tests.swap(1, 2),
            Some(Fault::ManyTableFirst) => tests.swap(2, 3),
            _ => {}
        }
        tests.into_iter().find(|test| test.0).map(|test| test.1)
    }

    pub(super) fn many(
        &self,
        input: &[u8],
        ends: &[u64],
        mut lent: Lent,
        answer: &mut [u64],
    ) -> u64 {
        if let Some(code) = self.not_served(ends, input.len(), &lent, answer.len()) {
            return code;
        }
        let mut told = Vec::new();
        let (mut start, mut sent) = (0, 0);
        for (at, end) in ends.iter().enumerate() {
            let last = at + 1 == ends.len() && self.has(Fault::ManyTailIsLast);
            let end = if last { input.len() } else { *end as usize };
            let end = end.min(input.len());
            let part = input.get(start..end).unwrap_or(&[]);
            let stream = self.share(part, &mut lent, sent);
            told.push([stream.taken as u64, stream.sent as u64, stream.code]);
            sent += if self.has(Fault::ManyOverwrites) {
                0
            } else {
                stream.sent
            };
            start = if self.has(Fault::ManyFromStart) {
                0
            } else {
                end
            };
            if self.stops_others(stream.code) {
                break;
            }
        }
        told.resize(ends.len(), [0, 0, 0]);
        self.tell(told, answer);
        GOOD
    }

    /// The stream of one connection, with a fault in what is told of it.
    fn share(&self, part: &[u8], lent: &mut Lent, sent: usize) -> Stream {
        let mut stream = self.stream(part, lent, sent);
        match self.fault {
            Some(Fault::ManyEmptyDone) if part.is_empty() && stream.code == FULL => {
                stream.code = 0;
            }
            Some(Fault::ManyWaitsTwelve) if stream.code == FULL => stream.code = 12,
            _ => {}
        }
        stream
    }

    /// Whether the connections behind one with this code are left alone.
    fn stops_others(&self, code: u64) -> bool {
        match self.fault {
            Some(Fault::ManyStopsAtRefused) => (1..=8).contains(&code),
            Some(Fault::ManyStopsAtFull) => code == FULL,
            _ => false,
        }
    }

    fn tell(&self, mut told: Vec<[u64; SHARE_WORDS]>, answer: &mut [u64]) {
        if self.has(Fault::ManySwapsShares) && told.len() > 1 {
            told.swap(0, 1);
        }
        let mut words = told.concat();
        if self.has(Fault::ManyTellsMore) {
            words.push(0);
        }
        words.truncate(answer.len());
        fill(answer, &words);
    }
}
