//! Bulk requests and replies of an `Echo`, with their faults.

use reference::fields::Cursor;
use reference::listing::{read_one, MOST_LISTED};
use reference::operation::{greatest_bulk, BULK_GET, BULK_GET_KEYS};
use reference::serve::{answer_request, BULK_ROOM};
use reference::{read_reply, read_request, Listed, Read, Reply, Request, Table};

use super::expiry::Arrival;
use super::{fill, span, Echo, Fault};
use crate::fields::{place, Field, Kind};
use crate::memory::{rows, PLACES};
use crate::messages::entries_length;
use crate::subject::{read_code, write_code, Asked, EntryParts, GOOD};
use crate::writers::EntriesDraft;

fn is_bulk(operation: u8) -> bool {
    greatest_bulk(operation).is_some()
}

impl Echo {
    /// The request, with a fault in what is served.
    pub(super) fn read(&self, input: &[u8]) -> Read<Request> {
        let mut other = input.to_vec();
        let id = input.iter().skip(1).position(|byte| *byte < 0x80);
        let version = id.map_or(0, |last| last + 2);
        let keys = input.get(version + 1) == Some(&BULK_GET_KEYS);
        match (self.fault, input.last()) {
            (Some(Fault::KeysInEleven), _) if keys && input[version] == 11 => other[version] = 12,
            (Some(Fault::ScopeThree), Some(3)) if keys => other[input.len() - 1] = 2,
            _ => {}
        }
        match self.wrong_version(input, version) {
            Some(read) => read,
            None => read_request(&other),
        }
    }

    /// Whether it is a bulk request with too little room.
    pub(super) fn lacks_room(&self, request: &Request, table: &Table, room: usize) -> bool {
        if greatest_bulk(request.operation).is_none() {
            return false;
        }
        match self.fault {
            Some(Fault::BulkFits) => {
                let (message, _) = answer_request(request, 0, &mut table.clone());
                room < message.len()
            }
            Some(Fault::NineBeforeBulkTwelve) if !request.name.is_empty() => false,
            Some(Fault::BulkRoomOneMore) => room < BULK_ROOM + 1,
            _ => room < BULK_ROOM,
        }
    }

    /// A fault in what a bulk request refused 12 leaves.
    pub(super) fn change_unlisted(&self, second: u32, table: &mut Table, memory: &mut [u8]) {
        let now = table.history.present(second);
        match self.fault {
            Some(Fault::BulkTwelveIsFirst) => {
                table.history.first.get_or_insert(u64::from(second));
            }
            Some(Fault::BulkTwelveSweeps) => table.entries.retain(|_, entry| entry.stands(now)),
            _ => return,
        }
        self.put_back(table, memory);
    }

    /// A fault in a bulk reply.
    pub(super) fn change_listing(&self, call: &Arrival, table: &Table, message: &mut Vec<u8>) {
        let operation = call.request.operation;
        if !is_bulk(operation) {
            return;
        }
        match self.fault {
            Some(Fault::BulkNoEnd) => drop(message.pop()),
            Some(Fault::BulkEndsWithOne) => message.splice(message.len() - 1.., [1]).for_each(drop),
            _ => {}
        }
        let Read::Whole(mut reply, _) = read_reply(call.request.asked(), message) else {
            return;
        };
        if self.change_listed(call, table, &mut reply.entries) {
            *message = reference::reply::reply_bytes(call.request.asked(), &reply);
        }
    }

    /// A fault in what a bulk reply lists; whether there is one.
    fn change_listed(&self, call: &Arrival, table: &Table, entries: &mut Vec<Listed>) -> bool {
        let all = || all_listed(call.request, call.second, table);
        let deadline = |entry: &Listed| table.entries.get(&entry.key).map_or(0, |e| e.deadline);
        let count = entries.len();
        match self.fault {
            Some(Fault::BulkCountIgnored) => *entries = all(),
            Some(Fault::BulkOneMore) => {
                *entries = all();
                entries.truncate(count + 1);
            }
            Some(Fault::BulkHighest) => {
                let all = all();
                *entries = all[all.len() - count..].to_vec();
            }
            Some(Fault::BulkByKey) => entries.sort_by(|one, two| one.key.cmp(&two.key)),
            Some(Fault::BulkByRow) => {
                *entries = all();
                entries.sort_by_key(|entry| row_of(call.memory, &entry.key));
                entries.truncate(count);
            }
            Some(Fault::BulkHidesDated) => entries.retain(|entry| deadline(entry) == 0),
            Some(Fault::ValueLeaksToEntry) if count > 1 => leak(entries),
            Some(Fault::EqualValueOnce) => keep_first(entries),
            _ => return false,
        }
        true
    }

    /// A wrong code for a bulk reply that is read.
    pub(super) fn wrong_bulk_reply(&self, asked: Asked, input: &[u8], code: u64) -> Option<u64> {
        if !is_bulk(asked.op) {
            return None;
        }
        let is_whole = |bytes: &[u8]| match read_reply(asked, bytes) {
            Read::Whole(_, taken) => taken == bytes.len(),
            _ => false,
        };
        match (self.fault?, input.last()?) {
            (Fault::SixForMoreByte, _) if code == 8 && input.len() > 6 => Some(6),
            // At its key length, so that the byte 1 alone is not enough.
            (Fault::SixBehind129, 1) if code == 6 => {
                let ended = [&input[..input.len() - 1], &[0]].concat();
                is_whole(&ended).then_some(0)
            }
            (Fault::Reads129, 0) if code == 6 => {
                let short = with_one_less(asked.op, input)?;
                is_whole(&short).then_some(GOOD + input.len() as u64)
            }
            _ => None,
        }
    }

    /// What the answer tells of the entries.
    pub(super) fn entries_words(&self, fields: &[Field], reply: &Reply) -> [u64; 3] {
        let mut count = reply.entries.len() as u64;
        let mut length = entries_length(fields) as u64;
        if self.has(Fault::EntriesOneLess) {
            count = count.saturating_sub(1);
        }
        if self.has(Fault::EntriesWithoutEnd) {
            length = length.saturating_sub(1);
        }
        [count, place(fields, Kind::More) as u64, length]
    }

    /// One entry, or the end.
    pub(super) fn entry_at(
        &self,
        input: &[u8],
        at: usize,
        values: bool,
        answer: &mut [u64],
    ) -> u64 {
        let mut cursor = Cursor::new(input.get(at..).unwrap_or(&[]));
        let values = values && !self.has(Fault::EntrySkipsValue);
        let entry = read_one(&mut cursor, values);
        let read = cursor.answer(entry);
        let code = read_code(&read);
        if self.has(Fault::EntryRefusedIsMore) && code == 8 {
            return 0;
        }
        let Read::Whole(entry, taken) = read else {
            return code;
        };
        let is_entry = entry.is_some() || self.has(Fault::EntryNotAtEnd);
        let entry = entry.unwrap_or_default();
        let from = if self.has(Fault::EntryPlacesFromPart) {
            0
        } else {
            at
        };
        // Behind the byte 1 and the one byte of a key's length.
        let key = span(from + taken.min(2), &entry.key);
        let value = span(from + taken - entry.value.len(), &entry.value);
        let words = [[taken as u64, u64::from(is_entry)], key, value].concat();
        fill(answer, &words);
        code
    }

    /// Writes a bulk reply.
    pub(super) fn entries_to(
        &self,
        out: &mut [u8],
        version: u8,
        id: u64,
        entries: EntryParts,
    ) -> u64 {
        let mut draft = EntriesDraft {
            version,
            id,
            values: entries.values,
            bytes: entries.bytes.to_vec(),
            numbers: entries.numbers.to_vec(),
        };
        if self.has(Fault::EntriesRoomFirst) && out.is_empty() {
            return 12;
        }
        if let Some(code) = self.wrong_entries(&mut draft) {
            return code;
        }
        let code = write_code(draft.written(out));
        if self.has(Fault::EntriesNeedOneMore) && code == GOOD + out.len() as u64 {
            return 12;
        }
        code
    }

    /// What a faulty writer of entries answers, or a draft that it mends.
    fn wrong_entries(&self, draft: &mut EntriesDraft) -> Option<u64> {
        let length = draft.bytes.len() as u64;
        let remainder = draft.numbers.chunks_exact(4).remainder();
        let outside = |pair: &[u64]| pair.len() == 2 && pair[0].saturating_add(pair[1]) > length;
        match self.fault {
            Some(Fault::Writes129) if draft.numbers.len() / 4 == MOST_LISTED + 1 => {
                draft.numbers.truncate(4 * MOST_LISTED);
            }
            Some(Fault::PartsRefused) if draft.numbers.chunks(2).any(outside) => return Some(16),
            Some(Fault::FewNumbersRefused) if !remainder.is_empty() => return Some(16),
            Some(Fault::ValueWithKeys) if !draft.values => {
                draft
                    .numbers
                    .chunks_exact_mut(4)
                    .for_each(|four| four[3] = 0);
            }
            _ => {}
        }
        None
    }
}

/// What the request lists if it asks for all.
fn all_listed(request: &Request, second: u32, table: &Table) -> Vec<Listed> {
    let request = Request {
        bulk: 0,
        ..request.clone()
    };
    let (message, _) = answer_request(&request, second, &mut table.clone());
    match read_reply(request.asked(), &message) {
        Read::Whole(reply, _) => reply.entries,
        _ => Vec::new(),
    }
}

/// The number of the row that has the key.
fn row_of(memory: &[u8], key: &[u8]) -> Option<u8> {
    let rows = rows(memory)?;
    let place = rows.iter().position(|row| row.key == key)?;
    Some(memory[PLACES + place])
}

/// Leaves out each entry with a value that one before it has, but for short
/// ones.
fn keep_first(entries: &mut Vec<Listed>) {
    let mut seen = Vec::new();
    entries.retain(|entry| {
        let again = entry.value.len() > 50 && seen.contains(&entry.value);
        seen.push(entry.value.clone());
        !again
    });
}

/// Puts the first byte of the first value into the next one.
fn leak(entries: &mut [Listed]) {
    let first = entries[0].value.first().copied();
    if let (Some(first), Some(byte)) = (first, entries[1].value.first_mut()) {
        *byte ^= first;
    }
}

/// The bulk reply without its first entry.
fn with_one_less(op: u8, input: &[u8]) -> Option<Vec<u8>> {
    let id = input.iter().skip(1).position(|byte| *byte < 0x80)?;
    let start = id + 5;
    let mut cursor = Cursor::new(input.get(start..)?);
    read_one(&mut cursor, op == BULK_GET).ok()??;
    let behind = input.len() - cursor.rest().len();
    Some([&input[..start], &input[behind..]].concat())
}
