//! Part a, the writers: requests and replies that keep the rules or break
//! them, with room enough or too little. The buffer is filled with random
//! bytes first, and every byte of it is compared.

use reference::fields::{KEY_LIMIT, NAME_LIMIT, TEXT_LIMIT, VALUE_LIMIT};
use reference::listing::MOST_LISTED;
use reference::number::LARGEST_VLONG;
use reference::operation::{BULK_GET, BULK_GET_KEYS, STATS, VERSIONS};
use reference::serve::BULK_ROOM;
use reference::{write_reply, write_request, Listed, Reply, Request, Statistics};

use crate::chance::Chance;
use crate::damage::break_text;
use crate::difference::{same, Difference, Outcome};
use crate::lent::Lent;
use crate::make;
use crate::messages::{reply_numbers, request_numbers};
use crate::subject::{
    write_code, Asked, EntryParts, ReplyParts, RequestParts, Subject, ENTRY_NUMBERS,
    REQUEST_NUMBERS,
};
use crate::trial::Trial;

/// What a writer of requests is given. A name, key and value of any length
/// and numbers of any size are possible.
#[derive(Clone, Debug)]
struct RequestDraft {
    numbers: Vec<u64>,
    name: Vec<u8>,
    key: Vec<u8>,
    value: Vec<u8>,
}

#[derive(Clone, Debug)]
struct ReplyDraft {
    asked: Asked,
    numbers: Vec<u64>,
    value: Vec<u8>,
    text: Vec<u8>,
}

fn small(number: u64) -> Option<u8> {
    u8::try_from(number).ok()
}

fn int(number: u64) -> Option<u32> {
    u32::try_from(number).ok()
}

impl RequestDraft {
    fn of(request: &Request) -> RequestDraft {
        RequestDraft {
            numbers: request_numbers(request, 0)[1..].to_vec(),
            name: request.name.clone(),
            key: request.key.clone(),
            value: request.value.clone(),
        }
    }

    /// The request, or nothing if a number is missing or too large for it.
    fn request(&self) -> Option<Request> {
        let number = |at: usize| self.numbers.get(at).copied();
        Some(Request {
            id: number(0)?,
            version: small(number(1)?)?,
            operation: small(number(2)?)?,
            flags: int(number(3)?)?,
            intelligence: small(number(4)?)?,
            topology: int(number(5)?)?,
            lifespan: int(number(6)?)?,
            max_idle: int(number(7)?)?,
            entry_version: number(8)?,
            bulk: int(number(9)?)?,
            name: self.name.clone(),
            key: self.key.clone(),
            value: self.value.clone(),
        })
    }

    fn parts(&self) -> RequestParts<'_> {
        RequestParts {
            name: &self.name,
            key: &self.key,
            value: &self.value,
        }
    }

    fn written(&self, out: &mut [u8]) -> Result<usize, u8> {
        match self.request() {
            Some(request) => write_request(&request, out),
            None => Err(16),
        }
    }

    /// Changes one thing, mostly so that a rule is broken.
    fn damage(&mut self, chance: &mut Chance) {
        match chance.below(14) {
            0 => self.numbers.truncate(chance.below(REQUEST_NUMBERS)),
            1 => self.name = odd_part(chance, NAME_LIMIT),
            2 => self.key = odd_part(chance, KEY_LIMIT),
            3 => self.value = odd_part(chance, VALUE_LIMIT),
            4 => break_text(chance, &mut self.name),
            _ => odd_one(chance, &mut self.numbers),
        }
    }

    fn shown(&self, found: Difference) -> Difference {
        found
            .with("call", "fq_write_request")
            .with("numbers", format!("{:?}", self.numbers))
            .bytes("name", &self.name)
            .bytes("key", &self.key)
            .bytes("value", &self.value)
    }
}

impl ReplyDraft {
    fn of(asked: Asked, reply: &Reply) -> ReplyDraft {
        ReplyDraft {
            asked,
            numbers: reply_numbers(reply, 0)[1..].to_vec(),
            value: reply.value.clone(),
            text: reply.text.clone(),
        }
    }

    fn reply(&self) -> Option<Reply> {
        let number = |at: usize| self.numbers.get(at).copied();
        Some(Reply {
            id: number(0)?,
            operation: small(number(1)?)?,
            status: small(number(2)?)?,
            version: number(3)?,
            value: self.value.clone(),
            text: self.text.clone(),
            ..Reply::default()
        })
    }

    fn parts(&self) -> ReplyParts<'_> {
        ReplyParts {
            value: &self.value,
            text: &self.text,
        }
    }

    /// A stats reply is written from its numbers (`StatisticsDraft`): here it
    /// has none, and so it is 16. A bulk reply has no entries here.
    fn written(&self, out: &mut [u8]) -> Result<usize, u8> {
        match self.reply() {
            Some(reply) if reply.operation == STATS + 1 => Err(16),
            Some(reply) => write_reply(self.asked, &reply, out),
            None => Err(16),
        }
    }

    fn damage(&mut self, chance: &mut Chance) {
        match chance.below(12) {
            0 => self.numbers.truncate(chance.below(4)),
            10 => self.asked.version = odd_version(chance),
            11 if self.numbers.len() > 2 => self.numbers[2] = chance.below(6) as u64,
            1 => self.value = odd_part(chance, VALUE_LIMIT),
            2 => self.text = odd_part(chance, TEXT_LIMIT),
            3 => break_text(chance, &mut self.text),
            4 => self.asked.op = chance.byte(),
            5 => self.asked.flag = !self.asked.flag,
            _ => odd_one(chance, &mut self.numbers),
        }
    }

    fn shown(&self, found: Difference) -> Difference {
        found
            .with("call", "fq_write_reply")
            .with("version", self.asked.version)
            .with("operation", self.asked.op)
            .with("flag", self.asked.flag)
            .with("numbers", format!("{:?}", self.numbers))
            .bytes("value", &self.value)
            .bytes("text", &self.text)
    }
}

/// What a writer of stats replies is given.
#[derive(Clone, Debug)]
struct StatisticsDraft {
    version: u8,
    id: u64,
    numbers: Vec<u64>,
}

impl StatisticsDraft {
    /// Another number of them is 16, like one above the largest vLong.
    fn written(&self, out: &mut [u8]) -> Result<usize, u8> {
        let Ok(statistics) = Statistics::try_from(&self.numbers[..]) else {
            return Err(16);
        };
        let reply = Reply {
            id: self.id,
            operation: STATS + 1,
            statistics,
            ..Reply::default()
        };
        let asked = Asked {
            version: self.version,
            op: STATS,
            flag: false,
        };
        write_reply(asked, &reply, out)
    }

    fn damage(&mut self, chance: &mut Chance) {
        match chance.below(10) {
            9 => self.version = odd_version(chance),
            0 => self.numbers.truncate(chance.below(9)),
            1 => self.numbers.resize(chance.pick(&[10, 11]), 7),
            2 => self.id = LARGEST_VLONG + chance.below(2) as u64,
            3 => self.id = chance.number(),
            _ => odd_one(chance, &mut self.numbers),
        }
    }

    fn shown(&self, found: Difference) -> Difference {
        found
            .with("call", "fq_write_statistics")
            .with("version", self.version)
            .with("id", self.id)
            .with("numbers", format!("{:?}", self.numbers))
    }
}

/// What a writer of bulk replies is given: for each entry start and length of
/// its key and of its value in the bytes. A part has as many bytes as there are.
#[derive(Clone, Debug)]
pub struct EntriesDraft {
    pub version: u8,
    pub id: u64,
    pub values: bool,
    pub bytes: Vec<u8>,
    pub numbers: Vec<u64>,
}

/// The part of the bytes, as far as they go.
fn part(bytes: &[u8], start: u64, length: u64) -> Vec<u8> {
    let start = start.min(bytes.len() as u64) as usize;
    let length = length.min((bytes.len() - start) as u64) as usize;
    bytes[start..start + length].to_vec()
}

impl EntriesDraft {
    /// The entries that the numbers name. Numbers behind the last four are not
    /// looked at.
    pub fn entries(&self) -> Vec<Listed> {
        let entry = |four: &[u64]| Listed {
            key: part(&self.bytes, four[0], four[1]),
            value: part(&self.bytes, four[2], four[3]),
        };
        self.numbers
            .chunks_exact(ENTRY_NUMBERS)
            .map(entry)
            .collect()
    }

    pub fn op(&self) -> u8 {
        if self.values {
            BULK_GET
        } else {
            BULK_GET_KEYS
        }
    }

    pub fn asked(&self) -> Asked {
        Asked {
            version: self.version,
            op: self.op(),
            flag: false,
        }
    }

    pub fn written(&self, out: &mut [u8]) -> Result<usize, u8> {
        let reply = Reply {
            id: self.id,
            operation: self.op() + 1,
            entries: self.entries(),
            ..Reply::default()
        };
        write_reply(self.asked(), &reply, out)
    }

    pub fn parts(&self) -> EntryParts<'_> {
        EntryParts {
            values: self.values,
            bytes: &self.bytes,
            numbers: &self.numbers,
        }
    }

    /// So many entries whose parts lie anywhere in the bytes, as one behind the
    /// other, or over each other.
    pub fn any(chance: &mut Chance, count: usize) -> EntriesDraft {
        let room = chance.pick(&[0, 1, 300, 1000]);
        let mut draft = EntriesDraft {
            version: chance.pick(&[12, 20]),
            id: make::long(chance),
            values: chance.one_in(2),
            bytes: chance.bytes(room),
            numbers: Vec::new(),
        };
        for _ in 0..count {
            let most = if draft.values { VALUE_LIMIT } else { 0 };
            draft.add(chance, KEY_LIMIT);
            draft.add(chance, most);
        }
        draft
    }

    /// Adds a part of at most so many bytes.
    fn add(&mut self, chance: &mut Chance, limit: usize) {
        let length = make::length(chance, limit);
        if chance.one_in(2) {
            let start = self.bytes.len();
            self.bytes.extend(chance.bytes(length));
            return self.numbers.extend([start as u64, length as u64]);
        }
        let length = length.min(self.bytes.len());
        let start = chance.up_to(self.bytes.len() - length);
        self.numbers.extend([start as u64, length as u64]);
    }

    /// Changes one thing, often so that a rule is broken.
    pub fn damage(&mut self, chance: &mut Chance) {
        match chance.below(10) {
            9 => self.version = odd_version(chance),
            0 => self.id = chance.pick(&[LARGEST_VLONG, LARGEST_VLONG + 1, u64::MAX]),
            1 => self.values = !self.values,
            2 => self.numbers.truncate(chance.up_to(self.numbers.len())),
            3 => self.more_entries(chance),
            4 => self.bytes.truncate(chance.up_to(self.bytes.len())),
            5 => self.odd_length(chance),
            6 => self.odd_part(chance),
            7 => self.numbers.extend(&[1, 2, 3][..1 + chance.below(3)]),
            _ => odd_one(chance, &mut self.numbers),
        }
    }

    /// As many entries as may be, one less or more, or many more.
    fn more_entries(&mut self, chance: &mut Chance) {
        let count = chance.pick(&[127, MOST_LISTED, MOST_LISTED, 129, 129, 256, 1000]);
        let whole = self.numbers.len() / ENTRY_NUMBERS * ENTRY_NUMBERS;
        self.numbers.truncate(whole);
        let mut four = self.numbers.clone();
        four.truncate(ENTRY_NUMBERS);
        four.resize(ENTRY_NUMBERS, 0);
        while self.numbers.len() < ENTRY_NUMBERS * count {
            self.numbers.extend(&four);
        }
        self.numbers.truncate(ENTRY_NUMBERS * count);
    }

    /// A key or a value about its limit, with the bytes for it.
    fn odd_length(&mut self, chance: &mut Chance) {
        let (place, limit) = chance.pick(&[(0, KEY_LIMIT), (2, VALUE_LIMIT)]);
        let length = chance.pick(&[1, limit - 1, limit, limit + 1, limit + 2, 2 * limit, 5000]);
        let count = self.numbers.len() / ENTRY_NUMBERS;
        if count == 0 {
            return;
        }
        let at = ENTRY_NUMBERS * chance.below(count) + place;
        let missing = length.saturating_sub(self.bytes.len());
        self.bytes.extend(chance.bytes(missing));
        let start = chance.up_to(self.bytes.len() - length);
        self.numbers[at] = start as u64;
        self.numbers[at + 1] = length as u64;
    }

    /// A part that begins or ends behind the bytes.
    fn odd_part(&mut self, chance: &mut Chance) {
        let count = self.numbers.len() / 2;
        if count == 0 {
            return;
        }
        let at = 2 * chance.below(count);
        let end = self.bytes.len() as u64;
        let near = chance.below(70) as u64;
        let (start, length) = chance.pick(&[
            (end, 0),
            (end, 1),
            (end + 1, 0),
            (end + 1, 64),
            (end.saturating_sub(near), near + 1),
            (end.saturating_sub(near), 1000),
            (end.saturating_sub(near), u64::MAX),
            (u64::MAX, u64::MAX),
            (u64::MAX, 1),
            (u64::MAX - near, near + 2),
            (1 << 32, 5),
            (0, 1 << 32),
        ]);
        self.numbers[at] = start;
        self.numbers[at + 1] = length;
    }

    pub fn shown(&self, found: Difference) -> Difference {
        found
            .with("call", "fq_write_entries")
            .with("version", self.version)
            .with("id", self.id)
            .with("values", self.values)
            .with("numbers", format!("{:?}", self.numbers))
            .bytes("bytes", &self.bytes)
    }
}

/// A served version, a neighbour of one, or any byte.
fn odd_version(chance: &mut Chance) -> u8 {
    match chance.below(3) {
        0 => chance.pick(&[9, 13, 19, 21]),
        1 => chance.byte(),
        _ => chance.pick(&VERSIONS),
    }
}

/// Bytes about the limit or far above it.
fn odd_part(chance: &mut Chance, limit: usize) -> Vec<u8> {
    let length = chance.pick(&[0, 1, limit, limit + 1, 2 * limit, 300, 1000, 70_000]);
    if chance.one_in(2) {
        return make::text(chance, length);
    }
    chance.bytes(length)
}

/// Gives one of the numbers another size.
fn odd_one(chance: &mut Chance, numbers: &mut [u64]) {
    if numbers.is_empty() {
        return;
    }
    let at = chance.below(numbers.len());
    let old = numbers[at];
    numbers[at] = match chance.below(10) {
        0 => old.wrapping_add(1),
        1 => old.wrapping_sub(1),
        2 => old.wrapping_add(0x100),
        3 => old.wrapping_add(0x1_0000_0000),
        4 => u64::from(u32::MAX),
        5 => LARGEST_VLONG,
        6 => LARGEST_VLONG + 1,
        7 => chance.below(256) as u64,
        8 => chance.below(20) as u64,
        _ => chance.number(),
    };
}

/// Room for a message of this length, often just enough or one too little. A
/// message that is refused 16 has no length.
fn room(chance: &mut Chance, length: Option<usize>) -> usize {
    let Some(length) = length else {
        return chance.pick(&[0, 1, 40, 279, 394, 512]);
    };
    match chance.below(6) {
        0 => length.saturating_sub(1),
        1 => length + 1,
        2 => chance.up_to(length),
        3 => length + chance.below(200),
        _ => length,
    }
}

/// A request as it should be, and damaged.
pub fn requests<S: Subject>(trial: &mut Trial<S>) -> Outcome {
    let mut draft = RequestDraft::of(&make::request(&mut trial.chance));
    check_request(trial, &draft).map_err(|found| draft.shown(found))?;
    for _ in 0..4 {
        let good = draft.clone();
        draft.damage(&mut trial.chance);
        check_request(trial, &draft).map_err(|found| draft.shown(found))?;
        if !trial.chance.one_in(4) {
            draft = good;
        }
    }
    Ok(())
}

pub fn replies<S: Subject>(trial: &mut Trial<S>) -> Outcome {
    let (asked, reply) = make::reply(&mut trial.chance);
    let mut draft = ReplyDraft::of(asked, &reply);
    check_reply(trial, &draft).map_err(|found| draft.shown(found))?;
    for _ in 0..4 {
        let good = draft.clone();
        draft.damage(&mut trial.chance);
        check_reply(trial, &draft).map_err(|found| draft.shown(found))?;
        if !trial.chance.one_in(4) {
            draft = good;
        }
    }
    Ok(())
}

pub fn statistics<S: Subject>(trial: &mut Trial<S>) -> Outcome {
    let mut draft = StatisticsDraft {
        version: trial.chance.pick(&VERSIONS),
        id: make::long(&mut trial.chance),
        numbers: make::statistics(&mut trial.chance).to_vec(),
    };
    check_statistics(trial, &draft).map_err(|found| draft.shown(found))?;
    draft.damage(&mut trial.chance);
    check_statistics(trial, &draft).map_err(|found| draft.shown(found))
}

/// A few entries, as they should be and damaged.
pub fn entries<S: Subject>(trial: &mut Trial<S>) -> Outcome {
    let count = trial.chance.pick(&[0, 1, 2, 5]);
    let mut draft = EntriesDraft::any(&mut trial.chance, count);
    check_entries(trial, &draft)?;
    for _ in 0..2 {
        draft.damage(&mut trial.chance);
        check_entries(trial, &draft)?;
    }
    Ok(())
}

/// Writes the entries with both, in room by chance.
pub fn check_entries<S: Subject>(trial: &mut Trial<S>, draft: &EntriesDraft) -> Outcome {
    let length = draft.written(&mut [0; BULK_ROOM]).ok();
    let room = room(&mut trial.chance, length);
    check_entries_in(trial, draft, room)?;
    Ok(())
}

/// Writes the entries with both, and gives the buffer.
pub fn check_entries_in<S: Subject>(
    trial: &mut Trial<S>,
    draft: &EntriesDraft,
    room: usize,
) -> Result<Vec<u8>, Difference> {
    let mut out = Lent::random(&mut trial.chance, room);
    let mut expected = out.clone();
    let answer = draft.written(expected.slice_mut());
    let bytes = Lent::of(&draft.bytes);
    let parts = EntryParts {
        bytes: bytes.slice(),
        ..draft.parts()
    };
    let code = trial
        .subject
        .write_entries(out.slice_mut(), draft.version, draft.id, parts);
    trial.counts.message(code);
    same("the return code", write_code(answer), code)
        .and_then(|()| out.same("the buffer, with a margin on both sides", &expected))
        .and_then(|()| bytes.same("the bytes are changed", &Lent::of(&draft.bytes)))
        .map_err(|found| draft.shown(found.with("room", room)))?;
    Ok(out.slice().to_vec())
}

fn check_statistics<S: Subject>(trial: &mut Trial<S>, draft: &StatisticsDraft) -> Outcome {
    let length = draft.written(&mut [0; 512]).ok();
    let room = room(&mut trial.chance, length);
    let mut out = Lent::random(&mut trial.chance, room);
    let mut expected = out.clone();
    let answer = draft.written(expected.slice_mut());
    let code =
        trial
            .subject
            .write_statistics(out.slice_mut(), draft.version, draft.id, &draft.numbers);
    trial.counts.message(code);
    same("the return code", write_code(answer), code)
        .and_then(|()| out.same("the buffer, with a margin on both sides", &expected))
        .map_err(|found| found.with("room", room))
}

fn check_request<S: Subject>(trial: &mut Trial<S>, draft: &RequestDraft) -> Outcome {
    let length = draft.written(&mut [0; 512]).ok();
    let room = room(&mut trial.chance, length);
    let mut out = Lent::random(&mut trial.chance, room);
    let mut expected = out.clone();
    let answer = draft.written(expected.slice_mut());
    let code = trial
        .subject
        .write_request(out.slice_mut(), &draft.numbers, draft.parts());
    trial.counts.message(code);
    same("the return code", write_code(answer), code)
        .and_then(|()| out.same("the buffer, with a margin on both sides", &expected))
        .map_err(|found| found.with("room", room))
}

fn check_reply<S: Subject>(trial: &mut Trial<S>, draft: &ReplyDraft) -> Outcome {
    let length = draft.written(&mut [0; 512]).ok();
    let room = room(&mut trial.chance, length);
    let mut out = Lent::random(&mut trial.chance, room);
    let mut expected = out.clone();
    let answer = draft.written(expected.slice_mut());
    let code =
        trial
            .subject
            .write_reply(out.slice_mut(), draft.asked, &draft.numbers, draft.parts());
    trial.counts.message(code);
    same("the return code", write_code(answer), code)
        .and_then(|()| out.same("the buffer, with a margin on both sides", &expected))
        .map_err(|found| found.with("room", room))
}
