//! Well-formed things by chance: numbers, texts, requests, replies, tables.

use reference::fields::{KEY_LIMIT, NAME_LIMIT, TEXT_LIMIT, VALUE_LIMIT};
use reference::history::{COUNTS, LARGEST_SECOND};
use reference::map::{LARGEST_DEADLINE, LARGEST_VERSION, LONGEST_SPAN, MOST_KEYS};
use reference::number::LARGEST_VLONG;
use reference::operation::{
    body, greatest_bulk, greatest_flags, may_answer, sends_entry_version, sends_key, sends_value,
    serves, Body, BULK_GET, BULK_GET_KEYS, CLEAR, ERROR, PUT, PUT_IF_ABSENT, REMOVE,
    REMOVE_IF_UNMODIFIED, SERVED, VERSIONS,
};
use reference::{Entry, History, Listed, Reply, Request, Statistics, Table};

use crate::chance::Chance;
use crate::subject::Asked;

/// A length from 0 to the limit, often at an edge.
pub fn length(chance: &mut Chance, limit: usize) -> usize {
    match chance.below(9) {
        0 => 0,
        1 => limit.min(1),
        2 => limit,
        3 => limit.saturating_sub(1),
        4 => limit.min(127),
        5 => limit.min(128),
        6 | 7 => chance.up_to(limit.min(8)),
        _ => chance.up_to(limit),
    }
}

/// A number of at most so many bits, often at the edge of a byte of the wire.
fn edge_number(chance: &mut Chance, bits: u32) -> u64 {
    let edge = 1u64 << (7 * chance.below(bits as usize / 7 + 1));
    let greatest = u64::MAX >> (64 - bits);
    let number = match chance.below(6) {
        0 => edge,
        1 => edge - 1,
        2 => greatest,
        3 => chance.below(4) as u64,
        _ => chance.number() >> chance.below(64),
    };
    number & greatest
}

/// A vInt.
pub fn int(chance: &mut Chance) -> u32 {
    edge_number(chance, 32) as u32
}

/// A vLong.
pub fn long(chance: &mut Chance) -> u64 {
    edge_number(chance, 63)
}

/// Any eight bytes, as a number.
pub fn eight(chance: &mut Chance) -> u64 {
    match chance.below(6) {
        0 => 0,
        1 => u64::MAX,
        2 => LARGEST_VERSION,
        3 => LARGEST_VERSION + 1,
        4 => chance.below(300) as u64,
        _ => chance.number(),
    }
}

pub fn second(chance: &mut Chance) -> u32 {
    match chance.below(4) {
        0 => 0,
        1 => u32::MAX,
        _ => chance.number() as u32,
    }
}

/// The second of a call to a server with this table: mostly about the latest
/// one served, at times about the next deadline or the one of any entry, and
/// rarely any. So the entries expire a few at a time.
pub fn second_for(chance: &mut Chance, table: &Table) -> u32 {
    let latest = table.history.latest;
    let mut deadlines = table.entries.values().map(|entry| entry.deadline);
    let near = match chance.below(400) {
        0 => u64::from(second(chance)),
        1..=3 if !table.entries.is_empty() => {
            let place = chance.below(table.entries.len());
            about(chance, deadlines.nth(place).unwrap_or(0))
        }
        4..=50 => {
            let next = deadlines.filter(|deadline| *deadline >= latest).min();
            about(chance, next.unwrap_or(latest))
        }
        51..=80 => 0,
        _ => about(chance, latest),
    };
    near.min(LARGEST_SECOND) as u32
}

/// A second before this one, this one, or one behind it.
pub fn about(chance: &mut Chance, second: u64) -> u64 {
    let other = chance.below(20) as u64;
    match chance.below(6) {
        0 | 1 => second,
        2 => second + 1,
        3 => second.saturating_sub(1),
        4 => second + other,
        _ => second.saturating_sub(other),
    }
}

/// A lifespan, often about the border between spans and dates, or a short one.
pub fn lifespan(chance: &mut Chance) -> u32 {
    match chance.below(6) {
        0 => LONGEST_SPAN,
        1 => LONGEST_SPAN + 1,
        2 => LONGEST_SPAN - 2 + chance.below(6) as u32,
        3 => 1 + chance.below(6) as u32,
        _ => int(chance),
    }
}

/// Characters at the edges of the ranges of first and second bytes.
const EDGES: [char; 20] = [
    '\0',
    'a',
    '\u{7f}',
    '\u{80}',
    '\u{bf}',
    '\u{c0}',
    '\u{7ff}',
    '\u{800}',
    '\u{fff}',
    '\u{1000}',
    '\u{cfff}',
    '\u{d000}',
    '\u{d7ff}',
    '\u{e000}',
    '\u{ffff}',
    '\u{10000}',
    '\u{3ffff}',
    '\u{40000}',
    '\u{fffff}',
    '\u{10ffff}',
];

/// UTF-8 of just this length.
pub fn text(chance: &mut Chance, length: usize) -> Vec<u8> {
    let mut text = Vec::new();
    let mut room = [0; 4];
    while text.len() < length {
        let sequence = chance.pick(&EDGES).encode_utf8(&mut room);
        if text.len() + sequence.len() <= length {
            text.extend_from_slice(sequence.as_bytes());
        }
    }
    text
}

pub fn operation(chance: &mut Chance) -> u8 {
    chance.pick(&SERVED)
}

/// A version that has this operation.
pub fn version_of(chance: &mut Chance, operation: u8) -> u8 {
    let version = chance.pick(&VERSIONS);
    if serves(version, operation) {
        return version;
    }
    chance.pick(&[12, 20])
}

/// What a reply to this operation answers.
pub fn asked(chance: &mut Chance, op: u8) -> Asked {
    Asked {
        version: version_of(chance, op),
        op,
        flag: chance.one_in(2),
    }
}

/// A request of this operation that sends no name, with edge numbers.
pub fn request_of(chance: &mut Chance, operation: u8) -> Request {
    let version = version_of(chance, operation);
    let mut request = Request {
        id: long(chance),
        version,
        operation,
        flags: chance.up_to(greatest_flags(version) as usize) as u32,
        intelligence: 1 + chance.below(3) as u8,
        topology: int(chance),
        ..Request::default()
    };
    if sends_value(operation) {
        request.lifespan = lifespan(chance);
        request.max_idle = int(chance);
    }
    if let Some(greatest) = greatest_bulk(operation) {
        request.bulk = bulk(chance, greatest);
    }
    request
}

/// An entry count about the numbers of entries that a table may hold, or a
/// scope.
fn bulk(chance: &mut Chance, greatest: u32) -> u32 {
    let number = match chance.below(4) {
        0 => 0,
        1 => chance.pick(&[1, 2, 127, 128, 129, u32::MAX]),
        2 => chance.below(140) as u32,
        _ => int(chance),
    };
    match greatest {
        u32::MAX => number,
        _ => number % (greatest + 1),
    }
}

/// Any well-formed request.
pub fn request(chance: &mut Chance) -> Request {
    let operation = operation(chance);
    let mut request = request_of(chance, operation);
    if chance.one_in(2) {
        let length = length(chance, NAME_LIMIT);
        request.name = text(chance, length);
    }
    if sends_key(operation) {
        let length = length(chance, KEY_LIMIT);
        request.key = chance.bytes(length);
    }
    if sends_value(operation) {
        let length = length(chance, VALUE_LIMIT);
        request.value = chance.bytes(length);
    }
    if sends_entry_version(operation) {
        request.entry_version = eight(chance);
    }
    request
}

fn error_reply(chance: &mut Chance) -> Reply {
    let length = length(chance, TEXT_LIMIT);
    Reply {
        id: long(chance),
        operation: ERROR,
        status: 0x81 + chance.below(6) as u8,
        text: text(chance, length),
        ..Reply::default()
    }
}

fn status(chance: &mut Chance, asked: Asked) -> u8 {
    let statuses: Vec<u8> = (0..=4)
        .filter(|status| may_answer(asked, *status))
        .collect();
    chance.pick(&statuses)
}

/// Any well-formed reply, and what it answers.
pub fn reply(chance: &mut Chance) -> (Asked, Reply) {
    let op = operation(chance);
    let asked = asked(chance, op);
    if chance.one_in(5) {
        return (asked, error_reply(chance));
    }
    let status = status(chance, asked);
    let mut reply = Reply {
        id: long(chance),
        operation: op + 1,
        status,
        ..Reply::default()
    };
    let body = body(asked, status);
    if body == Body::Value || body == Body::VersionAndValue {
        let length = length(chance, VALUE_LIMIT);
        reply.value = chance.bytes(length);
    }
    if body == Body::VersionAndValue {
        reply.version = eight(chance);
    }
    if body == Body::Statistics {
        reply.statistics = statistics(chance);
    }
    if body == Body::Entries || body == Body::Keys {
        let count = chance.pick(&[0, 1, 2, 3, 5]);
        reply.entries = entries(chance, count, body == Body::Entries);
    }
    (asked, reply)
}

/// So many entries of a bulk reply; keys may come twice.
pub fn entries(chance: &mut Chance, count: usize, values: bool) -> Vec<Listed> {
    let mut entries = Vec::new();
    for _ in 0..count {
        let (key, value) = (length(chance, KEY_LIMIT), length(chance, VALUE_LIMIT));
        entries.push(Listed {
            key: chance.bytes(key),
            value: chance.bytes(if values { value } else { 0 }),
        });
    }
    entries
}

/// Nine numbers that a stats reply may tell.
pub fn statistics(chance: &mut Chance) -> Statistics {
    Statistics::default().map(|_| count(chance))
}

/// A vLong, often at or near the largest, or about a power of ten.
fn count(chance: &mut Chance) -> u64 {
    let ten = 10u64.pow(chance.below(19) as u32);
    match chance.below(6) {
        0 => LARGEST_VLONG,
        1 => LARGEST_VLONG - chance.below(3) as u64,
        2 => ten,
        3 => ten - 1,
        4 => chance.below(300) as u64,
        _ => long(chance),
    }
}

/// What a sound table may remember: nothing, or counts and seconds that need
/// not fit each other.
pub fn history(chance: &mut Chance) -> History {
    if chance.one_in(4) {
        return History::default();
    }
    let first = match chance.below(6) {
        0 => None,
        1 => Some(0),
        2 => Some(LARGEST_SECOND - chance.below(3) as u64),
        _ => Some(u64::from(second(chance))),
    };
    let latest = match chance.below(8) {
        0 => 0,
        1 => LARGEST_SECOND - chance.below(30) as u64,
        2 => u64::from(LONGEST_SPAN) + chance.below(30) as u64,
        3 => chance.below(300) as u64,
        _ => chance.number() % (LARGEST_SECOND + 1),
    };
    History {
        first,
        counts: [0; COUNTS].map(|_| count(chance)),
        latest,
    }
}

/// Different keys: a few of edge lengths; many of one length with a common
/// beginning; many short ones; beginnings of one another.
pub fn keys(chance: &mut Chance) -> Vec<Vec<u8>> {
    let mut keys: Vec<Vec<u8>> = match chance.below(4) {
        0 => few_keys(chance),
        1 => common_keys(chance),
        2 => (0..MOST_KEYS + 20).map(|at| vec![at as u8, 7]).collect(),
        _ => {
            let whole = chance.bytes(KEY_LIMIT);
            (0..=KEY_LIMIT).map(|at| whole[..at].to_vec()).collect()
        }
    };
    keys.sort();
    keys.dedup();
    keys
}

fn few_keys(chance: &mut Chance) -> Vec<Vec<u8>> {
    let count = 1 + chance.below(6);
    let mut keys = Vec::new();
    for _ in 0..count {
        let length = length(chance, KEY_LIMIT);
        keys.push(chance.bytes(length));
    }
    keys
}

/// More keys than a table holds, of 32 bytes of which 24 are the same.
fn common_keys(chance: &mut Chance) -> Vec<Vec<u8>> {
    let front = chance.bytes(24);
    let key = |at: usize| {
        let mut key = front.clone();
        key.extend_from_slice(&(at as u64).to_be_bytes());
        key
    };
    (0..MOST_KEYS + 12).map(key).collect()
}

fn deadline(chance: &mut Chance) -> u64 {
    match chance.below(4) {
        0 => 0,
        1 => LARGEST_DEADLINE,
        2 => LARGEST_DEADLINE - 1,
        _ => chance.number() % (LARGEST_DEADLINE + 1),
    }
}

/// Deadlines of a table with this latest second: at times all far away, at
/// times many about it.
fn deadline_for(chance: &mut Chance, latest: u64, far: bool) -> u64 {
    match chance.below(8) {
        0..=2 => 0,
        _ if far => chance.pick(&[LARGEST_DEADLINE, LARGEST_SECOND + 1, LARGEST_SECOND + 2]),
        3 => deadline(chance),
        4 => latest + chance.below(1000) as u64,
        5 => LARGEST_SECOND - 1 + chance.below(4) as u64,
        _ => about(chance, latest),
    }
}

/// A last version: small, near the largest, or the largest.
fn last_version(chance: &mut Chance, count: usize) -> u64 {
    match chance.below(5) {
        0 => LARGEST_VERSION,
        1 => LARGEST_VERSION - chance.below(40) as u64,
        2 => count as u64,
        _ => (count + chance.below(1000)) as u64,
    }
}

/// A sound table with some of these keys, at times with none, at times with
/// as many as may be.
pub fn table(chance: &mut Chance, keys: &[Vec<u8>]) -> Table {
    let most = keys.len().min(MOST_KEYS);
    let count = match chance.below(4) {
        0 => chance.up_to(most),
        1 => chance.up_to(most.min(3)),
        2 => most.saturating_sub(1),
        _ => most,
    };
    let mut keys = keys.to_vec();
    chance.shuffle(&mut keys);
    table_of(chance, &keys[..count])
}

/// A sound table with just these different keys.
pub fn table_of(chance: &mut Chance, keys: &[Vec<u8>]) -> Table {
    let mut table = Table {
        last: last_version(chance, keys.len()),
        history: history(chance),
        ..Table::default()
    };
    let mut greatest = table.last;
    let far = chance.one_in(2);
    for (left, key) in keys.iter().enumerate().rev() {
        let spare = (greatest - left as u64 - 1).min(2) as usize;
        let version = greatest - chance.up_to(spare) as u64;
        greatest = version - 1;
        let length = length(chance, VALUE_LIMIT);
        let entry = Entry {
            value: chance.bytes(length),
            version,
            deadline: deadline_for(chance, table.history.latest, far),
        };
        table.entries.insert(key.clone(), entry);
    }
    table
}

/// An entry version that a client might send for the key: the right one, a
/// neighbour, or another.
fn entry_version(chance: &mut Chance, table: &Table, key: &[u8]) -> u64 {
    let held = table.entries.get(key).map_or(table.last, |e| e.version);
    match chance.below(8) {
        0 => held.wrapping_add(1),
        1 => held.wrapping_sub(1),
        2 => held ^ (1 << chance.below(64)),
        3 => table.last,
        4 => eight(chance),
        _ => held,
    }
}

/// An operation by chance. Clear comes rarely, and removals too where many
/// keys are held, so that tables stay full for a while. The long replies to
/// bulk requests come not so often.
fn operation_for(chance: &mut Chance, table: &Table) -> u8 {
    let many = table.entries.len() > 100;
    let operation = operation(chance);
    let rare = match operation {
        CLEAR => !chance.one_in(if many { 80 } else { 10 }),
        REMOVE | REMOVE_IF_UNMODIFIED => many && !chance.one_in(8),
        BULK_GET | BULK_GET_KEYS => !chance.one_in(3),
        _ => false,
    };
    if rare {
        return chance.pick(&[PUT, PUT_IF_ABSENT]);
    }
    operation
}

/// A request for a server with this table: the key is one of these, rarely
/// another; a name comes at times.
pub fn request_for(chance: &mut Chance, table: &Table, keys: &[Vec<u8>]) -> Request {
    let operation = operation_for(chance, table);
    let mut request = request_of(chance, operation);
    if chance.one_in(20) {
        let length = 1 + chance.below(4);
        request.name = text(chance, length);
    }
    if sends_key(operation) {
        request.key = key_for(chance, keys);
    }
    if sends_value(operation) {
        let length = length(chance, VALUE_LIMIT);
        request.value = chance.bytes(length);
        request.lifespan = lifespan_for(chance, table);
    }
    if sends_entry_version(operation) {
        request.entry_version = entry_version(chance, table, &request.key);
    }
    request
}

/// A lifespan for an entry of this table: mostly one that lasts, so that tables
/// stay full for a while, at times a date about the latest second.
fn lifespan_for(chance: &mut Chance, table: &Table) -> u32 {
    let date = about(chance, table.history.latest);
    match chance.below(20) {
        0..=9 => 0,
        10..=13 => LONGEST_SPAN - chance.below(3) as u32,
        14 | 15 => date.min(LARGEST_SECOND) as u32,
        _ => lifespan(chance),
    }
}

fn key_for(chance: &mut Chance, keys: &[Vec<u8>]) -> Vec<u8> {
    if chance.one_in(40) {
        let length = length(chance, KEY_LIMIT);
        return chance.bytes(length);
    }
    chance.pick(keys)
}
