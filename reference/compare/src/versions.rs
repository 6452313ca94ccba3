//! Part n: the four protocol versions beside each other.
//!
//! Each status of each operation, by version and flag, is read and written, and
//! held to a table of the papers. Versions and operations that are not served are
//! refused before any byte. Each field of each request and reply is damaged, and
//! requests of one version have the version byte of another. Streams mix versions
//! and are cut at every place. Replies 03 and 04 show the value held before, and
//! another value changes its own bytes alone.

use reference::operation::{
    greatest_flags, has_old_value, sends_entry_version, serves, BULK_GET, BULK_GET_KEYS, CLEAR,
    ERROR, PING, PUT, PUT_IF_ABSENT, REMOVE, REMOVE_IF_UNMODIFIED, REPLACE, REPLACE_IF_UNMODIFIED,
    SERVED, STATS, VERSIONS,
};
use reference::{
    read_reply, write_number, write_reply, Asked, Entry, Listed, Reply, Request, Table,
};

use crate::calls::{replied, Call, World};
use crate::chance::Chance;
use crate::damage::break_at;
use crate::difference::{hold, same, same_bytes, Difference, Outcome};
use crate::fields::{join, of_reply, of_request, Field};
use crate::lent::Lent;
use crate::make;
use crate::messages::{check_request, read_as, reply_numbers};
use crate::streams::compared_stream;
use crate::subject::{read_code, write_code, ReplyParts, Subject, GOOD};
use crate::trial::Trial;

pub fn round<S: Subject>(trial: &mut Trial<S>) -> Outcome {
    let version = VERSIONS[trial.round as usize % VERSIONS.len()];
    statuses(trial, version)?;
    told(trial)?;
    each_field(trial, version)?;
    each_reply(trial, version)?;
    every_cut(trial)?;
    old_values(trial)
}

/// The statuses that the papers give to this, in versions 10 to 12.
fn plain_statuses(op: u8) -> &'static [u8] {
    match op {
        PUT | CLEAR | STATS | PING | BULK_GET | BULK_GET_KEYS => &[0],
        PUT_IF_ABSENT | REPLACE => &[0, 1],
        REPLACE_IF_UNMODIFIED | REMOVE_IF_UNMODIFIED => &[0, 1, 2],
        _ => &[0, 2],
    }
}

/// The statuses that the papers give to this.
fn listed_statuses(asked: Asked) -> &'static [u8] {
    if asked.version != 20 || !asked.flag {
        return plain_statuses(asked.op);
    }
    match asked.op {
        PUT => &[0, 3],
        PUT_IF_ABSENT => &[0, 4],
        REPLACE => &[1, 3],
        REMOVE => &[2, 3],
        REPLACE_IF_UNMODIFIED | REMOVE_IF_UNMODIFIED => &[2, 3, 4],
        _ => plain_statuses(asked.op),
    }
}

/// Every operation of this version with and without the flag.
fn all_asked(version: u8) -> Vec<Asked> {
    let ops = SERVED.into_iter().filter(|op| serves(version, *op));
    ops.flat_map(|op| [false, true].map(|flag| Asked { version, op, flag }))
        .collect()
}

fn shown(found: Difference, asked: Asked) -> Difference {
    found
        .with("version", asked.version)
        .with("operation", asked.op)
        .with("flag", asked.flag)
}

/// Every status byte, read and written.
fn statuses<S: Subject>(trial: &mut Trial<S>, version: u8) -> Outcome {
    for asked in all_asked(version) {
        for status in 0..=255 {
            one_status(trial, asked, status)
                .map_err(|found| shown(found.with("status", status), asked))?;
        }
    }
    Ok(())
}

fn one_status<S: Subject>(trial: &mut Trial<S>, asked: Asked, status: u8) -> Outcome {
    let listed = listed_statuses(asked).contains(&status);
    let mut front = vec![0xa1];
    write_number(make::long(&mut trial.chance), &mut front);
    front.extend([asked.op + 1, status]);
    let code = if listed { 0 } else { 8 };
    let expected = read_code(&read_reply(asked, &front));
    same("the code of the reference by the papers", code, expected)?;
    read_as(trial, asked, &front)?;
    let reply = Reply {
        id: 1,
        operation: asked.op + 1,
        status,
        ..Reply::default()
    };
    // A stats reply has a writer of its own.
    let written = written_as(trial, asked, &reply)?;
    let right = listed && asked.op != STATS;
    hold(
        (written >= GOOD) == right,
        "the status by the papers, written",
    )
}

/// The reply written by both.
fn written_as<S: Subject>(
    trial: &mut Trial<S>,
    asked: Asked,
    reply: &Reply,
) -> Result<u64, Difference> {
    let mut out = Lent::random(&mut trial.chance, 300);
    let mut expected = out.clone();
    let answer = match reply.operation {
        code if code == STATS + 1 => Err(16),
        _ => write_reply(asked, reply, expected.slice_mut()),
    };
    let numbers = &reply_numbers(reply, 0)[1..];
    let parts = ReplyParts {
        value: &reply.value,
        text: &reply.text,
    };
    let code = trial
        .subject
        .write_reply(out.slice_mut(), asked, numbers, parts);
    trial.counts.message(code);
    same(
        "the return code of fq_write_reply",
        write_code(answer),
        code,
    )?;
    out.same("the buffer, with a margin on both sides", &expected)?;
    Ok(code)
}

/// A version by the round's number, with every operation: 3, then 4, before
/// any byte is looked at, and 16 in writing.
fn told<S: Subject>(trial: &mut Trial<S>) -> Outcome {
    let version = trial.round as u8;
    let error = Reply {
        id: 1,
        operation: ERROR,
        status: 0x85,
        text: b"full".to_vec(),
        ..Reply::default()
    };
    for op in 0..=255 {
        let asked = Asked {
            version,
            op,
            flag: trial.chance.one_in(2),
        };
        let refusal = match (VERSIONS.contains(&version), serves(version, op)) {
            (false, _) => 3,
            (true, false) => 4,
            _ => 0,
        };
        let bytes = join(&of_reply(asked, &error));
        for input in [&[][..], &[0xff], &[0xa1], &bytes] {
            let code = read_code(&read_reply(asked, input));
            let right = refusal == 0 || code == refusal;
            hold(right, "the code of the reference by the papers")
                .and_then(|()| read_as(trial, asked, input))
                .map_err(|found| shown(found, asked))?;
        }
        let code = written_as(trial, asked, &error).map_err(|found| shown(found, asked))?;
        hold((code >= GOOD) == (refusal == 0), "an error reply written")
            .map_err(|found| shown(found, asked))?;
    }
    Ok(())
}

/// A request of each operation of this version: whole, each field broken, cut
/// behind each, each one left out and each one twice, with the version byte of
/// others, and with every flags number about the greatest.
fn each_field<S: Subject>(trial: &mut Trial<S>, version: u8) -> Outcome {
    for op in SERVED.into_iter().filter(|op| serves(version, *op)) {
        let request = of_version(&mut trial.chance, op, version);
        let fields = of_request(&request);
        read_request(trial, &join(&fields))?;
        for at in 0..fields.len() {
            for input in broken_forms(&mut trial.chance, &fields, at) {
                read_request(trial, &input)?;
            }
        }
        for other in [9, 10, 11, 12, 13, 19, 20, 21, 40] {
            let mut fields = fields.clone();
            fields[VERSION_FIELD].bytes = vec![other];
            read_request(trial, &join(&fields))?;
        }
        for flags in 0..=33 {
            let request = Request {
                flags,
                ..request.clone()
            };
            read_request(trial, &join(&of_request(&request)))?;
        }
    }
    Ok(())
}

/// The place of the version among the fields of a request.
const VERSION_FIELD: usize = 2;

/// A request of this operation and version, with a key and a value.
fn of_version(chance: &mut Chance, op: u8, version: u8) -> Request {
    let mut request = make::request(chance);
    while request.operation != op {
        request = make::request(chance);
    }
    request.version = version;
    request.flags = chance.up_to(greatest_flags(version) as usize) as u32;
    request
}

/// The message with another content in this field, without it, with it twice,
/// and cut in front of it.
fn broken_forms(chance: &mut Chance, fields: &[Field], at: usize) -> [Vec<u8>; 4] {
    let mut other = fields.to_vec();
    break_at(chance, &mut other, at);
    let mut without = fields.to_vec();
    without.remove(at);
    let mut twice = fields.to_vec();
    twice.insert(at, fields[at].clone());
    [&other[..], &without, &twice, &fields[..at]].map(join)
}

fn read_request<S: Subject>(trial: &mut Trial<S>, input: &[u8]) -> Outcome {
    check_request(trial, input)
        .map_err(|found| found.with("call", "fq_read_request").bytes("input", input))
}

/// A reply to each operation of this version, with and without the flag, of
/// each status that it may have: whole, and with each field broken, and read as
/// the answer to each other version.
fn each_reply<S: Subject>(trial: &mut Trial<S>, version: u8) -> Outcome {
    for asked in all_asked(version) {
        for status in listed_statuses(asked) {
            let fields = of_reply(asked, &reply_of(&mut trial.chance, asked, *status));
            for version in VERSIONS {
                read_as(trial, Asked { version, ..asked }, &join(&fields))?;
            }
            for at in 0..fields.len() {
                for input in broken_forms(&mut trial.chance, &fields, at) {
                    read_as(trial, asked, &input)?;
                }
            }
        }
    }
    Ok(())
}

/// A reply with this status; where no value follows, it is left out.
fn reply_of(chance: &mut Chance, asked: Asked, status: u8) -> Reply {
    let length = make::length(chance, 256);
    let listed = Listed {
        key: b"k".to_vec(),
        value: Vec::new(),
    };
    let mut reply = Reply {
        id: make::long(chance),
        operation: asked.op + 1,
        status,
        value: chance.bytes(length),
        entries: vec![listed],
        ..Reply::default()
    };
    let mut out = [0; 512];
    // What does not fit the status is taken out until the reference writes it.
    for take in [
        |reply: &mut Reply| reply.entries.clear(),
        |reply: &mut Reply| reply.value.clear(),
    ] {
        if write_reply(asked, &reply, &mut out).is_err() {
            take(&mut reply);
        }
    }
    reply
}

/// A row of requests of all versions, as two streams that are cut at every
/// place of it.
fn every_cut<S: Subject>(trial: &mut Trial<S>) -> Outcome {
    let start = few(&mut trial.chance);
    let mut row = Vec::new();
    for _ in 0..3 {
        row.extend(mixed(&mut trial.chance, &start));
    }
    let step = 1 + row.len() / 160;
    for cut in (0..=row.len()).step_by(step) {
        let mut world = start.clone();
        let mut taken = 0;
        for end in [cut, row.len()] {
            let call = Call {
                input: &row[taken..end],
                second: make::second_for(&mut trial.chance, &world.table),
                room: 4096,
            };
            let more = compared_stream(trial, &mut world, call)?.taken;
            taken += more;
        }
        same("the bytes of the row that are taken", row.len(), taken)?;
    }
    Ok(())
}

/// A table of few short entries.
fn few(chance: &mut Chance) -> World {
    let keys: Vec<Vec<u8>> = [&b""[..], b"k", b"ke"].map(<[u8]>::to_vec).to_vec();
    let mut table = make::table_of(chance, &keys[..2]);
    table.last = table.last.min(1 << 40);
    for (at, entry) in table.entries.values_mut().enumerate() {
        let length = chance.below(4);
        *entry = Entry {
            value: chance.bytes(length),
            version: 1 + at as u64,
            deadline: 0,
        };
    }
    table.last = table.last.max(2);
    World::of(chance, table, keys)
}

/// One request of each version, mostly one with an old value, in any order.
fn mixed(chance: &mut Chance, world: &World) -> Vec<u8> {
    let mut versions = VERSIONS;
    chance.shuffle(&mut versions);
    let mut row = Vec::new();
    for version in versions {
        let mut request = make::request_for(chance, &world.table, &world.keys);
        while !has_old_value(request.operation) && !chance.one_in(6)
            || [BULK_GET, BULK_GET_KEYS].contains(&request.operation)
        {
            request = make::request_for(chance, &world.table, &world.keys);
        }
        request.version = version;
        request.flags = chance.up_to(greatest_flags(version) as usize) as u32 | 1;
        request.value.truncate(3);
        request.name.clear();
        row.extend(join(&of_request(&request)));
    }
    row
}

/// Each operation with an old value, in version 20 with the flag, on a key that
/// is held and on one that is not: the reply is made here from the value held.
/// Two tables that differ in that value give replies that differ in it alone,
/// and the same replies about another key.
fn old_values<S: Subject>(trial: &mut Trial<S>) -> Outcome {
    let length = make::length(&mut trial.chance, 256);
    let values = [0, 1].map(|_| trial.chance.bytes(length));
    for op in SERVED.into_iter().filter(|op| has_old_value(*op)) {
        for fits in [true, false] {
            let mut request = of_version(&mut trial.chance, op, 20);
            request.name.clear();
            request.flags |= 1;
            request.key = b"held".to_vec();
            if sends_entry_version(op) {
                request.entry_version = if fits { HELD } else { HELD + 1 };
            }
            for value in &values {
                let expected = with_value(&request, value);
                answered(trial, value, &request, &expected)?;
            }
            request.key = b"absent".to_vec();
            for value in &values {
                let status = absent_status(op);
                let expected = [front(&request), vec![status, 0]].concat();
                answered(trial, value, &request, &expected)?;
            }
        }
    }
    Ok(())
}

/// The version of the entry that is held.
const HELD: u64 = 7;

fn front(request: &Request) -> Vec<u8> {
    let mut bytes = vec![0xa1];
    write_number(request.id, &mut bytes);
    bytes.push(request.operation + 1);
    bytes
}

/// The reply to the request where the key holds this value.
fn with_value(request: &Request, value: &[u8]) -> Vec<u8> {
    let not_done = request.operation == PUT_IF_ABSENT
        || (sends_entry_version(request.operation) && request.entry_version != HELD);
    let mut bytes = front(request);
    bytes.extend([if not_done { 4 } else { 3 }, 0]);
    write_number(value.len() as u64, &mut bytes);
    bytes.extend_from_slice(value);
    bytes
}

/// The status where the key is absent.
fn absent_status(op: u8) -> u8 {
    match op {
        PUT | PUT_IF_ABSENT => 0,
        REPLACE => 1,
        _ => 2,
    }
}

/// The request to a table with this value under `held`, and its reply.
fn answered<S: Subject>(
    trial: &mut Trial<S>,
    value: &[u8],
    request: &Request,
    expected: &[u8],
) -> Outcome {
    let mut table = Table {
        last: HELD + 1,
        ..Table::default()
    };
    for (key, version) in [(&b"held"[..], HELD), (b"other", HELD + 1)] {
        let entry = Entry {
            value: value.to_vec(),
            version,
            deadline: 0,
        };
        table.entries.insert(key.to_vec(), entry);
    }
    let mut world = World::of(&mut trial.chance, table, Vec::new());
    let call = Call {
        input: &join(&of_request(request)),
        second: 5,
        room: 512,
    };
    let (_, reply) = replied(trial, &mut world, call)?;
    same_bytes("the reply, made from the value held", expected, &reply)
        .map_err(|found| found.with("request", format!("{request:?}")))
}
