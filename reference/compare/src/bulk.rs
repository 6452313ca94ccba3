//! Part l: bulk requests and their replies.
//!
//! What a call lists is compared with the rows of the table's memory that
//! stand, every reply is walked entry by entry, and bulk requests come at every place of a
//! stream.

use reference::listing::MOST_LISTED;
use reference::map::MOST_KEYS;
use reference::operation::{
    greatest_bulk, greatest_flags, serves, BULK_GET, BULK_GET_KEYS, VERSIONS,
};
use reference::serve::{BULK_ROOM, LEAST_ROOM};
use reference::{read_request, serve, write_number, Listed, Read, Request, Table};

use crate::calls::{replied, state_is, Call, World};
use crate::chance::Chance;
use crate::difference::{hold, same, same_bytes, Outcome};
use crate::entries;
use crate::fields::{join, of_request};
use crate::lent::Words;
use crate::make;
use crate::memory::{standing, Row};
use crate::streams::compared_stream;
use crate::subject::{verdict_code, Subject, FULL, GOOD, STREAM_WORDS};
use crate::trial::Trial;

/// How many entries a table or a reply has.
pub const HELD: [usize; 4] = [0, 1, 96, 128];
const COUNTS: [u32; 6] = [0, 1, 127, 128, 129, u32::MAX];
const ROOMS: [usize; 4] = [LEAST_ROOM - 1, LEAST_ROOM, BULK_ROOM - 1, BULK_ROOM];

pub fn round<S: Subject>(trial: &mut Trial<S>) -> Outcome {
    for held in HELD {
        listings(trial, held)?;
        entries::replies(trial, held)?;
    }
    entries::one_too_many(trial)?;
    entries::written(trial)?;
    every_place(trial)?;
    changed_value(trial)
}

/// So many different keys of any length, at times all of the greatest.
fn keys(chance: &mut Chance, count: usize, longest: bool) -> Vec<Vec<u8>> {
    let mut keys = Vec::new();
    for at in 0..count {
        let length = if longest {
            64
        } else {
            make::length(chance, 64)
        };
        let mut key = chance.bytes(length.max(1));
        key[0] = at as u8;
        keys.push(key);
    }
    if count > 0 && chance.one_in(2) && !longest {
        keys[count - 1].clear();
    }
    chance.shuffle(&mut keys);
    keys
}

/// A table with so many entries, at times the longest ones.
fn world(chance: &mut Chance, held: usize) -> World {
    let longest = chance.one_in(3);
    let keys = keys(chance, held, longest);
    let mut table = make::table_of(chance, &keys);
    for entry in table.entries.values_mut().filter(|_| longest) {
        entry.value = chance.bytes(256);
    }
    World::of(chance, table, keys)
}

/// A bulk request with this number, whether or not it keeps the rules.
fn request(chance: &mut Chance, operation: u8, number: u32) -> Request {
    let version = chance.pick(&VERSIONS);
    let mut request = Request {
        version,
        flags: chance.up_to(greatest_flags(version) as usize) as u32,
        bulk: number,
        ..make::request_of(chance, operation)
    };
    if chance.one_in(8) {
        request.name = make::text(chance, 3);
    }
    request
}

/// All counts and scopes, each in all rooms.
fn listings<S: Subject>(trial: &mut Trial<S>, held: usize) -> Outcome {
    let mut world = world(&mut trial.chance, held);
    let asked = COUNTS.map(|count| (BULK_GET, count));
    let scopes = [0, 1, 2, 3].map(|scope| (BULK_GET_KEYS, scope));
    for (operation, number) in asked.into_iter().chain(scopes) {
        let request = request(&mut trial.chance, operation, number);
        for room in ROOMS {
            listing(trial, &mut world, &request, room)?;
        }
    }
    Ok(())
}

/// The code that the papers give, and whether the request is taken.
fn expected_code(request: &Request, room: usize) -> (u64, bool) {
    let scope = request.operation == BULK_GET_KEYS && request.bulk > 2;
    if room < LEAST_ROOM {
        return (12, false);
    }
    if !serves(request.version, request.operation) {
        return (4, false);
    }
    match (scope, room < BULK_ROOM, request.name.is_empty()) {
        (true, _, _) => (8, false),
        (_, true, _) => (12, true),
        (_, _, false) => (9, true),
        _ => (GOOD, true),
    }
}

fn listing<S: Subject>(
    trial: &mut Trial<S>,
    world: &mut World,
    request: &Request,
    room: usize,
) -> Outcome {
    let input = join(&of_request(request));
    let tail = trial.chance.up_to(20);
    let row = [&input[..], &trial.chance.bytes(tail)].concat();
    let call = Call {
        input: &row,
        second: make::second_for(&mut trial.chance, &world.table),
        room,
    };
    let before = world.memory.clone();
    let (answer, reply) = replied(trial, world, call)?;
    let (code, taken) = expected_code(request, room);
    let taken = if taken { input.len() } else { 0 };
    let right = same("the code by the papers", code, verdict_code(answer.verdict))
        .and_then(|()| same("the bytes taken by the papers", taken, answer.taken));
    right
        .and_then(|()| match code {
            GOOD => listed(
                trial,
                &standing(before.slice(), call.second),
                request,
                &reply,
            ),
            _ => Ok(()),
        })
        .map_err(|found| {
            found
                .with("request", format!("{request:?}"))
                .with("room", room)
                .bytes("reply", &reply)
        })
}

/// The reply is the lowest of the rows that stand, and is walked through them.
pub fn listed<S: Subject>(
    trial: &mut Trial<S>,
    rows: &[Row],
    request: &Request,
    reply: &[u8],
) -> Outcome {
    let values = request.operation == BULK_GET;
    let count = match request.bulk as usize {
        0 => rows.len(),
        count if values => count.min(rows.len()),
        _ => rows.len(),
    };
    let rows = &rows[..count];
    let expected = [reply_front(request), listing_bytes(rows, values)].concat();
    same_bytes("the reply, made from the rows", &expected, reply)?;
    let entries: Vec<Listed> = rows.iter().map(|row| shown(row, values)).collect();
    entries::walked(trial, reply, request.operation, &entries)
}

fn shown(row: &Row, values: bool) -> Listed {
    Listed {
        key: row.key.to_vec(),
        value: if values {
            row.value.to_vec()
        } else {
            Vec::new()
        },
    }
}

/// The bytes of a bulk reply before its entries.
fn reply_front(request: &Request) -> Vec<u8> {
    let mut front = vec![0xa1];
    write_number(request.id, &mut front);
    front.extend([request.operation + 1, 0, 0]);
    front
}

fn put_part(bytes: &[u8], out: &mut Vec<u8>) {
    write_number(bytes.len() as u64, out);
    out.extend_from_slice(bytes);
}

/// The bytes of one entry.
fn entry_bytes(row: &Row, values: bool) -> Vec<u8> {
    let mut bytes = vec![1];
    put_part(row.key, &mut bytes);
    if values {
        put_part(row.value, &mut bytes);
    }
    bytes
}

fn listing_bytes(rows: &[Row], values: bool) -> Vec<u8> {
    let mut bytes: Vec<u8> = rows
        .iter()
        .flat_map(|row| entry_bytes(row, values))
        .collect();
    bytes.push(0);
    bytes
}

/// A buffer for the replies of a stream: about the least rooms, and for one or
/// more of the longest replies.
fn stream_room(chance: &mut Chance) -> usize {
    let near = chance.below(600);
    chance.pick(&[
        LEAST_ROOM,
        LEAST_ROOM + near,
        BULK_ROOM - 1,
        BULK_ROOM,
        BULK_ROOM,
        BULK_ROOM + near,
        BULK_ROOM + LEAST_ROOM,
        2 * BULK_ROOM + near,
        3 * BULK_ROOM,
    ])
}

/// A bulk request at every place of a stream, and at its end.
fn every_place<S: Subject>(trial: &mut Trial<S>) -> Outcome {
    let start = World::any(&mut trial.chance);
    let count = trial.chance.pick(&[5, 20, 40]);
    let mut requests = Vec::new();
    for _ in 0..count {
        let request = make::request_for(&mut trial.chance, &start.table, &start.keys);
        requests.push(join(&of_request(&request)));
    }
    for place in 0..=count {
        let operation = trial.chance.pick(&[BULK_GET, BULK_GET_KEYS]);
        let bulk = make::request_of(&mut trial.chance, operation);
        let mut row = requests.clone();
        row.insert(place, join(&of_request(&bulk)));
        let row = row.concat();
        let room = stream_room(&mut trial.chance);
        whole_row(trial, &start, &row, room)?;
        if room >= BULK_ROOM {
            nothing_lost(trial, &start, &row, room)?;
        }
    }
    Ok(())
}

/// The row through streams with a buffer of this size, until nothing is taken.
fn whole_row<S: Subject>(trial: &mut Trial<S>, start: &World, row: &[u8], room: usize) -> Outcome {
    let mut world = start.clone();
    let mut taken = 0;
    loop {
        let call = Call {
            input: &row[taken..],
            second: make::second_for(&mut trial.chance, &world.table),
            room,
        };
        let more = compared_stream(trial, &mut world, call)?.taken;
        taken += more;
        if more == 0 {
            return same("the bytes of the row that are taken", row.len(), taken);
        }
    }
}

/// With a buffer for the longest reply no request of the row meets 12: the
/// replies of all streams are those of the requests one by one, each with a
/// buffer of its own.
fn nothing_lost<S: Subject>(
    trial: &mut Trial<S>,
    start: &World,
    row: &[u8],
    room: usize,
) -> Outcome {
    let second = make::second_for(&mut trial.chance, &start.table);
    let mut world = start.clone();
    let expected = one_by_one(&mut world, row, second);
    let mut got = Vec::new();
    let mut taken = 0;
    let mut code = FULL;
    while code == FULL {
        let mut words = Words::new(STREAM_WORDS);
        let mut replies = vec![0; room];
        code = trial.subject.serve_stream(
            &row[taken..],
            world.memory.slice_mut(),
            second,
            &mut replies,
            words.slice_mut(),
        );
        trial.counts.input(code);
        let [more, sent] = [words.slice()[0] as usize, words.slice()[1] as usize];
        hold(code != FULL || more > 0, "a full stream that takes nothing")?;
        taken += more;
        got.extend_from_slice(&replies[..sent]);
    }
    same("the bytes of the row that are taken", row.len(), taken)
        .and_then(|()| same_bytes("the replies of all streams", &expected, &got))
        .and_then(|()| state_is(trial, &world, &start.memory))
        .map_err(|found| found.bytes("row", row).with("room", room))
}

/// The replies of the reference to each request, with room enough, which lead
/// its table on.
fn one_by_one(world: &mut World, row: &[u8], second: u32) -> Vec<u8> {
    let mut replies = Vec::new();
    let mut rest = row;
    let mut room = vec![0; BULK_ROOM];
    while let Read::Whole(_, taken) = read_request(rest) {
        let answer = serve(rest, &mut world.table, second, &mut room);
        replies.extend_from_slice(&room[..answer.reply_len]);
        rest = &rest[taken..];
    }
    replies
}

/// Two tables that differ in the value of one entry: the bulk replies differ in
/// its bytes alone. At times other entries have the bytes of one of both values.
fn changed_value<S: Subject>(trial: &mut Trial<S>) -> Outcome {
    let held = 1 + trial.chance.below(MOST_KEYS);
    let mut one = world(&mut trial.chance, held);
    let second = make::second_for(&mut trial.chance, &one.table);
    let mut other = one.clone();
    let rows = standing(one.memory.slice(), second);
    if rows.is_empty() {
        return Ok(());
    }
    let place = trial.chance.below(rows.len());
    let key = rows[place].key.to_vec();
    let values = [0, 1].map(|_| trial.chance.bytes(100));
    let mut table = one.table.clone();
    if trial.chance.one_in(2) {
        beside(&mut trial.chance, &mut table, &values);
    }
    for (side, value) in [&mut one, &mut other].into_iter().zip(values) {
        let mut table = table.clone();
        table.entries.entry(key.clone()).or_default().value = value;
        *side = World::of(&mut trial.chance, table, Vec::new());
    }
    let count = trial.chance.pick(&[0, 1, held / 2, held, 128]) as u32;
    for (operation, number) in [(BULK_GET, count), (BULK_GET_KEYS, 1)] {
        let asked = Request {
            bulk: number,
            ..make::request_of(&mut trial.chance, operation)
        };
        differ_there(trial, &mut one, &mut other, &asked, (place, second))?;
    }
    Ok(())
}

/// Gives some of the entries one of these values.
fn beside(chance: &mut Chance, table: &mut Table, values: &[Vec<u8>]) {
    for entry in table.entries.values_mut() {
        if chance.one_in(3) {
            entry.value = chance.pick(values);
        }
    }
}

fn differ_there<S: Subject>(
    trial: &mut Trial<S>,
    one: &mut World,
    other: &mut World,
    request: &Request,
    (place, second): (usize, u32),
) -> Outcome {
    let call = Call {
        input: &join(&of_request(request)),
        second,
        room: BULK_ROOM,
    };
    let memory = one.memory.clone();
    let (_, mine) = replied(trial, one, call)?;
    let (_, theirs) = replied(trial, other, call)?;
    let rows = standing(memory.slice(), second);
    let before = listing_bytes(&rows[..place], true).len() - 1;
    let end = reply_front(request).len() + before + entry_bytes(&rows[place], true).len();
    let values = end - rows[place].value.len()..end;
    same("the lengths of both replies", mine.len(), theirs.len())?;
    let inside = |at: usize| request.operation == BULK_GET && values.contains(&at);
    let outside = (0..mine.len()).find(|at| mine[*at] != theirs[*at] && !inside(*at));
    hold(
        outside.is_none(),
        "bulk replies differ outside of that value",
    )
    .map_err(|found| {
        found
            .bytes("one reply", &mine)
            .bytes("other reply", &theirs)
    })?;
    let shown = greatest_bulk(request.operation) == Some(u32::MAX)
        && (request.bulk == 0 || place < request.bulk as usize);
    hold(
        !shown || mine[values.clone()] == *rows[place].value,
        "that value in its reply",
    )
}

/// The most entries of a reply are those of a table.
const _: () = assert!(MOST_LISTED == MOST_KEYS);
