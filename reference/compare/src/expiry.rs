//! Part m: entries that expire.
//!
//! Seconds go back and forth about the deadlines held. What stands before a
//! call is read from the rows of the table's memory, and each reply, the rows
//! behind the call and the stored files are held to it. Calls that are refused
//! and loads come in between, and tables are damaged in their seconds and in
//! their bound.

use reference::history::LARGEST_SECOND;
use reference::map::{LARGEST_DEADLINE, LARGEST_VERSION, LONGEST_SPAN, MOST_KEYS};
use reference::operation::{
    sends_key, sends_value, BULK_GET, BULK_GET_KEYS, CLEAR, CONTAINS_KEY, GET, GET_WITH_VERSION,
    PING, PUT, PUT_IF_ABSENT, REMOVE, REMOVE_IF_UNMODIFIED, REPLACE, REPLACE_IF_UNMODIFIED, STATS,
};
use reference::serve::BULK_ROOM;
use reference::{load, read_reply, store, Entry, History, Read, Reply, Request, Table, Verdict};

use crate::bulk;
use crate::calls::{replied, room_for, Call, World};
use crate::chance::Chance;
use crate::damage;
use crate::difference::{hold, same, Difference, Outcome};
use crate::fields::{join, of_request};
use crate::lent::{Lent, Words};
use crate::make;
use crate::memory::{
    greatest_bound, number, present, put_number, rows, shown, standing, Row, BOUND, FIRST, LATEST,
};
use crate::stored::{loaded, stored};
use crate::subject::{verdict_code, Stores, GOOD, SERVE_WORDS};
use crate::trial::Trial;

const CALLS: usize = 60;

pub fn round<S: Stores>(trial: &mut Trial<S>) -> Outcome {
    damaged_seconds(trial)?;
    refused_then_earlier(trial)?;
    no_version_then_earlier(trial)?;
    let mut world = world(&mut trial.chance);
    for _ in 0..CALLS {
        if trial.chance.one_in(20) {
            reloaded(trial, &mut world)?;
        }
        let input = input(&mut trial.chance, &world.table, &world.keys);
        let call = Call {
            input: &input,
            second: make::second_for(&mut trial.chance, &world.table),
            room: room_for(&mut trial.chance, &input),
        };
        another_bound(&mut trial.chance, world.memory.slice_mut());
        files(trial, &world, 4)?;
        held_to_rows(trial, &mut world, call)?;
        files(trial, &world, 4)?;
    }
    Ok(())
}

/// A table of which some entries have expired at the latest second, or are
/// about to, or only a few; half of the time with as many as may be.
fn world(chance: &mut Chance) -> World {
    let spread = chance.pick(&[1, 3, 40, 3000]);
    let latest = match chance.below(4) {
        0 => chance.below(5) as u64,
        1 => LARGEST_SECOND - chance.below(60) as u64,
        2 => u64::from(LONGEST_SPAN) + chance.below(60) as u64,
        _ => 1_000_000_000 + chance.below(60) as u64,
    };
    let most = chance.up_to(MOST_KEYS);
    let held = chance.pick(&[MOST_KEYS, MOST_KEYS, 3, most]);
    let keys: Vec<Vec<u8>> = (0..MOST_KEYS + 6).map(|at| vec![at as u8, 9]).collect();
    let mut table = make::table_of(chance, &keys[..held]);
    table.history = History {
        latest,
        ..make::history(chance)
    };
    let few = chance.one_in(2);
    for entry in table.entries.values_mut() {
        entry.deadline = match chance.below(10) {
            _ if few && !chance.one_in(40) => chance.pick(&[0, LARGEST_SECOND + 1]),
            0..=2 => 0,
            3 => latest.saturating_sub(1),
            4 => latest,
            5 => latest + 1,
            6 => LARGEST_DEADLINE,
            _ => latest + chance.up_to(spread) as u64,
        };
    }
    World::of(chance, table, keys)
}

/// A request whose lifespan ends about the present second, and at times one
/// that is refused.
fn input(chance: &mut Chance, table: &Table, keys: &[Vec<u8>]) -> Vec<u8> {
    let mut request = make::request_for(chance, table, keys);
    if sends_key(request.operation) && chance.one_in(3) {
        request.key = absent_key(chance, table, keys);
    }
    if sends_value(request.operation) && chance.one_in(3) {
        let date = make::about(chance, table.history.latest).min(LARGEST_SECOND);
        let span = 1 + chance.below(4) as u32;
        request.lifespan = chance.pick(&[0, span, date as u32]);
    }
    if chance.one_in(6) {
        let operation = chance.pick(&[STATS, BULK_GET, BULK_GET_KEYS]);
        request = make::request_of(chance, operation);
    }
    let fields = of_request(&request);
    let bytes = join(&fields);
    match chance.below(15) {
        0 => damage::cut(chance, &bytes),
        1 => damage::broken(chance, &fields),
        _ => bytes,
    }
}

/// A key that is not held, or whose entry has expired; there are more keys than
/// a table holds.
fn absent_key(chance: &mut Chance, table: &Table, keys: &[Vec<u8>]) -> Vec<u8> {
    let held = |key: &Vec<u8>| table.entries.get(key);
    let stands = |entry: &Entry| entry.stands(table.history.latest);
    let absent = keys.iter().filter(|key| !held(key).is_some_and(stands));
    chance.pick(&absent.collect::<Vec<_>>()).clone()
}

/// Another bound that the rows allow: a table with it is the same table.
fn another_bound(chance: &mut Chance, memory: &mut [u8]) {
    let rows = rows(memory).unwrap_or_default();
    let greatest = greatest_bound(&rows).unwrap_or(u64::MAX);
    let low = chance.number() % greatest.max(1);
    match chance.below(12) {
        0 => put_number(memory, BOUND, greatest),
        1 => put_number(memory, BOUND, greatest - 1),
        2 => put_number(memory, BOUND, low),
        3 => put_number(memory, BOUND, 0),
        _ => {}
    }
}

/// The stored file, once in so many times: it is the reference's, it can be
/// loaded, and its lines are the rows that stand at the latest second.
fn files<S: Stores>(trial: &mut Trial<S>, world: &World, times: usize) -> Outcome {
    if !trial.chance.one_in(times) {
        return Ok(());
    }
    stored(trial, world)?;
    let file = store(&world.table);
    let lines = file.iter().filter(|byte| **byte == b'\n').count();
    let standing = standing(world.memory.slice(), 0).len();
    same("the entries of the stored file", standing, lines - 1)?;
    loaded(trial, &file, world.memory.slice().len())
}

/// The table is stored and loaded: it starts from second 0.
fn reloaded<S: Stores>(trial: &mut Trial<S>, world: &mut World) -> Outcome {
    let file = store(&world.table);
    let code = trial.subject.load(&file, world.memory.slice_mut());
    same("the return code of fq_load", GOOD, code)?;
    world.table = load(&file).unwrap_or_default();
    let memory = world.memory.slice();
    same(
        "the latest second of a loaded table",
        0,
        number(memory, LATEST),
    )
}

/// Makes the call on both, and holds its reply and the rows behind it to the
/// rows that stood before it.
fn held_to_rows<S: Stores>(trial: &mut Trial<S>, world: &mut World, call: Call) -> Outcome {
    let before = world.memory.clone();
    let (answer, reply) = replied(trial, world, call)?;
    if answer.verdict != Verdict::Served {
        return Ok(());
    }
    let Read::Whole(request, _) = reference::read_request(call.input) else {
        return Err(Difference::new("a request that is served is not read"));
    };
    let rows = standing(before.slice(), call.second);
    replied_rows(trial, &rows, &request, &reply)
        .and_then(|()| left_rows(&before, world, call.second, &request))
        .map_err(|found| {
            found
                .with("request", format!("{request:?}"))
                .with("second", call.second)
                .bytes("reply", &reply)
                .with("table before", shown(before.slice()))
                .with("table after", shown(world.memory.slice()))
        })
}

/// The reply shows what stood.
fn replied_rows<S: Stores>(
    trial: &mut Trial<S>,
    rows: &[Row],
    request: &Request,
    bytes: &[u8],
) -> Outcome {
    let Read::Whole(reply, _) = read_reply(request.asked(), bytes) else {
        return Err(Difference::new("a reply that is sent is not read"));
    };
    let held = rows.iter().find(|row| row.key == request.key);
    match request.operation {
        BULK_GET | BULK_GET_KEYS => return bulk::listed(trial, rows, request, bytes),
        STATS => {
            let count = reply.statistics[1];
            return same("currentNumberOfEntries", rows.len() as u64, count);
        }
        _ if !sends_key(request.operation) => return Ok(()),
        _ => {}
    }
    let (absent, present) = statuses(request, held);
    let status = match held {
        None => absent,
        Some(_) if request.version == 20 && request.flags % 2 == 1 && sends_old(request) => {
            present + 3
        }
        Some(_) => present,
    };
    same("the status by what stands", status, reply.status)?;
    hold(
        shows(&reply, held),
        "a value or version that does not stand",
    )
}

/// Whether the operation has an old value: those that write or remove.
fn sends_old(request: &Request) -> bool {
    !matches!(request.operation, GET | GET_WITH_VERSION | CONTAINS_KEY)
}

/// The status where the key is absent, and where this entry is held.
fn statuses(request: &Request, held: Option<&Row>) -> (u8, u8) {
    let other = held.is_some_and(|row| row.version != request.entry_version);
    match request.operation {
        PUT => (0, 0),
        PUT_IF_ABSENT => (0, 1),
        REPLACE => (1, 0),
        REPLACE_IF_UNMODIFIED | REMOVE_IF_UNMODIFIED => (2, u8::from(other)),
        GET | GET_WITH_VERSION | CONTAINS_KEY | REMOVE => (2, 0),
        _ => (0, 0),
    }
}

/// Whether a value or version in the reply is that of this entry.
fn shows(reply: &Reply, held: Option<&Row>) -> bool {
    let (version, value) = held.map_or((0, &[][..]), |row| (row.version, row.value));
    (reply.value.is_empty() || reply.value == value)
        && (reply.version == 0 || reply.version == version)
}

/// Behind the call each row is one that stood before it, but for the one of a
/// version that the call issued; the latest second is the present one.
fn left_rows(before: &Lent, world: &World, second: u32, request: &Request) -> Outcome {
    let (old, new) = (before.slice(), world.memory.slice());
    let now = present(old, second);
    same("the latest second", now, number(new, LATEST))?;
    let stood = standing(old, second);
    let left = rows(new).unwrap_or_default();
    let last = number(new, crate::memory::LAST);
    let issued = last - number(old, crate::memory::LAST);
    let written = |row: &Row| issued == 1 && row.version == last && row.key == request.key;
    hold(
        left.iter().all(|row| written(row) || stood.contains(row)),
        "a row behind the call that did not stand before it",
    )?;
    let kept = |row: &&Row| row.key == request.key || left.contains(row);
    let clears = request.operation == CLEAR;
    hold(
        clears || stood.iter().all(|row| kept(&row)),
        "a row that stood is gone behind the call",
    )
}

/// One call on the subject and the reference, and the code that it has to
/// give.
fn gives<S: Stores>(
    trial: &mut Trial<S>,
    world: &mut World,
    second: u32,
    request: &Request,
    code: u64,
) -> Outcome {
    let call = Call {
        input: &join(&of_request(request)),
        second,
        room: BULK_ROOM - usize::from(code == 12),
    };
    let (answer, _) = replied(trial, world, call)?;
    same("the code by the papers", code, verdict_code(answer.verdict))?;
    files(trial, world, 1)
}

/// A full table of this last version, of which one entry has this deadline.
fn full(chance: &mut Chance, deadline: u64, last: u64) -> World {
    let keys: Vec<Vec<u8>> = (0..=MOST_KEYS).map(|at| vec![at as u8; 3]).collect();
    let mut table = Table {
        last,
        ..Table::default()
    };
    for (at, key) in keys[..MOST_KEYS].iter().enumerate() {
        let entry = Entry {
            value: chance.bytes(5),
            version: at as u64 + 1,
            deadline: if at == 0 { deadline } else { 0 },
        };
        table.entries.insert(key.clone(), entry);
    }
    World::of(chance, table, keys)
}

/// A request about a key, without a lifespan.
fn about(chance: &mut Chance, operation: u8, key: &[u8]) -> Request {
    Request {
        key: key.to_vec(),
        lifespan: 0,
        ..make::request_of(chance, operation)
    }
}

/// A call that is refused at or behind the end of the first key's entry, and
/// one before it, which still sees the entry.
fn refused_and_earlier<S: Stores>(
    trial: &mut Trial<S>,
    world: &mut World,
    end: u32,
    (refused, code): (&Request, u64),
) -> Outcome {
    let later = trial.chance.pick(&[end, end + 1, u32::MAX]);
    gives(trial, world, later, refused, code)?;
    let get = about(&mut trial.chance, GET_WITH_VERSION, &world.keys[0]);
    gives(trial, world, end - 1, &get, GOOD)?;
    same("the keys held", MOST_KEYS, world.table.entries.len())
}

/// Calls that are refused 9 and 12; then one at the deadline, for which there
/// is room for another key, and one before it again, for which there is none:
/// the second that was served stays the present one.
fn refused_then_earlier<S: Stores>(trial: &mut Trial<S>) -> Outcome {
    let end = 5 + trial.chance.below(1000) as u32;
    let mut world = full(&mut trial.chance, u64::from(end), MOST_KEYS as u64);
    let (first, new) = (world.keys[0].clone(), world.keys[MOST_KEYS].clone());
    let named = Request {
        name: b"n".to_vec(),
        ..about(&mut trial.chance, GET, &first)
    };
    let all = make::request_of(&mut trial.chance, BULK_GET);
    for (refused, code) in [(named, 9), (all, 12)] {
        refused_and_earlier(trial, &mut world, end, (&refused, code))?;
    }
    let put = about(&mut trial.chance, PUT, &new);
    gives(trial, &mut world, end - 1, &put, 10)?;
    gives(trial, &mut world, end, &put, GOOD)?;
    same("the keys held", MOST_KEYS, world.table.entries.len())?;
    let again = about(&mut trial.chance, PUT_IF_ABSENT, &first);
    gives(trial, &mut world, end - 1, &again, 10)?;
    same(
        "the latest second",
        u64::from(end),
        world.table.history.latest,
    )
}

/// The same at the last version: writes of a key that is held, of one that is
/// not, and of the one whose entry ends are refused 11. Before the end a key
/// that is not held is 10, and at the end the entry goes.
fn no_version_then_earlier<S: Stores>(trial: &mut Trial<S>) -> Outcome {
    let end = 5 + trial.chance.below(1000) as u32;
    let mut world = full(&mut trial.chance, u64::from(end), LARGEST_VERSION);
    for key in [1, MOST_KEYS, 0] {
        let put = about(&mut trial.chance, PUT, &world.keys[key]);
        refused_and_earlier(trial, &mut world, end, (&put, 11))?;
    }
    let put = about(&mut trial.chance, PUT, &world.keys[MOST_KEYS]);
    gives(trial, &mut world, end - 1, &put, 10)?;
    let get = about(&mut trial.chance, GET, &world.keys[0]);
    gives(trial, &mut world, end, &get, GOOD)?;
    same("the keys held", MOST_KEYS - 1, world.table.entries.len())?;
    gives(trial, &mut world, end - 1, &put, 11)
}

/// A place in the head, a number, and whether memory with it is a table.
fn seconds(greatest: Option<u64>) -> Vec<(usize, u64, bool)> {
    let mut cases = vec![
        (LATEST, 0, true),
        (LATEST, LARGEST_SECOND, true),
        (LATEST, LARGEST_SECOND + 1, false),
        (LATEST, 1 << 40, false),
        (LATEST, u64::MAX, false),
        // The first second plus 1.
        (FIRST, 0, true),
        (FIRST, LARGEST_SECOND + 1, true),
        (FIRST, LARGEST_SECOND + 2, false),
        (FIRST, u64::MAX, false),
        (BOUND, 0, true),
        (BOUND, u64::MAX, greatest.is_none()),
        (BOUND, LARGEST_DEADLINE + 1, greatest.is_none()),
    ];
    if let Some(greatest) = greatest {
        cases.push((BOUND, greatest - 1, true));
        cases.push((BOUND, greatest, true));
        cases.push((BOUND, greatest + 1, false));
    }
    cases
}

/// Tables with another latest second, first second or bound.
fn damaged_seconds<S: Stores>(trial: &mut Trial<S>) -> Outcome {
    let world = world(&mut trial.chance);
    let greatest = greatest_bound(&rows(world.memory.slice()).unwrap_or_default());
    for (place, value, sound) in seconds(greatest) {
        let mut memory = world.memory.clone();
        put_number(memory.slice_mut(), place, value);
        is_or_is_none(trial, &memory, sound).map_err(|found| {
            found
                .with("place in the head", place)
                .with("number", value)
                .with("memory", shown(memory.slice()))
        })?;
    }
    Ok(())
}

fn is_or_is_none<S: Stores>(trial: &mut Trial<S>, memory: &Lent, sound: bool) -> Outcome {
    let answer = trial.subject.is_table(memory.slice());
    same("the answer of fq_is_table", sound, answer)?;
    let mut after = memory.clone();
    let input = join(&of_request(&make::request_of(&mut trial.chance, PING)));
    let mut words = Words::new(SERVE_WORDS);
    let second = make::second(&mut trial.chance);
    let code = trial.subject.serve(
        &input,
        after.slice_mut(),
        second,
        &mut [0; 512],
        words.slice_mut(),
    );
    trial.counts.call(code);
    let expected = if sound { GOOD } else { 13 };
    same("the return code of fq_serve", expected, code)?;
    let mut file = vec![0; 100_000];
    let code = trial.subject.store(memory.slice(), &mut file);
    trial.counts.input(code);
    same("whether fq_store gives 13", !sound, code == 13)?;
    if sound {
        return Ok(());
    }
    after.same("a refused call changes the memory", memory)
}
