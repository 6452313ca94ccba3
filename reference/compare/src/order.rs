//! Part p: the order of the keys, and the listing that goes by it.
//!
//! Behind each call, each stream and each load the order in the table's memory is
//! compared with the one made afresh (`memory::holds`), and a listing with the
//! rows that stand. Orders are damaged in each way: a key lacks, is there twice,
//! is not held, two are changed.

use reference::fields::KEY_LIMIT;
use reference::map::MOST_KEYS;
use reference::operation::PING;
use reference::{list_keys, load, store, Entry, Request, Table};

use crate::calls::{compared, room_for, Call, World};
use crate::chance::Chance;
use crate::difference::{hold, same, Difference, Outcome};
use crate::fields::{join, of_request};
use crate::lent::{Lent, Words};
use crate::make;
use crate::memory::{self, number, rows, COUNT, LATEST, ORDER, PLACES};
use crate::streams::compared_stream;
use crate::subject::{write_code, ListsKeys, Stores, GOOD, SERVE_WORDS};
use crate::trial::Trial;

/// What a listing is asked for.
#[derive(Clone, Debug)]
struct Asked {
    name: Vec<u8>,
    from: Vec<u8>,
    most: u64,
}

/// Room for the body of every listing.
const AMPLE: usize = MOST_KEYS * (2 + KEY_LIMIT) + 1;

pub fn round<S: ListsKeys + Stores>(trial: &mut Trial<S>) -> Outcome {
    let keys = close_keys(&mut trial.chance);
    let table = make::table(&mut trial.chance, &keys);
    let mut world = World::of(&mut trial.chance, table, keys);
    edges(trial, &world)?;
    damaged(trial, &world)?;
    for at in 0..30 {
        calls(trial, &mut world)?;
        any_listing(trial, &world)?;
        if at % 10 == 9 {
            reloaded(trial, &mut world)?;
        }
    }
    all_expire(trial)
}

/// Keys that are near each other in the order: of the lengths at which a word
/// ends, the same but for one byte, beginnings of each other, and with bytes
/// whose highest bit is set.
fn close_keys(chance: &mut Chance) -> Vec<Vec<u8>> {
    if chance.one_in(4) {
        return make::keys(chance);
    }
    let common = chance.bytes(KEY_LIMIT);
    let edge = [0x00, 0x01, 0x7f, 0x80, 0xfe, 0xff];
    let mut keys: Vec<Vec<u8>> = vec![Vec::new()];
    for _ in 0..MOST_KEYS + 10 {
        let length = chance.pick(&[1, 2, 7, 8, 9, 15, 16, 17, 24, 63, 64]);
        let mut key = common[..length].to_vec();
        let at = chance.pick(&[0, length / 2, length - 1]);
        key[at] = chance.pick(&edge);
        if chance.one_in(3) {
            key[length - 1] = chance.byte();
        }
        keys.push(key);
    }
    keys.sort();
    keys.dedup();
    keys
}

/// The body made from the rows of the memory that stand at the latest second.
fn body(memory: &[u8], asked: &Asked) -> Vec<u8> {
    let now = number(memory, LATEST);
    let mut keys: Vec<&[u8]> = rows(memory)
        .unwrap_or_default()
        .into_iter()
        .filter(|row| row.stands(now) && row.key >= &asked.from[..])
        .map(|row| row.key)
        .collect();
    keys.sort();
    keys.truncate(asked.most.min(MOST_KEYS as u64) as usize);
    let mut bytes = Vec::new();
    for key in keys {
        bytes.extend([1, key.len() as u8]);
        bytes.extend_from_slice(key);
    }
    bytes.push(0);
    bytes
}

/// A listing by both, in this room. It is also the body made from the rows.
fn listed<S: ListsKeys>(
    trial: &mut Trial<S>,
    world: &World,
    asked: &Asked,
    room: usize,
) -> Outcome {
    compared_listing(trial, world, asked, room).map_err(|found| {
        found
            .with("call", "fq_list_keys")
            .with("asked", format!("{asked:?}"))
            .with("room", room)
            .with("memory", memory::shown(world.memory.slice()))
    })
}

fn compared_listing<S: ListsKeys>(
    trial: &mut Trial<S>,
    world: &World,
    asked: &Asked,
    room: usize,
) -> Outcome {
    let mut out = Lent::random(&mut trial.chance, room);
    let (mut expected, mut by_rows) = (out.clone(), out.clone());
    let (name, from) = (&asked.name, &asked.from);
    let answer = list_keys(&world.table, name, from, asked.most, expected.slice_mut());
    let whole = body(world.memory.slice(), asked);
    let by_papers = match (name.is_empty(), room < whole.len()) {
        (false, _) => 9,
        (_, true) => 12,
        _ => GOOD + whole.len() as u64,
    };
    if by_papers > GOOD {
        by_rows.slice_mut()[..whole.len()].copy_from_slice(&whole);
    }
    let code = called(trial, &world.memory, asked, &mut out)?;
    same("the return code", write_code(answer), code)?;
    same("the return code, by the rows", by_papers, code)?;
    out.same("the buffer, with a margin on both sides", &expected)?;
    out.same("the buffer, with the body made from the rows", &by_rows)
}

/// The call itself, which only reads the table.
fn called<S: ListsKeys>(
    trial: &mut Trial<S>,
    memory: &Lent,
    asked: &Asked,
    out: &mut Lent,
) -> Result<u64, Difference> {
    let (name, from) = (Lent::of(&asked.name), Lent::of(&asked.from));
    let lent = memory.clone();
    let code = trial.subject.list_keys(
        lent.slice(),
        name.slice(),
        from.slice(),
        asked.most,
        out.slice_mut(),
    );
    trial.counts.message(code);
    lent.same("a listing changes the table", memory)?;
    name.same("the name is changed", &Lent::of(&asked.name))?;
    from.same("the given key is changed", &Lent::of(&asked.from))?;
    Ok(code)
}

/// A given key: held, just before or behind one that is held, between others,
/// longer than any key, or none.
fn from(chance: &mut Chance, keys: &[Vec<u8>]) -> Vec<u8> {
    let mut key = chance.pick(keys);
    match chance.below(9) {
        0 => key.clear(),
        1 => key.push(0),
        2 => drop(key.pop()),
        3 => key.resize(65 + chance.below(200), 0),
        4 => key.resize(65, 0xff),
        5 => key = vec![0xff; chance.pick(&[1, 64, 65, 300])],
        6 if !key.is_empty() => {
            let at = chance.below(key.len());
            key[at] = key[at].wrapping_add(1);
        }
        _ => {}
    }
    key
}

fn any_listing<S: ListsKeys>(trial: &mut Trial<S>, world: &World) -> Outcome {
    let chance = &mut trial.chance;
    let length = 1 + chance.below(40);
    let asked = Asked {
        name: if chance.one_in(8) {
            chance.bytes(length)
        } else {
            Vec::new()
        },
        from: from(chance, &world.keys),
        most: chance.pick(&[0, 1, 2, 5, 64, 127, 128, 129, 1 << 32, u64::MAX]),
    };
    let whole = body(world.memory.slice(), &asked).len();
    let room = match chance.below(5) {
        0 => whole - 1,
        1 => chance.below(whole),
        2 => AMPLE,
        _ => whole,
    };
    listed(trial, world, &asked, room)
}

/// From each key that is held, from just behind it, and from none: at most none,
/// one, as many as there are and one more, each with just enough room and a byte
/// less; another cache with and without room.
fn edges<S: ListsKeys>(trial: &mut Trial<S>, world: &World) -> Outcome {
    let held: Vec<Vec<u8>> = world.table.entries.keys().cloned().collect();
    let some = held.iter().step_by(1 + held.len() / 20);
    let behind = some.clone().map(|key| [&key[..], &[0]].concat());
    let given = [Vec::new(), vec![0xff; 65]];
    for from in given.into_iter().chain(some.cloned()).chain(behind) {
        let count = held.iter().filter(|key| **key >= from).count() as u64;
        for most in [0, 1, count, count + 1, u64::MAX] {
            let asked = Asked {
                name: Vec::new(),
                from: from.clone(),
                most,
            };
            let whole = body(world.memory.slice(), &asked).len();
            listed(trial, world, &asked, whole)?;
            listed(trial, world, &asked, whole - 1)?;
        }
        let other = Asked {
            name: b"cafe".to_vec(),
            from,
            most: 1,
        };
        listed(trial, world, &other, 0)?;
        listed(trial, world, &other, AMPLE)?;
    }
    Ok(())
}

/// Some calls and a stream, behind each of which the order is looked at.
fn calls<S: ListsKeys>(trial: &mut Trial<S>, world: &mut World) -> Outcome {
    let mut row = Vec::new();
    for _ in 0..4 {
        let request = make::request_for(&mut trial.chance, &world.table, &world.keys);
        let input = join(&of_request(&request));
        let call = Call {
            input: &input,
            second: make::second_for(&mut trial.chance, &world.table),
            room: room_for(&mut trial.chance, &input),
        };
        compared(trial, world, call)?;
        row.extend(input);
    }
    let call = Call {
        input: &row,
        second: make::second_for(&mut trial.chance, &world.table),
        room: 2000,
    };
    compared_stream(trial, world, call)?;
    Ok(())
}

/// The table is stored and loaded over whatever order the memory had.
fn reloaded<S: ListsKeys + Stores>(trial: &mut Trial<S>, world: &mut World) -> Outcome {
    let file = store(&world.table);
    if trial.chance.one_in(2) {
        let noise = trial.chance.bytes(MOST_KEYS);
        world.memory.slice_mut()[ORDER..ORDER + MOST_KEYS].copy_from_slice(&noise);
    }
    let code = trial.subject.load(&file, world.memory.slice_mut());
    same("the return code of fq_load", GOOD, code)?;
    world.table = load(&file).unwrap_or_default();
    let right = memory::holds(world.memory.slice(), &world.table);
    hold(right, "the order of a loaded table")
        .map_err(|found| found.with("memory", memory::shown(world.memory.slice())))
}

/// A full table of which all, the first, the last or every other key in the order
/// expire at second 10.
fn expiring(chance: &mut Chance) -> World {
    let mut keys = close_keys(chance);
    keys.truncate(MOST_KEYS);
    let which = chance.below(4);
    let last = keys.len() - 1;
    let mut versions: Vec<u64> = (1..=keys.len() as u64).collect();
    chance.shuffle(&mut versions);
    let mut table = Table {
        last: keys.len() as u64,
        ..Table::default()
    };
    for (at, (key, version)) in keys.iter().zip(versions).enumerate() {
        let ends = [true, at == 0, at == last, at % 2 == 0][which];
        let entry = Entry {
            value: vec![at as u8],
            version,
            deadline: if ends { 10 } else { 0 },
        };
        table.entries.insert(key.clone(), entry);
    }
    World::of(chance, table, keys)
}

/// Listings before and behind a call at which many entries expire at once.
fn all_expire<S: ListsKeys>(trial: &mut Trial<S>) -> Outcome {
    let mut world = expiring(&mut trial.chance);
    let ping = Request {
        id: 1,
        version: 20,
        operation: PING,
        intelligence: 1,
        ..Request::default()
    };
    for second in [9, 10] {
        let call = Call {
            input: &join(&of_request(&ping)),
            second,
            room: 512,
        };
        compared(trial, &mut world, call)?;
        any_listing(trial, &world)?;
    }
    for _ in 0..4 {
        calls(trial, &mut world)?;
        any_listing(trial, &world)?;
    }
    Ok(())
}

/// Wrong orders of each kind, and right ones with other bytes behind the count:
/// the check, a call and a listing.
fn damaged<S: ListsKeys>(trial: &mut Trial<S>, world: &World) -> Outcome {
    for kind in 0..ORDERS {
        let mut memory = world.memory.clone();
        let Some(what) = damage_order(&mut trial.chance, memory.slice_mut(), kind) else {
            continue;
        };
        judged(trial, world, &memory).map_err(|found| {
            found
                .with("damage", what)
                .with("memory", memory::shown(memory.slice()))
        })?;
    }
    Ok(())
}

/// How many kinds of damaged orders there are.
pub const ORDERS: usize = 8;

/// Damages the order in this way, where it can be, and says how. The first way
/// leaves the memory a table, and the last one may.
pub fn damage_order(chance: &mut Chance, memory: &mut [u8], kind: usize) -> Option<&'static str> {
    let count = number(memory, COUNT) as usize;
    let place = ORDER + chance.below(count.max(1));
    let noise = chance.bytes(MOST_KEYS - count);
    let any = chance.byte();
    let free = memory[PLACES + count.min(MOST_KEYS - 1)];
    match kind {
        0 => memory[ORDER + count..ORDER + MOST_KEYS].copy_from_slice(&noise),
        1 if count > 0 => memory[place] |= 0x80,
        2 if count > 0 && count < MOST_KEYS => memory[place] = free,
        3 if count > 1 => memory[place] = memory[other_place(chance, place, count)],
        4 if count > 1 => memory.swap(ORDER + count - 2, ORDER + count - 1),
        5 if count > 1 => {
            let other = other_place(chance, place, count);
            memory.swap(place, other);
        }
        6 if count > 1 => memory[ORDER..ORDER + count].rotate_left(1),
        7 if count > 0 => memory[place] = any,
        _ => return None,
    }
    Some(
        [
            "bytes behind the count",
            "a byte that is no row",
            "a row that is free",
            "a row twice",
            "the last two changed",
            "two changed",
            "the first one last",
            "any byte",
        ][kind],
    )
}

/// Another place of the order that is held.
fn other_place(chance: &mut Chance, place: usize, count: usize) -> usize {
    ORDER + (place - ORDER + 1 + chance.below(count - 1)) % count
}

/// The memory is a table where its order is the one made afresh; else the check,
/// a call and a listing say so, the listing before another cache and too little
/// room.
fn judged<S: ListsKeys>(trial: &mut Trial<S>, world: &World, memory: &Lent) -> Outcome {
    let sound = memory::is_table(memory.slice());
    let answer = trial.subject.is_table(memory.slice());
    trial.counts.input(if answer { GOOD } else { 13 });
    same("the answer of fq_is_table", sound, answer)?;
    let asked = Asked {
        name: trial.chance.pick(&[b"".to_vec(), b"cafe".to_vec()]),
        from: from(&mut trial.chance, &world.keys),
        most: 128,
    };
    if sound {
        let world = World {
            memory: memory.clone(),
            ..world.clone()
        };
        return listed(trial, &world, &asked, AMPLE);
    }
    let room = trial.chance.pick(&[0, AMPLE]);
    let before = Lent::random(&mut trial.chance, room);
    let mut out = before.clone();
    let code = called(trial, memory, &asked, &mut out)?;
    same("the return code of fq_list_keys on no table", 13, code)?;
    out.same("a refused listing changes the buffer", &before)?;
    let request = make::request_for(&mut trial.chance, &world.table, &world.keys);
    let mut lent = memory.clone();
    let mut words = Words::new(SERVE_WORDS);
    let mut reply = Lent::random(&mut trial.chance, 512);
    let lent_reply = reply.clone();
    let code = trial.subject.serve(
        &join(&of_request(&request)),
        lent.slice_mut(),
        7,
        reply.slice_mut(),
        words.slice_mut(),
    );
    trial.counts.call(code);
    same("the return code of fq_serve on no table", 13, code)?;
    lent.same("a refused call changes the memory", memory)?;
    reply.same("a refused call changes the reply buffer", &lent_reply)
}
