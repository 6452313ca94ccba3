//! Part d: memory that is a table, and memory that is none.
//!
//! `fq_is_table` is compared with the form's conditions and the reference's
//! `is_table` on the decoded state. Serving on memory that is none gives 13
//! (12 first, if the room is too little) and changes nothing.

use reference::fields::{KEY_LIMIT, VALUE_LIMIT};
use reference::history::{COUNTS, LARGEST_SECOND};
use reference::map::{LARGEST_DEADLINE, LARGEST_VERSION, MOST_KEYS};

use reference::number::LARGEST_VLONG;

use crate::calls::{compared, room, room_for, Call, World};
use crate::chance::Chance;
use crate::difference::{hold, same, Outcome};
use crate::fields::{join, of_request};
use crate::lent::{Lent, Words};
use crate::make;
use crate::memory::{
    decode, greatest_bound, is_table, number, put_number, row_at, rows, shown, BOUND, COUNT,
    COUNTED, DEADLINE, FIRST, KEY, KEY_LENGTH, LAST, LATEST, PLACES, ROW, ROWS, SIZE, VALUE,
    VALUE_LENGTH, VERSION,
};
use crate::order::{damage_order, ORDERS};
use crate::subject::{Subject, GOOD, SERVE_WORDS, STREAM_WORDS};
use crate::trial::Trial;

pub fn round<S: Subject>(trial: &mut Trial<S>) -> Outcome {
    noise(trial)?;
    made(trial)?;
    for _ in 0..6 {
        let world = World::any(&mut trial.chance);
        check(trial, &world.memory, &world.keys, "none")?;
        for _ in 0..8 {
            let mut memory = world.memory.clone();
            let what = damage(&mut trial.chance, memory.slice_mut());
            check(trial, &memory, &world.keys, what)?;
        }
    }
    Ok(())
}

/// Random bytes of the right length and of others.
fn noise<S: Subject>(trial: &mut Trial<S>) -> Outcome {
    let length = trial
        .chance
        .pick(&[0, 1, 8, 16, 96, SIZE - 1, SIZE, SIZE + 1, 2 * SIZE]);
    let mut memory = Lent::random(&mut trial.chance, length);
    if length >= SIZE && trial.chance.one_in(2) {
        let count = trial.chance.below(3) as u64;
        put_number(memory.slice_mut(), COUNT, count);
        memory.slice_mut()[LAST] &= 0x7f;
        for at in 0..COUNTS {
            memory.slice_mut()[COUNTED + 8 * at] &= 0x7f;
        }
        for second in [FIRST, LATEST] {
            memory.slice_mut()[second..second + 4].fill(0);
        }
    }
    let key = vec![vec![1]];
    check(trial, &memory, &key, "random bytes")?;
    let mut cut = World::any(&mut trial.chance).memory.slice().to_vec();
    cut.pop();
    check(trial, &Lent::of(&cut), &key, "the last byte is missing")?;
    cut.extend([0, 0]);
    check(trial, &Lent::of(&cut), &key, "a byte too many")
}

/// Memory of the right length is made a fresh table, other memory is left.
fn made<S: Subject>(trial: &mut Trial<S>) -> Outcome {
    let length = trial
        .chance
        .pick(&[0, 15, 16, SIZE - 1, SIZE, SIZE, SIZE + 1]);
    let before = Lent::random(&mut trial.chance, length);
    let mut memory = before.clone();
    let answer = trial.subject.make(memory.slice_mut());
    trial.counts.inputs += 1;
    let expected = if length == SIZE { GOOD } else { 13 };
    same("the answer of fq_make", expected, answer)?;
    memory.margins_kept("fq_make changes bytes beside the memory", &before)?;
    if length != SIZE {
        return memory.same("fq_make changes memory of a wrong length", &before);
    }
    let fresh = decode(memory.slice()) == Some(reference::Table::default());
    hold(fresh, "fq_make does not make a fresh table")
}

fn check<S: Subject>(
    trial: &mut Trial<S>,
    memory: &Lent,
    keys: &[Vec<u8>],
    damage: &str,
) -> Outcome {
    checked(trial, memory, keys).map_err(|found| {
        found
            .with("damage", damage)
            .with("memory", shown(memory.slice()))
    })
}

fn checked<S: Subject>(trial: &mut Trial<S>, memory: &Lent, keys: &[Vec<u8>]) -> Outcome {
    let expected = is_table(memory.slice());
    let lent = memory.clone();
    let answer = trial.subject.is_table(lent.slice());
    trial
        .counts
        .input(if answer { crate::subject::GOOD } else { 13 });
    same("the answer of fq_is_table", expected, answer)?;
    lent.same("fq_is_table changes the memory", memory)?;
    match decode(memory.slice()) {
        Some(table) if expected => {
            let mut world = World {
                memory: lent,
                table,
                keys: keys.to_vec(),
            };
            served(trial, &mut world)
        }
        _ => refused(trial, lent, memory, keys),
    }
}

/// The table is one, so a call is served as the reference serves it.
fn served<S: Subject>(trial: &mut Trial<S>, world: &mut World) -> Outcome {
    let request = make::request_for(&mut trial.chance, &world.table, &world.keys);
    let input = join(&of_request(&request));
    let call = Call {
        input: &input,
        second: make::second_for(&mut trial.chance, &world.table),
        room: room_for(&mut trial.chance, &input),
    };
    compared(trial, world, call)?;
    Ok(())
}

/// The table is none: 12 or 13, and nothing changes.
fn refused<S: Subject>(
    trial: &mut Trial<S>,
    mut lent: Lent,
    memory: &Lent,
    keys: &[Vec<u8>],
) -> Outcome {
    let request = make::request_for(&mut trial.chance, &reference::Table::default(), keys);
    let input = join(&of_request(&request));
    let room = room(&mut trial.chance);
    let before = Lent::random(&mut trial.chance, room);
    let expected = if room < 512 { 12 } else { 13 };
    let mut reply = before.clone();

    let mut words = Words::enough(&mut trial.chance, SERVE_WORDS);
    let (table, out) = (lent.slice_mut(), reply.slice_mut());
    let code = trial
        .subject
        .serve(&input, table, 7, out, words.slice_mut());
    trial.counts.call(code);
    same("the return code of fq_serve", expected, code)?;
    words.are(&[0, 0])?;

    let mut words = Words::enough(&mut trial.chance, STREAM_WORDS);
    let (table, out) = (lent.slice_mut(), reply.slice_mut());
    let code = trial
        .subject
        .serve_stream(&input, table, 7, out, words.slice_mut());
    trial.counts.call(code);
    same("the return code of fq_serve_stream", expected, code)?;
    words.are(&[0, 0, 1])?;

    lent.same("a refused call changes the memory", memory)?;
    reply.same("a refused call changes the reply buffer", &before)
}

/// Changes the memory in one place and says how. Some changes leave it a
/// table; the check does not go by the words.
pub fn damage(chance: &mut Chance, memory: &mut [u8]) -> &'static str {
    let count = number(memory, COUNT) as usize;
    match chance.below(7) {
        6 => {
            let kind = chance.below(ORDERS);
            damage_order(chance, memory, kind).unwrap_or("none")
        }
        0 => damage_head(chance, memory),
        5 => damage_seconds(chance, memory),
        1 => damage_places(chance, memory, count),
        2 if count > 0 => damage_row(chance, memory, count),
        3 if count > 1 => damage_two_rows(chance, memory, count),
        _ => damage_bytes(chance, memory, count),
    }
}

/// A place that is held or behind those, and another one.
fn damage_places(chance: &mut Chance, memory: &mut [u8], count: usize) -> &'static str {
    let any = chance.below(MOST_KEYS);
    let behind = count.min(MOST_KEYS - 1);
    let one = chance.pick(&[0, behind, MOST_KEYS - 1, any]);
    let two = (one + 1 + chance.below(MOST_KEYS - 1)) % MOST_KEYS;
    match chance.below(4) {
        0 => memory[PLACES + one] = memory[PLACES + two],
        1 => memory[PLACES + one] = (MOST_KEYS + chance.below(MOST_KEYS)) as u8,
        2 => memory[PLACES + one] |= 0x80,
        _ => memory.swap(PLACES + one, PLACES + two),
    }
    "a row number twice, above 127 or in another place"
}

/// A second or the bound at the edge, behind it, or anywhere.
fn damage_seconds(chance: &mut Chance, memory: &mut [u8]) -> &'static str {
    let rows = rows(memory).unwrap_or_default();
    let greatest = greatest_bound(&rows).unwrap_or(LARGEST_DEADLINE + 1);
    let (any, more) = (chance.number(), chance.below(3) as u64);
    let far = 1 << chance.below(64);
    match chance.below(9) {
        0 => put_number(memory, LATEST, LARGEST_SECOND + more),
        1 => put_number(memory, LATEST, any),
        2 => put_number(memory, LATEST, far),
        3 => put_number(memory, FIRST, LARGEST_SECOND + more),
        4 => put_number(memory, FIRST, any),
        5 => put_number(
            memory,
            BOUND,
            greatest.saturating_add(more).saturating_sub(1),
        ),
        6 => put_number(memory, BOUND, any),
        7 => put_number(memory, BOUND, far),
        _ => put_number(memory, BOUND, u64::MAX),
    }
    "the first second, the latest second or the bound"
}

fn damage_head(chance: &mut Chance, memory: &mut [u8]) -> &'static str {
    let count = number(memory, COUNT);
    let last = number(memory, LAST);
    let counted = COUNTED + 8 * chance.below(COUNTS);
    match chance.below(8) {
        0 => put_number(memory, COUNT, count + 1),
        1 => put_number(memory, COUNT, count.saturating_sub(1)),
        2 => put_number(memory, COUNT, MOST_KEYS as u64 + 1),
        3 => put_number(memory, COUNT, count | 1 << (8 + chance.below(56))),
        4 => put_number(memory, LAST, LARGEST_VERSION + chance.below(2) as u64),
        5 => put_number(memory, counted, LARGEST_VLONG + chance.below(2) as u64),
        6 => put_number(memory, counted, chance.number()),
        _ => put_number(
            memory,
            LAST,
            last.saturating_sub(1 + chance.below(3) as u64),
        ),
    }
    "a number of the head"
}

fn damage_row(chance: &mut Chance, memory: &mut [u8], count: usize) -> &'static str {
    let any = chance.below(count);
    let row = chance.pick(&[0, count - 1, any]);
    let at = row_at(memory, row);
    let far = 1u64 << chance.below(64);
    match chance.below(12) {
        0 => put_number(memory, at + VERSION, 0),
        1 => put_number(memory, at + VERSION, 1),
        2 => put_number(memory, at + VERSION, number(memory, LAST)),
        3 => put_number(memory, at + VERSION, number(memory, LAST) + 1),
        4 => put_number(memory, at + DEADLINE, LARGEST_DEADLINE),
        5 => put_number(memory, at + DEADLINE, LARGEST_DEADLINE + 1),
        6 => put_number(memory, at + DEADLINE, far),
        7 => put_number(memory, at + KEY_LENGTH, KEY_LIMIT as u64),
        8 => put_number(memory, at + KEY_LENGTH, KEY_LIMIT as u64 + 1),
        9 => put_number(memory, at + VALUE_LENGTH, VALUE_LIMIT as u64),
        10 => put_number(memory, at + VALUE_LENGTH, VALUE_LIMIT as u64 + 1),
        _ => {
            let field = chance.pick(&[KEY_LENGTH, VALUE_LENGTH]);
            put_number(memory, at + field, number(memory, at + field) ^ far);
        }
    }
    "version, deadline or length of a row"
}

fn damage_two_rows(chance: &mut Chance, memory: &mut [u8], count: usize) -> &'static str {
    let one = chance.below(count);
    let two = (one + 1 + chance.below(count - 1)) % count;
    let (from, to) = (row_at(memory, one), row_at(memory, two));
    match chance.below(4) {
        0 => memory.copy_within(from..from + 8, to),
        1 => swap(memory, from, to, ROW),
        2 => memory.copy_within(from + KEY..from + VALUE, to + KEY),
        _ => {
            memory.copy_within(from + KEY_LENGTH..from + VALUE_LENGTH, to + KEY_LENGTH);
            memory.copy_within(from + KEY..from + VALUE, to + KEY);
        }
    }
    "a version, a key or a whole row of one row given to another"
}

fn swap(memory: &mut [u8], one: usize, two: usize, length: usize) {
    for at in 0..length {
        memory.swap(one + at, two + at);
    }
}

fn damage_bytes(chance: &mut Chance, memory: &mut [u8], count: usize) -> &'static str {
    if count < MOST_KEYS && chance.one_in(2) {
        let free = count + chance.below(MOST_KEYS - count);
        let at = row_at(memory, free);
        let start = at + chance.below(ROW);
        chance.fill(&mut memory[start..at + ROW]);
        return "bytes of a row that is free";
    }
    let any = chance.below(ROWS + ROW * count);
    let at = if any < ROWS {
        any
    } else {
        row_at(memory, (any - ROWS) / ROW) + (any - ROWS) % ROW
    };
    memory[at] ^= 1 << chance.below(8);
    "one bit of the head, of a place or of a row"
}
