//! Part g, stored tables: `fq_store` and `fq_load` against the reference.

use reference::hex::to_digits;
use reference::lines::LINE_END;
use reference::map::{LARGEST_DEADLINE, LARGEST_VERSION, MOST_KEYS};
use reference::{load, store, Entry, Table};

use crate::calls::{expected_table, World};
use crate::chance::Chance;
use crate::damage;
use crate::difference::{hold, same, Outcome};
use crate::lent::Lent;
use crate::make;
use crate::memory::{self, SIZE};
use crate::subject::{Stores, GOOD};
use crate::tables;
use crate::trial::Trial;

pub fn round<S: Stores>(trial: &mut Trial<S>) -> Outcome {
    for _ in 0..4 {
        let world = World::any(&mut trial.chance);
        stored(trial, &world)?;
        unsound(trial, &world)?;
        let file = store(&world.table);
        loaded(trial, &file, SIZE)?;
        for _ in 0..6 {
            let file = damaged(&mut trial.chance, &file);
            loaded(trial, &file, SIZE)?;
        }
        let mut broken = broken_table(&mut trial.chance, &world);
        // All entries stand at second 0.
        broken.history.latest = 0;
        loaded(trial, &store(&broken), SIZE)?;
        wrong_memory(trial, &world)?;
    }
    Ok(())
}

/// Room for so many bytes: just enough, one too little, or another size.
fn room(chance: &mut Chance, length: usize) -> usize {
    match chance.below(5) {
        0 => length - 1,
        1 => chance.below(length),
        2 => length + 1 + chance.below(100),
        _ => length,
    }
}

/// A sound table is stored, or 12 is given.
pub fn stored<S: Stores>(trial: &mut Trial<S>, world: &World) -> Outcome {
    let file = store(&world.table);
    let room = room(&mut trial.chance, file.len());
    let lent = Lent::random(&mut trial.chance, room);
    let mut expected = lent.clone();
    let mut code = 12;
    if room >= file.len() {
        code = GOOD + file.len() as u64;
        expected.slice_mut()[..file.len()].copy_from_slice(&file);
    }
    store_gives(trial, &world.memory, lent, code, &expected)
}

/// Memory that is no table gives 13, whatever the room.
fn unsound<S: Stores>(trial: &mut Trial<S>, world: &World) -> Outcome {
    let mut memory = world.memory.clone();
    tables::damage(&mut trial.chance, memory.slice_mut());
    if memory::is_table(memory.slice()) {
        return Ok(());
    }
    let room = trial.chance.pick(&[0, 18, 19, 1000, 100_000]);
    let lent = Lent::random(&mut trial.chance, room);
    let expected = lent.clone();
    store_gives(trial, &memory, lent, 13, &expected)
}

fn store_gives<S: Stores>(
    trial: &mut Trial<S>,
    memory: &Lent,
    mut out: Lent,
    expected_code: u64,
    expected: &Lent,
) -> Outcome {
    let lent = memory.clone();
    let room = out.slice().len();
    let code = trial.subject.store(lent.slice(), out.slice_mut());
    trial.counts.input(code);
    same("the return code", expected_code, code)
        .and_then(|()| out.same("the stored file", expected))
        .and_then(|()| lent.same("storing changes the table", memory))
        .map_err(|found| {
            found
                .with("call", "fq_store")
                .with("room", room)
                .with("memory", memory::shown(memory.slice()))
        })
}

/// Loads into memory of this length and compares.
pub fn loaded<S: Stores>(trial: &mut Trial<S>, file: &[u8], table: usize) -> Outcome {
    let expected = if table == SIZE { load(file) } else { None };
    let before = old_table(trial, table);
    load_gives(trial, file, &before, expected).map_err(|found| {
        found
            .with("call", "fq_load")
            .with("table memory", table)
            .with("file", String::from_utf8_lossy(file))
            .bytes("file's bytes", file)
    })
}

/// What the memory held before does not matter: a table or random bytes.
fn old_table<S>(trial: &mut Trial<S>, length: usize) -> Lent {
    if length == SIZE && trial.chance.one_in(2) {
        return World::any(&mut trial.chance).memory;
    }
    Lent::random(&mut trial.chance, length)
}

fn load_gives<S: Stores>(
    trial: &mut Trial<S>,
    file: &[u8],
    before: &Lent,
    expected: Option<Table>,
) -> Outcome {
    let lent = Lent::of(file);
    let mut memory = before.clone();
    let code = trial.subject.load(lent.slice(), memory.slice_mut());
    trial.counts.input(code);
    let expected_code = if expected.is_some() { GOOD } else { 17 };
    same("the return code", expected_code, code)?;
    lent.same("the file is changed", &Lent::of(file))?;
    memory.margins_kept("bytes beside the table", before)?;
    let Some(table) = expected else {
        return memory.same("a file refused 17 changes the old table", before);
    };
    hold(memory::holds(memory.slice(), &table), "the table loaded")
        .map_err(|found| expected_table(found, &table))?;
    hold(
        trial.subject.is_table(memory.slice()),
        "fq_is_table says that the table loaded is none",
    )
}

/// A good file into memory of a wrong length.
fn wrong_memory<S: Stores>(trial: &mut Trial<S>, world: &World) -> Outcome {
    let file = store(&world.table);
    let wrong = trial.chance.pick(&[0, 16, SIZE - 1, SIZE + 1]);
    loaded(trial, &file, wrong)
}

/// The file with one thing changed.
fn damaged(chance: &mut Chance, file: &[u8]) -> Vec<u8> {
    let mut file = file.to_vec();
    let at = chance.below(file.len());
    match chance.below(14) {
        0 => file[at] = chance.pick(b"0123456789abcdef"),
        1 => file[at] = file[at].to_ascii_uppercase(),
        2 => file.make_ascii_uppercase(),
        3 => file.insert(at, b' '),
        4 => file.truncate(at),
        5 => drop(file.pop()),
        6 => file.push(LINE_END),
        7 => drop(file.remove(at)),
        8 => file.insert(at, chance.pick(b"0\n\rag")),
        9 => file = damage::one_byte_changed(chance, &file),
        10 => file.extend(chance.bytes(3)),
        _ => return lines_changed(chance, &file),
    }
    file
}

/// Lines swapped, doubled, left out, or made anew.
fn lines_changed(chance: &mut Chance, file: &[u8]) -> Vec<u8> {
    let mut lines: Vec<Vec<u8>> = file
        .split_inclusive(|byte| *byte == LINE_END)
        .map(<[u8]>::to_vec)
        .collect();
    let one = chance.below(lines.len());
    let two = chance.below(lines.len());
    match chance.below(5) {
        0 => lines.swap(one, two),
        1 => lines.insert(one, lines[two].clone()),
        2 => drop(lines.remove(one)),
        3 => lines.insert(one, vec![LINE_END]),
        _ => lines[one] = long_form(&lines[one]),
    }
    lines.concat()
}

/// The line with the key's length, of at most 64, in two bytes.
fn long_form(line: &[u8]) -> Vec<u8> {
    let (front, back) = line.split_at(line.len().min(32));
    let Some(bytes) = back.get(..2).and_then(reference::hex::from_digits) else {
        return line.to_vec();
    };
    let length = to_digits(&[bytes[0] | 0x80, 0]);
    [front, &length, &back[2..]].concat()
}

/// A state that is no table in just one point.
fn broken_table(chance: &mut Chance, world: &World) -> Table {
    let mut table = world.table.clone();
    let first = table.entries.keys().next().cloned();
    let mut key = first.unwrap_or_else(|| b"k".to_vec());
    let mut entry = table.entries.remove(&key).unwrap_or(Entry {
        version: table.last,
        ..Entry::default()
    });
    match chance.below(8) {
        0 => entry.deadline = LARGEST_DEADLINE + 1,
        1 => entry.version = 0,
        2 => entry.version = table.last + 1,
        3 => entry.value = chance.bytes(257),
        4 => key = chance.bytes(65),
        5 => table.last = LARGEST_VERSION + 1,
        6 => entry.deadline = u64::MAX,
        _ => return crowded(chance),
    }
    table.entries.insert(key, entry);
    table
}

/// A key more than a table holds.
fn crowded(chance: &mut Chance) -> Table {
    let keys: Vec<Vec<u8>> = (0..=MOST_KEYS).map(|at| vec![at as u8; 2]).collect();
    make::table_of(chance, &keys)
}
