//! Part e: two rows that differ in the value bytes of one request, served
//! from the same table by the same calls.
//!
//! The answers have to be the same. The replies may differ only in the value
//! of the entry that this request wrote, and the tables only in that entry's
//! value.

use reference::operation::{
    greatest_bulk, sends_key, BULK_GET, GET, GET_WITH_VERSION, PUT, PUT_IF_ABSENT, REMOVE,
    REMOVE_IF_UNMODIFIED, REPLACE, REPLACE_IF_UNMODIFIED, TWO,
};
use reference::{read_reply, read_request, Listed, Read, Reply, Request};

use crate::calls::{room_for, World};
use crate::chance::Chance;
use crate::damage;
use crate::difference::{hold, same, Difference, Outcome};
use crate::fields::{join, of_request};
use crate::lent::{Lent, Words};
use crate::make;
use crate::memory::{decode, history, number, rows, shown, Row, LAST};
use crate::subject::{Subject, SERVE_WORDS};
use crate::trial::Trial;

/// The two values, and the version of the entry that the request wrote, once
/// it has.
struct Change {
    one: Vec<u8>,
    other: Vec<u8>,
    wrote: Option<u64>,
    /// Where the request begins in the row.
    place: usize,
}

/// One of the two sides.
#[derive(Clone)]
struct Side {
    row: Vec<u8>,
    memory: Lent,
    reply: Lent,
}

pub fn round<S: Subject>(trial: &mut Trial<S>) -> Outcome {
    let world = World::any(&mut trial.chance);
    let (mut change, row, other) = two_rows(&mut trial.chance, &world);
    let side = |row: Vec<u8>| Side {
        row,
        memory: world.memory.clone(),
        reply: Lent::of(&[]),
    };
    let (mut one, mut two) = (side(row), side(other));
    let mut taken = 0;
    let mut idle = 0;
    while idle < 4 {
        let more = both(trial, &mut one, &mut two, taken, &mut change)?;
        taken += more;
        idle = if more == 0 { idle + 1 } else { 0 };
    }
    Ok(())
}

/// The operations with an old value.
const OLD_VALUE: [u8; 6] = [
    PUT,
    PUT_IF_ABSENT,
    REPLACE,
    REPLACE_IF_UNMODIFIED,
    REMOVE,
    REMOVE_IF_UNMODIFIED,
];

/// A request that sends a value of at least one byte, mostly a put.
fn writer(chance: &mut Chance, world: &World) -> Request {
    let any = chance.one_in(3);
    loop {
        let request = make::request_for(chance, &world.table, &world.keys);
        if !request.value.is_empty() && (any || request.operation == PUT) {
            return request;
        }
    }
}

/// A value of the same length with at least one other byte.
fn other_value(chance: &mut Chance, value: &[u8]) -> Vec<u8> {
    let mut other = value.to_vec();
    if chance.one_in(2) {
        chance.fill(&mut other);
    }
    let at = chance.below(other.len());
    other[at] = value[at].wrapping_add(1 + chance.below(255) as u8);
    other
}

fn two_rows(chance: &mut Chance, world: &World) -> (Change, Vec<u8>, Vec<u8>) {
    let mut row = some_requests(chance, world);
    let request = writer(chance, world);
    let other = other_value(chance, &request.value);
    let changed = Request {
        value: other.clone(),
        ..request.clone()
    };
    let place = row.len();
    let mut other_row = row.clone();
    row.extend(join(&of_request(&request)));
    other_row.extend(join(&of_request(&changed)));
    let mut behind = readers(chance, &request);
    behind.extend(some_requests(chance, world));
    behind.extend(damage::noise(chance, 0xa0));
    row.extend(&behind);
    other_row.extend(&behind);
    let change = Change {
        one: request.value,
        other,
        wrote: None,
        place,
    };
    (change, row, other_row)
}

fn some_requests(chance: &mut Chance, world: &World) -> Vec<u8> {
    let mut row = Vec::new();
    for _ in 0..chance.below(12) {
        let request = make::request_for(chance, &world.table, &world.keys);
        row.extend(join(&of_request(&request)));
    }
    row
}

/// Requests for the same key, which may show the value, also as the old one behind
/// a status 03 or 04.
fn readers(chance: &mut Chance, written: &Request) -> Vec<u8> {
    let mut row = Vec::new();
    for _ in 0..1 + chance.below(4) {
        let any = make::operation(chance);
        let old = chance.pick(&OLD_VALUE);
        let operation = chance.pick(&[GET, GET_WITH_VERSION, BULK_GET, any, old]);
        let mut request = make::request_of(chance, operation);
        if operation == old {
            request.version = TWO;
            request.flags |= 1;
        }
        if sends_key(operation) {
            request.key = written.key.clone();
        }
        row.extend(join(&of_request(&request)));
    }
    row
}

/// One call on both sides. The answer is the number of bytes taken.
fn both<S: Subject>(
    trial: &mut Trial<S>,
    one: &mut Side,
    two: &mut Side,
    taken: usize,
    change: &mut Change,
) -> Result<usize, Difference> {
    let before = one.clone();
    let result = called(trial, one, two, taken, change);
    result.map_err(|found| {
        found
            .with("call", "fq_serve on two rows")
            .bytes("one row", &one.row)
            .bytes("other row", &two.row)
            .with("bytes taken before", taken)
            .bytes("one value", &change.one)
            .bytes("other value", &change.other)
            .with("one table before", shown(before.memory.slice()))
            .with("one table after", shown(one.memory.slice()))
            .with("other table after", shown(two.memory.slice()))
    })
}

fn called<S: Subject>(
    trial: &mut Trial<S>,
    one: &mut Side,
    two: &mut Side,
    taken: usize,
    change: &mut Change,
) -> Result<usize, Difference> {
    let room = room_for(&mut trial.chance, &one.row[taken..]);
    let table = decode(one.memory.slice()).unwrap_or_default();
    let second = make::second_for(&mut trial.chance, &table);
    one.reply = Lent::random(&mut trial.chance, room);
    two.reply = one.reply.clone();
    let before = one.memory.clone();
    let (code, first) = call(trial, one, taken, second);
    let (other_code, other) = call(trial, two, taken, second);
    same("the return codes of both", code, other_code)?;
    same("the bytes taken by both", first[0], other[0])?;
    same("the lengths of both replies", first[1], other[1])?;
    let [more, sent] = first.map(|word| word as usize);
    hold(
        more <= one.row.len() - taken && sent <= room,
        "an answer beyond what was lent",
    )?;
    replies_fit(&before, one, two, taken, sent, change)?;
    if more > 0 && taken == change.place {
        change.wrote = issued(&before, &one.memory);
    }
    states_fit(&one.memory, &two.memory, change)?;
    Ok(more)
}

fn call<S: Subject>(
    trial: &mut Trial<S>,
    side: &mut Side,
    taken: usize,
    second: u32,
) -> (u64, [u64; 2]) {
    let mut words = Words::new(SERVE_WORDS);
    let code = trial.subject.serve(
        &side.row[taken..],
        side.memory.slice_mut(),
        second,
        side.reply.slice_mut(),
        words.slice_mut(),
    );
    trial.counts.call(code);
    (code, [words.slice()[0], words.slice()[1]])
}

/// The version that a step issued, if it did.
fn issued(before: &Lent, after: &Lent) -> Option<u64> {
    let last = number(after.slice(), LAST);
    (last > number(before.slice(), LAST)).then_some(last)
}

/// The buffers are the same, or the reply shows the entry that was written
/// and each holds its own value there.
fn replies_fit(
    before: &Lent,
    one: &Side,
    two: &Side,
    taken: usize,
    sent: usize,
    change: &Change,
) -> Outcome {
    let behind = crate::lent::MARGIN + sent;
    let same_behind = one.reply.all()[behind..] == two.reply.all()[behind..];
    hold(same_behind, "the buffers behind both replies")?;
    let (mine, other) = (&one.reply.slice()[..sent], &two.reply.slice()[..sent]);
    if mine == other {
        return Ok(());
    }
    let fit = shows_change(before, &one.row[taken..], mine, other, change);
    hold(fit, "the replies differ outside that value")
        .map_err(|found| found.bytes("one reply", mine).bytes("other reply", other))
}

/// Whether the replies differ only in the value, which is that of the entry
/// that the changed request wrote.
fn shows_change(before: &Lent, input: &[u8], mine: &[u8], other: &[u8], change: &Change) -> bool {
    let Read::Whole(request, _) = read_request(input) else {
        return false;
    };
    let Some(mine) = whole_reply(&request, mine) else {
        return false;
    };
    let Some(other) = whole_reply(&request, other) else {
        return false;
    };
    if greatest_bulk(request.operation).is_some() {
        return entries_fit(before, &mine, &other, change);
    }
    let held = held_version(before, &request.key);
    let with_other = Reply {
        value: change.other.clone(),
        ..mine.clone()
    };
    held.is_some() && held == change.wrote && mine.value == change.one && other == with_other
}

/// Whether two bulk replies differ only in the value of the entry that the
/// changed request wrote.
fn entries_fit(before: &Lent, mine: &Reply, other: &Reply, change: &Change) -> bool {
    let Some(rows) = rows(before.slice()) else {
        return false;
    };
    let written = rows
        .into_iter()
        .find(|row| Some(row.version) == change.wrote);
    let Some(row) = written else {
        return false;
    };
    let with = |value: &[u8]| Listed {
        key: row.key.to_vec(),
        value: value.to_vec(),
    };
    let mut expected = mine.clone();
    let Some(place) = mine.entries.iter().position(|one| one.key == row.key) else {
        return false;
    };
    expected.entries[place] = with(&change.other);
    mine.entries[place] == with(&change.one) && *other == expected
}

fn whole_reply(request: &Request, bytes: &[u8]) -> Option<Reply> {
    match read_reply(request.asked(), bytes) {
        Read::Whole(reply, taken) if taken == bytes.len() => Some(reply),
        _ => None,
    }
}

fn held_version(memory: &Lent, key: &[u8]) -> Option<u64> {
    let rows = rows(memory.slice())?;
    let row = rows.into_iter().find(|row| row.key == key)?;
    Some(row.version)
}

/// The states are the same but for the value of the entry written.
fn states_fit(one: &Lent, two: &Lent, change: &Change) -> Outcome {
    let (Some(mine), Some(other)) = (rows(one.slice()), rows(two.slice())) else {
        return Err(Difference::new("a table after a call has not the form"));
    };
    let fit = number(one.slice(), LAST) == number(two.slice(), LAST)
        && history(one.slice()) == history(two.slice())
        && mine.len() == other.len()
        && mine.iter().zip(&other).all(|(a, b)| row_fits(a, b, change));
    hold(fit, "the tables differ outside that entry's value")
}

fn row_fits(one: &Row, two: &Row, change: &Change) -> bool {
    if one == two {
        return true;
    }
    let mine = Row {
        value: &change.one,
        ..*one
    };
    let other = Row {
        value: &change.other,
        ..*one
    };
    change.wrote == Some(one.version) && *one == mine && *two == other
}
