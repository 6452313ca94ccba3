//! Part l, the replies: long ones read, damaged in each field, cut at each
//! place, walked entry by entry, and written.

use reference::fields::{Cursor, KEY_LIMIT, VALUE_LIMIT};
use reference::listing::{read_one, MOST_LISTED};
use reference::operation::{BULK_GET, BULK_GET_KEYS};
use reference::serve::BULK_ROOM;
use reference::{Listed, Read, Reply};

use crate::bulk::HELD;
use crate::damage::{break_at, one_byte_changed};
use crate::difference::{hold, same, Difference, Outcome};
use crate::fields::{join, length, of_reply, Field};
use crate::lent::{Lent, Words};
use crate::make;
use crate::messages::check_reply;
use crate::subject::{read_code, Asked, Subject, ENTRY_WORDS, GOOD, REPLY_WORDS, UNTOLD};
use crate::trial::Trial;
use crate::writers::{check_entries, check_entries_in, EntriesDraft};

/// A reply of at most so many bytes is cut at each place in every round.
const SHORT: usize = 3000;
/// One of as many entries as may be is cut so in one round of so many, the
/// first among them.
const ROUNDS: u64 = 25;

fn asked<S>(trial: &mut Trial<S>) -> Asked {
    let op = trial.chance.pick(&[BULK_GET, BULK_GET_KEYS]);
    make::asked(&mut trial.chance, op)
}

/// So many entries, at times short ones, at times the longest.
fn entries<S>(trial: &mut Trial<S>, count: usize, values: bool) -> Vec<Listed> {
    let chance = &mut trial.chance;
    let (key, value) = match chance.below(3) {
        0 => (3, 5),
        1 => (KEY_LIMIT, VALUE_LIMIT),
        _ => return make::entries(chance, count, values),
    };
    let mut entries = Vec::new();
    for _ in 0..count {
        entries.push(Listed {
            key: chance.bytes(key),
            value: chance.bytes(if values { value } else { 0 }),
        });
    }
    entries
}

fn reply(asked: Asked, id: u64, entries: Vec<Listed>) -> Reply {
    Reply {
        id,
        operation: asked.op + 1,
        entries,
        ..Reply::default()
    }
}

fn told(found: Difference, asked: Asked, input: &[u8]) -> Difference {
    found
        .with("version", asked.version)
        .with("operation", asked.op)
        .with("flag", asked.flag)
        .bytes("input", input)
}

fn read<S: Subject>(trial: &mut Trial<S>, asked: Asked, input: &[u8]) -> Outcome {
    check_reply(trial, asked, input)
        .map_err(|found| told(found.with("call", "fq_read_reply"), asked, input))
}

/// A reply of so many entries: whole and walked, damaged in each field, and
/// cut at each place.
pub fn replies<S: Subject>(trial: &mut Trial<S>, count: usize) -> Outcome {
    let asked = asked(trial);
    let entries = entries(trial, count, asked.op == BULK_GET);
    let reply = reply(asked, make::long(&mut trial.chance), entries);
    let fields = of_reply(asked, &reply);
    let whole = join(&fields);
    read(trial, asked, &whole)?;
    walked(trial, &whole, asked.op, &reply.entries)?;
    each_field(trial, asked, &fields, &whole)?;
    some_places(trial, &whole)?;
    let most = count == MOST_LISTED && trial.round % ROUNDS == 0;
    let all = whole.len() <= SHORT || most;
    let step = if all { 1 } else { 97 };
    for end in (0..whole.len()).step_by(step) {
        beginning(trial, asked, &whole[..end])?;
    }
    Ok(())
}

/// No beginning of a reply is refused.
fn beginning<S: Subject>(trial: &mut Trial<S>, asked: Asked, input: &[u8]) -> Outcome {
    let lent = Lent::of(input);
    let mut words = Words::new(REPLY_WORDS);
    let code = trial
        .subject
        .read_reply(lent.slice(), asked, words.slice_mut());
    trial.counts.message(code);
    same("the return code of a beginning", 0, code)
        .and_then(|()| words.kept_behind(0))
        .map_err(|found| told(found.with("call", "fq_read_reply"), asked, input))
}

/// Each field in turn has another content.
fn each_field<S: Subject>(
    trial: &mut Trial<S>,
    asked: Asked,
    fields: &[Field],
    whole: &[u8],
) -> Outcome {
    let mut start = 0;
    for field in fields {
        let end = start + field.bytes.len();
        let mut other = [field.clone()];
        break_at(&mut trial.chance, &mut other, 0);
        let input = [&whole[..start], &other[0].bytes, &whole[end..]].concat();
        read(trial, asked, &input)?;
        next(trial, &input, start, asked.op == BULK_GET)?;
        start = end;
    }
    Ok(())
}

/// An entry of any bytes: at any place, behind the last one, far behind it.
fn some_places<S: Subject>(trial: &mut Trial<S>, whole: &[u8]) -> Outcome {
    let input = one_byte_changed(&mut trial.chance, whole);
    let edges = [0, input.len() - 1, input.len(), input.len() + 1, usize::MAX];
    for at in edges {
        next(trial, &input, at, true)?;
    }
    for _ in 0..40 {
        let at = trial.chance.below(input.len());
        let values = trial.chance.one_in(2);
        next(trial, &input, at, values)?;
    }
    Ok(())
}

/// A reply of one entry too many is refused at its byte 1, and not before.
pub fn one_too_many<S: Subject>(trial: &mut Trial<S>) -> Outcome {
    let asked = asked(trial);
    let entries = entries(trial, MOST_LISTED + 1, asked.op == BULK_GET);
    let behind = of_reply(asked, &reply(asked, 1, entries.clone()));
    let full = of_reply(asked, &reply(asked, 1, entries[..MOST_LISTED].to_vec()));
    let place = length(&full) - 1;
    let whole = join(&behind);
    for end in [place + 1, place + 2, whole.len() - 1, whole.len()] {
        refused(trial, asked, &whole[..end], 6)?;
    }
    beginning(trial, asked, &whole[..place])?;
    for byte in [2, 3, 0x80, 0x81, 0xff] {
        let input = [&whole[..place], &[byte]].concat();
        refused(trial, asked, &input, 8)?;
    }
    let input = [&whole[..place], &[0]].concat();
    read(trial, asked, &input)?;
    walked(trial, &input, asked.op, &entries[..MOST_LISTED])
}

fn refused<S: Subject>(trial: &mut Trial<S>, asked: Asked, input: &[u8], code: u64) -> Outcome {
    let expected = reference::read_reply(asked, input);
    same("the code of the reference", code, read_code(&expected))?;
    read(trial, asked, input)
}

/// Walks the entries of the reply, which have to be these.
pub fn walked<S: Subject>(
    trial: &mut Trial<S>,
    reply: &[u8],
    op: u8,
    entries: &[Listed],
) -> Outcome {
    steps(trial, reply, op, entries).map_err(|found| {
        found
            .with("call", "fq_read_reply and fq_next_entry")
            .with("operation", op)
            .bytes("input", reply)
    })
}

fn steps<S: Subject>(trial: &mut Trial<S>, reply: &[u8], op: u8, entries: &[Listed]) -> Outcome {
    let mut words = Words::new(REPLY_WORDS);
    let asked = Asked {
        version: 20,
        op,
        flag: false,
    };
    let code = trial.subject.read_reply(reply, asked, words.slice_mut());
    same("the return code", GOOD + reply.len() as u64, code)?;
    let [count, start, length] = [18, 19, 20].map(|at: usize| words.slice()[at] as usize);
    same("the number of entries", entries.len(), count)?;
    same("the end of the entries", reply.len(), start + length)?;
    let mut at = start;
    for entry in entries {
        at += step(trial, reply, at, op, Some(entry))?;
    }
    at += step(trial, reply, at, op, None)?;
    same("the place behind the last byte", reply.len(), at)
}

/// One step, which has to show this entry or the end, and the bytes read.
fn step<S: Subject>(
    trial: &mut Trial<S>,
    reply: &[u8],
    at: usize,
    op: u8,
    entry: Option<&Listed>,
) -> Result<usize, Difference> {
    let mut words = Words::new(ENTRY_WORDS);
    let values = op == BULK_GET;
    let code = trial
        .subject
        .next_entry(reply, at, values, words.slice_mut());
    trial.counts.message(code);
    hold(code > GOOD, "an entry of a whole reply is not read")?;
    entry_is(entry, at, (code - GOOD) as usize, &words, reply)?;
    Ok((code - GOOD) as usize)
}

/// The words of an answer: the bytes read, whether it is an entry, and where
/// its key and value stand. Of an empty part only the length is told, and that
/// it lies within the input.
fn entry_is(
    entry: Option<&Listed>,
    at: usize,
    taken: usize,
    words: &Words,
    input: &[u8],
) -> Outcome {
    words.kept_behind(ENTRY_WORDS)?;
    let told = words.slice();
    same("the bytes read", taken as u64, told[0])?;
    same(
        "1 for an entry, 0 at the end",
        u64::from(entry.is_some()),
        told[1],
    )?;
    let none = Listed::default();
    let entry = entry.unwrap_or(&none);
    let within = at..at + taken;
    part_is("key", &entry.key, &told[2..4], &within, input)?;
    part_is("value", &entry.value, &told[4..6], &within, input)?;
    if entry.value.is_empty() {
        return Ok(());
    }
    same("the end of the value", within.end as u64, told[4] + told[5])
}

fn part_is(
    name: &str,
    bytes: &[u8],
    span: &[u64],
    within: &std::ops::Range<usize>,
    input: &[u8],
) -> Outcome {
    same(
        &format!("the length of the {name}"),
        bytes.len() as u64,
        span[1],
    )?;
    let length = bytes.len() as u64;
    if bytes.is_empty() {
        return hold(
            span[0] <= input.len() as u64,
            "a part ends behind the input",
        );
    }
    let inside = within.start as u64 <= span[0] && span[0] + length <= within.end as u64;
    hold(inside, &format!("the {name} is not within its entry"))?;
    let start = span[0] as usize;
    hold(
        &input[start..start + bytes.len()] == bytes,
        &format!("the bytes of the {name}"),
    )
}

/// One entry at this place, read by both.
fn next<S: Subject>(trial: &mut Trial<S>, input: &[u8], at: usize, values: bool) -> Outcome {
    let mut cursor = Cursor::new(input.get(at..).unwrap_or(&[]));
    let entry = read_one(&mut cursor, values);
    let expected = cursor.answer(entry);
    let lent = Lent::of(input);
    let mut words = Words::about(&mut trial.chance, ENTRY_WORDS);
    let code = trial
        .subject
        .next_entry(lent.slice(), at, values, words.slice_mut());
    trial.counts.message(code);
    let outcome = if words.slice().len() < ENTRY_WORDS {
        same("the return code where the answer has no room", UNTOLD, code)
            .and_then(|()| words.kept_behind(0))
    } else {
        same("the return code", read_code(&expected), code).and_then(|()| match expected {
            Read::Whole(entry, taken) => entry_is(entry.as_ref(), at, taken, &words, input),
            _ => words.kept_behind(0),
        })
    };
    outcome
        .and_then(|()| lent.same("the input is changed", &Lent::of(input)))
        .map_err(|found| {
            found
                .with("call", "fq_next_entry")
                .with("place", at)
                .with("values", values)
                .bytes("input", input)
        })
}

/// Replies of all numbers of entries written, with just enough room and one
/// byte less, read back, and damaged.
pub fn written<S: Subject>(trial: &mut Trial<S>) -> Outcome {
    for count in HELD.into_iter().chain([2, 127, 129]) {
        let mut draft = EntriesDraft::any(&mut trial.chance, count);
        let length = draft.written(&mut [0; BULK_ROOM]);
        if let Ok(length) = length {
            check_entries_in(trial, &draft, length - 1)?;
            let bytes = check_entries_in(trial, &draft, length)?;
            walked(trial, &bytes, draft.op(), &draft.entries())?;
        }
        for _ in 0..6 {
            check_entries(trial, &draft)?;
            draft.damage(&mut trial.chance);
        }
    }
    Ok(())
}
