//! Part a: messages read and written.
//!
//! Compared are the return code, every field, and that the input stays as it
//! was; of writers also every byte of the buffer (see `writers`).

use reference::operation::STATS;
use reference::statistics::NAMES;
use reference::{read_reply, read_request, Read, Reply, Request};

use crate::damage::{break_at, variants};
use crate::difference::{hold, same, Difference, Outcome};
use crate::fields::{join, length, of_reply, of_request, place, Field, Kind};
use crate::lent::{Lent, Words};
use crate::make;
use crate::subject::{read_code, Asked, Subject, REPLY_WORDS, REQUEST_WORDS, UNTOLD};
use crate::trial::Trial;
use crate::writers;

pub fn round<S: Subject>(trial: &mut Trial<S>) -> Outcome {
    for _ in 0..20 {
        requests(trial)?;
        replies(trial)?;
        writers::requests(trial)?;
        writers::replies(trial)?;
        writers::statistics(trial)?;
        writers::entries(trial)?;
    }
    each_of_statistics(trial)
}

/// A request and its damaged forms.
fn requests<S: Subject>(trial: &mut Trial<S>) -> Outcome {
    let fields = of_request(&make::request(&mut trial.chance));
    let other = join(&of_request(&make::request(&mut trial.chance)));
    for input in variants(&mut trial.chance, &fields, &other) {
        check_request(trial, &input)
            .map_err(|found| found.with("call", "fq_read_request").bytes("input", &input))?;
    }
    Ok(())
}

/// A reply and its damaged forms, read as the answer that it is and as the
/// answer to something else.
fn replies<S: Subject>(trial: &mut Trial<S>) -> Outcome {
    let (asked, reply) = make::reply(&mut trial.chance);
    let (other_asked, other) = make::reply(&mut trial.chance);
    let fields = of_reply(asked, &reply);
    let other = join(&of_reply(other_asked, &other));
    for input in variants(&mut trial.chance, &fields, &other) {
        let asked = perhaps_other(trial, asked);
        read_as(trial, asked, &input)?;
    }
    Ok(())
}

/// A stats reply with each field in turn broken.
fn each_of_statistics<S: Subject>(trial: &mut Trial<S>) -> Outcome {
    let asked = make::asked(&mut trial.chance, STATS);
    let reply = Reply {
        id: make::long(&mut trial.chance),
        operation: STATS + 1,
        statistics: make::statistics(&mut trial.chance),
        ..Reply::default()
    };
    let fields = of_reply(asked, &reply);
    for at in 0..fields.len() {
        let mut broken = fields.clone();
        break_at(&mut trial.chance, &mut broken, at);
        read_as(trial, asked, &join(&broken))?;
    }
    Ok(())
}

pub fn read_as<S: Subject>(trial: &mut Trial<S>, asked: Asked, input: &[u8]) -> Outcome {
    check_reply(trial, asked, input).map_err(|found| {
        found
            .with("call", "fq_read_reply")
            .with("version", asked.version)
            .with("operation", asked.op)
            .with("flag", asked.flag)
            .bytes("input", input)
    })
}

fn perhaps_other<S>(trial: &mut Trial<S>, asked: Asked) -> Asked {
    match trial.chance.below(16) {
        0 => Asked {
            op: trial.chance.byte(),
            ..asked
        },
        2 => Asked {
            version: trial.chance.byte(),
            ..asked
        },
        3 => Asked {
            version: trial.chance.pick(&[10, 11, 12, 20, 9, 13, 19, 21]),
            ..asked
        },
        1 => Asked {
            flag: !asked.flag,
            ..asked
        },
        _ => asked,
    }
}

pub fn check_request<S: Subject>(trial: &mut Trial<S>, input: &[u8]) -> Outcome {
    let lent = Lent::of(input);
    let expected = read_request(input);
    let mut answer = Words::about(&mut trial.chance, REQUEST_WORDS);
    let code = trial.subject.read_request(lent.slice(), answer.slice_mut());
    trial.counts.message(code);
    if answer.slice().len() < REQUEST_WORDS {
        return untold(code, &answer);
    }
    same("the return code", read_code(&expected), code)?;
    lent.same("the input is changed", &Lent::of(input))?;
    match expected {
        Read::Whole(request, taken) => request_is(&request, taken, &answer, input),
        _ => answer.kept_behind(0),
    }
}

/// A list for the answer that is too short refuses the call, and is kept.
fn untold(code: u64, answer: &Words) -> Outcome {
    same("the return code where the answer has no room", UNTOLD, code)?;
    answer.kept_behind(0)
}

fn request_is(request: &Request, taken: usize, answer: &Words, input: &[u8]) -> Outcome {
    answer.kept_behind(REQUEST_WORDS)?;
    let numbers = request_numbers(request, taken);
    let names = "count, id, version, operation, flags, intelligence, topology, lifespan, \
                 max idle, entry version, bulk";
    numbers_are(&numbers, answer.slice(), names)?;
    let fields = of_request(request);
    let spans = &answer.slice()[numbers.len()..];
    span_is(&fields, Kind::Name, &request.name, &spans[0..2], input)?;
    span_is(&fields, Kind::Key, &request.key, &spans[2..4], input)?;
    span_is(&fields, Kind::Value, &request.value, &spans[4..6], input)
}

/// The first words of the answer to a whole request.
pub fn request_numbers(request: &Request, taken: usize) -> [u64; 11] {
    [
        taken as u64,
        request.id,
        u64::from(request.version),
        u64::from(request.operation),
        u64::from(request.flags),
        u64::from(request.intelligence),
        u64::from(request.topology),
        u64::from(request.lifespan),
        u64::from(request.max_idle),
        request.entry_version,
        u64::from(request.bulk),
    ]
}

/// The reply read by both.
pub fn check_reply<S: Subject>(trial: &mut Trial<S>, asked: Asked, input: &[u8]) -> Outcome {
    let lent = Lent::of(input);
    let expected = read_reply(asked, input);
    let mut answer = Words::about(&mut trial.chance, REPLY_WORDS);
    let code = trial
        .subject
        .read_reply(lent.slice(), asked, answer.slice_mut());
    trial.counts.message(code);
    if answer.slice().len() < REPLY_WORDS {
        return untold(code, &answer);
    }
    same("the return code", read_code(&expected), code)?;
    lent.same("the input is changed", &Lent::of(input))?;
    match expected {
        Read::Whole(reply, taken) => reply_is(asked, &reply, taken, &answer, input),
        _ => answer.kept_behind(0),
    }
}

fn reply_is(asked: Asked, reply: &Reply, taken: usize, answer: &Words, input: &[u8]) -> Outcome {
    answer.kept_behind(REPLY_WORDS)?;
    let numbers = reply_numbers(reply, taken);
    let names = "count, id, operation, status, entry version";
    numbers_are(&numbers, answer.slice(), names)?;
    let fields = of_reply(asked, reply);
    let spans = &answer.slice()[numbers.len()..];
    span_is(&fields, Kind::Value, &reply.value, &spans[0..2], input)?;
    span_is(&fields, Kind::Text, &reply.text, &spans[2..4], input)?;
    numbers_are(&reply.statistics, &spans[4..13], &NAMES.join(", "))?;
    let (count, part) = (spans[13], &spans[14..16]);
    same("the number of entries", reply.entries.len() as u64, count)?;
    let start = place(&fields, Kind::More);
    let listed = &input[start..start + entries_length(&fields)];
    span_is(&fields, Kind::More, listed, part, input)
}

/// The bytes of the entries, from the first byte 1 or 0 on; none where it is no
/// bulk reply.
pub fn entries_length(fields: &[Field]) -> usize {
    let first = fields.iter().position(|field| field.kind == Kind::More);
    first.map_or(0, |at| length(&fields[at..]))
}

/// The first words of the answer to a whole reply.
pub fn reply_numbers(reply: &Reply, taken: usize) -> [u64; 5] {
    [
        taken as u64,
        reply.id,
        u64::from(reply.operation),
        u64::from(reply.status),
        reply.version,
    ]
}

/// The numbers in front of the answer; their names are split by commas.
fn numbers_are(expected: &[u64], answer: &[u64], names: &str) -> Outcome {
    let names = names.split(", ");
    for ((name, expected), got) in names.zip(expected).zip(answer) {
        same(&format!("the field {name}"), *expected, *got)?;
    }
    Ok(())
}

/// A span has start and length. Of an empty one only the length is told, and
/// that it lies within the input.
pub fn span_is(fields: &[Field], kind: Kind, bytes: &[u8], span: &[u64], input: &[u8]) -> Outcome {
    let what = format!("the length of {kind:?}");
    same(&what, bytes.len() as u64, span[1])?;
    hold(
        span[0] <= (input.len() - bytes.len()) as u64,
        "a span ends behind the input",
    )?;
    let start = span[0] as usize;
    if !bytes.is_empty() {
        same(
            &format!("the start of {kind:?}"),
            place(fields, kind),
            start,
        )?;
    }
    if &input[start..start + bytes.len()] != bytes {
        return Err(Difference::new("the bytes of a span").bytes("expected", bytes));
    }
    Ok(())
}
