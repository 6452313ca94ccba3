//! Part o: the streams of several connections in one call of `fq_serve_many`.
//!
//! Inputs are cut anywhere, refused requests stand between good ones, bulk
//! requests come at every place, and the buffer ends at every border, of its own
//! and behind the replies to others. Ends that are none, lists that are too
//! short, tables that are none: nothing is done or told. Compared is all memory
//! that is lent, at exit.

use reference::operation::{BULK_GET, BULK_GET_KEYS};
use reference::serve::{BULK_ROOM, LEAST_ROOM};
use reference::{serve_many, NotServed, StreamAnswer, Table};

use crate::calls::{state_is, World};
use crate::chance::Chance;
use crate::damage;
use crate::difference::{hold, same, Difference, Outcome};
use crate::fields::{join, of_request};
use crate::lent::{Lent, Words};
use crate::make;
use crate::memory;
use crate::subject::{
    verdict_code, ServesMany, FULL, GOOD, NO_ENDS, SHARE_WORDS, STREAM_WORDS, UNTOLD,
};
use crate::tables;
use crate::trial::Trial;

/// A call: the inputs end to end, their ends, a second and the reply room.
#[derive(Clone)]
struct Turn {
    row: Vec<u8>,
    ends: Vec<u64>,
    second: u32,
    room: usize,
}

/// Room for all replies of a turn.
const AMPLE: usize = 3 * BULK_ROOM;

pub fn round<S: ServesMany>(trial: &mut Trial<S>) -> Outcome {
    let mut world = World::any(&mut trial.chance);
    for _ in 0..6 {
        let count = trial.chance.pick(&[0, 1, 2, 3, 5, 8, 20]);
        let inputs = inputs(&mut trial.chance, &world, count);
        let second = make::second_for(&mut trial.chance, &world.table);
        let room = room(&mut trial.chance);
        let mut turn = turn(&inputs, second, room);
        if trial.chance.one_in(3) {
            turn.row.extend(damage::noise(&mut trial.chance, 0xa0));
        }
        served(trial, &mut world, &turn)?;
    }
    every_end(trial)?;
    every_border(trial)?;
    refused_between(trial)?;
    bulk_at_every_place(trial)?;
    bad_ends(trial)?;
    not_served(trial)?;
    streams_one_by_one(trial)
}

fn turn(inputs: &[Vec<u8>], second: u32, room: usize) -> Turn {
    let mut ends = Vec::new();
    let mut row = Vec::new();
    for input in inputs {
        row.extend_from_slice(input);
        ends.push(row.len() as u64);
    }
    Turn {
        row,
        ends,
        second,
        room,
    }
}

fn room(chance: &mut Chance) -> usize {
    match chance.below(8) {
        0 => chance.below(LEAST_ROOM),
        1 => LEAST_ROOM - 1 + chance.below(3),
        2 => LEAST_ROOM + chance.below(2000),
        3 => BULK_ROOM - 1 + chance.below(3),
        4 | 5 => BULK_ROOM + chance.below(1500),
        _ => AMPLE,
    }
}

/// So many inputs: of no, one or some requests, at times cut, at times with a
/// broken one, at times noise.
fn inputs(chance: &mut Chance, world: &World, count: usize) -> Vec<Vec<u8>> {
    (0..count).map(|_| input(chance, world)).collect()
}

fn input(chance: &mut Chance, world: &World) -> Vec<u8> {
    let mut input = Vec::new();
    for _ in 0..chance.pick(&[0, 1, 1, 2, 5]) {
        let fields = of_request(&make::request_for(chance, &world.table, &world.keys));
        if chance.one_in(20) {
            input.extend(damage::broken(chance, &fields));
        } else {
            input.extend(join(&fields));
        }
    }
    match chance.below(8) {
        0 => damage::cut(chance, &input),
        1 => [input, damage::noise(chance, 0xa0)].concat(),
        _ => input,
    }
}

/// A request without a name that is served.
fn plain(chance: &mut Chance, world: &World) -> Vec<u8> {
    let mut request = make::request_for(chance, &world.table, &world.keys);
    while [BULK_GET, BULK_GET_KEYS].contains(&request.operation) {
        request = make::request_for(chance, &world.table, &world.keys);
    }
    request.name.clear();
    join(&of_request(&request))
}

fn bulk(chance: &mut Chance) -> Vec<u8> {
    let operation = chance.pick(&[BULK_GET, BULK_GET_KEYS]);
    join(&of_request(&make::request_of(chance, operation)))
}

/// The code of a call that is not served.
fn refusal_code(refusal: NotServed) -> u64 {
    match refusal {
        NotServed::Ends => NO_ENDS,
        NotServed::Refused(number) => u64::from(number),
    }
}

/// The numbers told of each connection.
fn words_of(answers: &[StreamAnswer]) -> Vec<u64> {
    let three = |answer: &StreamAnswer| {
        let code = verdict_code(answer.verdict);
        [answer.taken as u64, answer.reply_len as u64, code]
    };
    answers.iter().flat_map(three).collect()
}

/// The turn on both, compared; the answers are the reference's.
fn served<S: ServesMany>(
    trial: &mut Trial<S>,
    world: &mut World,
    turn: &Turn,
) -> Result<Vec<StreamAnswer>, Difference> {
    let before = world.memory.clone();
    made(trial, world, turn, &before).map_err(|found| {
        found
            .with("call", "fq_serve_many")
            .bytes("input", &turn.row)
            .with("ends", format!("{:?}", turn.ends))
            .with("second", turn.second)
            .with("room", turn.room)
            .with("table before", memory::shown(before.slice()))
            .with("table after", memory::shown(world.memory.slice()))
    })
}

fn made<S: ServesMany>(
    trial: &mut Trial<S>,
    world: &mut World,
    turn: &Turn,
    before: &Lent,
) -> Result<Vec<StreamAnswer>, Difference> {
    let mut reply = Lent::random(&mut trial.chance, turn.room);
    let mut expected = reply.clone();
    let answer = by_reference(turn, &mut world.table, expected.slice_mut());
    let needed = SHARE_WORDS * turn.ends.len();
    if needed > 0 && trial.chance.one_in(8) {
        let few = Words::new(trial.chance.pick(&[0, needed - 1, needed / 2]));
        too_short(trial, world, turn, few, before)?;
    }
    let mut words = Words::enough(&mut trial.chance, needed);
    let code = called(trial, &mut world.memory, turn, &mut reply, &mut words)?;
    reply.same("the reply buffer, with a margin on both sides", &expected)?;
    match answer {
        Err(refusal) => {
            same("the return code", refusal_code(refusal), code)?;
            words.kept_behind(0)?;
            let what = "a refused call changes the memory";
            world.memory.same(what, before)?;
            Ok(Vec::new())
        }
        Ok(answers) => {
            same("the return code", GOOD, code)?;
            words.are(&words_of(&answers))?;
            left(trial, world, &answers, before)?;
            Ok(answers)
        }
    }
}

fn by_reference(
    turn: &Turn,
    table: &mut Table,
    replies: &mut [u8],
) -> Result<Vec<StreamAnswer>, NotServed> {
    serve_many(&turn.row, &turn.ends, table, turn.second, replies)
}

/// The memory stands for the reference's table; where nothing is taken every
/// byte of it is as it was.
fn left<S: ServesMany>(
    trial: &mut Trial<S>,
    world: &World,
    answers: &[StreamAnswer],
    before: &Lent,
) -> Outcome {
    let calls: usize = answers.iter().map(|answer| answer.answered).sum();
    trial.counts.served += calls as u64;
    state_is(trial, world, before)?;
    if answers.iter().all(|answer| answer.taken == 0) {
        let what = "the table's memory is changed where nothing is taken";
        return world.memory.same(what, before);
    }
    Ok(())
}

/// The call itself: input and ends stay as they are.
fn called<S: ServesMany>(
    trial: &mut Trial<S>,
    memory: &mut Lent,
    turn: &Turn,
    reply: &mut Lent,
    words: &mut Words,
) -> Result<u64, Difference> {
    let input = Lent::of(&turn.row);
    let ends = turn.ends.clone();
    let code = trial.subject.serve_many(
        input.slice(),
        &ends,
        memory.slice_mut(),
        turn.second,
        reply.slice_mut(),
        words.slice_mut(),
    );
    trial.counts.input(code);
    input.same("the input is changed", &Lent::of(&turn.row))?;
    hold(ends == turn.ends, "the ends are changed")?;
    Ok(code)
}

/// A list that is too short refuses the call before all else.
fn too_short<S: ServesMany>(
    trial: &mut Trial<S>,
    world: &mut World,
    turn: &Turn,
    mut few: Words,
    before: &Lent,
) -> Outcome {
    let lent = Lent::random(&mut trial.chance, turn.room);
    let mut reply = lent.clone();
    let code = called(trial, &mut world.memory, turn, &mut reply, &mut few)?;
    same("the return code where the answer has no room", UNTOLD, code)?;
    few.kept_behind(0)?;
    reply.same("a refused call changes the reply buffer", &lent)?;
    world
        .memory
        .same("a refused call changes the memory", before)
}

/// A row of requests as the inputs of two connections, with every place of the
/// row as the first one's end.
fn every_end<S: ServesMany>(trial: &mut Trial<S>) -> Outcome {
    let start = World::any(&mut trial.chance);
    let row: Vec<u8> = (0..3)
        .flat_map(|_| plain(&mut trial.chance, &start))
        .collect();
    let step = 1 + row.len() / 60;
    for end in (0..=row.len()).step_by(step) {
        let mut world = start.clone();
        let turn = Turn {
            row: row.clone(),
            ends: vec![end as u64, row.len() as u64],
            second: make::second_for(&mut trial.chance, &world.table),
            room: AMPLE,
        };
        served(trial, &mut world, &turn)?;
    }
    Ok(())
}

/// What is left behind the replies to others, for each connection: a byte less
/// than the least room, the least room, and the same of a bulk request.
fn every_border<S: ServesMany>(trial: &mut Trial<S>) -> Outcome {
    let start = World::any(&mut trial.chance);
    let mut inputs = inputs(&mut trial.chance, &start, 4);
    inputs.insert(2, bulk(&mut trial.chance));
    inputs.push([bulk(&mut trial.chance), plain(&mut trial.chance, &start)].concat());
    let second = make::second_for(&mut trial.chance, &start.table);
    let ample = turn(&inputs, second, AMPLE);
    let answers = served(trial, &mut start.clone(), &ample)?;
    let mut used = 0;
    for answer in answers {
        for border in [LEAST_ROOM - 1, LEAST_ROOM, BULK_ROOM - 1, BULK_ROOM] {
            let turn = Turn {
                room: used + border,
                ..ample.clone()
            };
            served(trial, &mut start.clone(), &turn)?;
        }
        used += answer.reply_len;
    }
    Ok(())
}

/// Inputs that are refused 1 to 8, each between two good ones.
const BAD: [&[u8]; 8] = [
    &[0xa1],
    &[0xa0, 0x80, 0x00],
    &[0xa0, 1, 13],
    &[0xa0, 1, 20, 0x1b],
    &[0xa0, 1, 12, 0x17, 0x80, 0x00],
    &[0xa0, 1, 12, 0x17, 0x21],
    &[0xa0, 1, 12, 0x17, 1, 0xff],
    &[0xa0, 1, 12, 0x17, 0, 8],
];

fn refused_between<S: ServesMany>(trial: &mut Trial<S>) -> Outcome {
    let start = World::any(&mut trial.chance);
    let second = make::second_for(&mut trial.chance, &start.table);
    let mut inputs = vec![plain(&mut trial.chance, &start)];
    for bad in BAD {
        let front = plain(&mut trial.chance, &start);
        inputs.push([&front[..], bad, &front].concat());
        inputs.push(plain(&mut trial.chance, &start));
    }
    let answers = served(trial, &mut start.clone(), &turn(&inputs, second, AMPLE))?;
    for (number, answer) in (1..=8).zip(answers.iter().skip(1).step_by(2)) {
        let code = verdict_code(answer.verdict);
        same("the refusal by the papers", number, code)?;
    }
    Ok(())
}

/// A bulk request at every place of every input.
fn bulk_at_every_place<S: ServesMany>(trial: &mut Trial<S>) -> Outcome {
    let start = World::any(&mut trial.chance);
    let second = make::second_for(&mut trial.chance, &start.table);
    let mut requests = Vec::new();
    for _ in 0..3 {
        requests.push([0, 1].map(|_| plain(&mut trial.chance, &start)).to_vec());
    }
    for connection in 0..3 {
        for place in 0..=2 {
            let mut requests = requests.clone();
            requests[connection].insert(place, bulk(&mut trial.chance));
            let inputs: Vec<Vec<u8>> = requests.iter().map(|list| list.concat()).collect();
            let near = trial.chance.below(900);
            let rooms = [
                LEAST_ROOM,
                BULK_ROOM - 1,
                BULK_ROOM,
                BULK_ROOM + near,
                AMPLE,
            ];
            for room in rooms {
                let turn = turn(&inputs, second, room);
                served(trial, &mut start.clone(), &turn)?;
            }
        }
    }
    Ok(())
}

/// Lists that are no ends, one of them wrong at each place.
fn bad_ends<S: ServesMany>(trial: &mut Trial<S>) -> Outcome {
    let world = World::any(&mut trial.chance);
    let inputs = inputs(&mut trial.chance, &world, 4);
    let second = make::second_for(&mut trial.chance, &world.table);
    let good = turn(&inputs, second, AMPLE);
    let size = good.row.len() as u64;
    for (at, near) in good.ends.iter().enumerate() {
        let under = near.saturating_sub(1);
        for end in [near + 1, under, size + 1, size, 0, u64::MAX, 1 << 32] {
            let mut turn = good.clone();
            turn.ends[at] = end;
            turn.room = trial.chance.pick(&[0, LEAST_ROOM - 1, LEAST_ROOM, AMPLE]);
            served(trial, &mut world.clone(), &turn)?;
            damaged(trial, &turn)?;
        }
    }
    no_ends(trial, &good)
}

/// Ends and no input; no end at all.
fn no_ends<S: ServesMany>(trial: &mut Trial<S>, good: &Turn) -> Outcome {
    let empty = Vec::new();
    for (row, ends) in [
        (&empty, vec![1]),
        (&empty, vec![0, 0]),
        (&good.row, Vec::new()),
    ] {
        let turn = Turn {
            row: row.clone(),
            ends,
            room: trial.chance.pick(&[LEAST_ROOM - 1, LEAST_ROOM]),
            ..good.clone()
        };
        let mut world = World::any(&mut trial.chance);
        served(trial, &mut world, &turn)?;
    }
    Ok(())
}

/// The turn on memory that is no table: 12 for a short list, no ends, 12, then
/// 13, and nothing changes.
fn damaged<S: ServesMany>(trial: &mut Trial<S>, turn: &Turn) -> Outcome {
    let mut world = World::any(&mut trial.chance);
    let what = tables::damage(&mut trial.chance, world.memory.slice_mut());
    if memory::is_table(world.memory.slice()) {
        return Ok(());
    }
    let before = world.memory.clone();
    refused(trial, &mut world.memory, turn).map_err(|found| {
        found
            .with("call", "fq_serve_many")
            .with("damage", what)
            .with("ends", format!("{:?}", turn.ends))
            .with("room", turn.room)
            .with("memory", memory::shown(before.slice()))
    })
}

fn refused<S: ServesMany>(trial: &mut Trial<S>, memory: &mut Lent, turn: &Turn) -> Outcome {
    let (before, lent) = (memory.clone(), Lent::random(&mut trial.chance, turn.room));
    let mut reply = lent.clone();
    let needed = SHARE_WORDS * turn.ends.len();
    let mut words = Words::about(&mut trial.chance, needed.max(1));
    let mut room = vec![0; turn.room];
    let expected = match by_reference(turn, &mut Table::default(), &mut room) {
        _ if words.slice().len() < needed => UNTOLD,
        Err(refusal) => refusal_code(refusal),
        Ok(_) => 13,
    };
    let code = called(trial, memory, turn, &mut reply, &mut words)?;
    same("the return code on memory that is no table", expected, code)?;
    words.kept_behind(0)?;
    reply.same("a refused call changes the reply buffer", &lent)?;
    memory.same("a refused call changes the memory", &before)
}

/// Good ends on memory that is no table, in every room.
fn not_served<S: ServesMany>(trial: &mut Trial<S>) -> Outcome {
    let world = World::any(&mut trial.chance);
    for count in [0, 1, 3] {
        let inputs = inputs(&mut trial.chance, &world, count);
        for room in [0, LEAST_ROOM - 1, LEAST_ROOM, BULK_ROOM] {
            damaged(trial, &turn(&inputs, 7, room))?;
        }
    }
    Ok(())
}

/// In room for all replies each connection gets what a stream of the subject's
/// own gives on the table that the one before left.
fn streams_one_by_one<S: ServesMany>(trial: &mut Trial<S>) -> Outcome {
    let world = World::any(&mut trial.chance);
    let mut inputs = Vec::new();
    for _ in 0..6 {
        let front = plain(&mut trial.chance, &world);
        let back = plain(&mut trial.chance, &world);
        let end = trial.chance.up_to(back.len());
        inputs.push([&front[..], &back[..end]].concat());
    }
    let second = make::second_for(&mut trial.chance, &world.table);
    let turn = turn(&inputs, second, AMPLE);
    beside_streams(trial, &world, &inputs, &turn).map_err(|found| {
        found
            .with("call", "fq_serve_many beside fq_serve_stream")
            .bytes("input", &turn.row)
            .with("ends", format!("{:?}", turn.ends))
    })
}

fn beside_streams<S: ServesMany>(
    trial: &mut Trial<S>,
    world: &World,
    inputs: &[Vec<u8>],
    turn: &Turn,
) -> Outcome {
    let (mut memory, mut other) = (world.memory.clone(), world.memory.clone());
    let mut replies = Lent::random(&mut trial.chance, AMPLE);
    let mut expected = replies.clone();
    let (mut told, mut sent) = (Vec::new(), 0);
    for input in inputs {
        let mut words = Words::new(STREAM_WORDS);
        let code = trial.subject.serve_stream(
            input,
            other.slice_mut(),
            turn.second,
            &mut expected.slice_mut()[sent..],
            words.slice_mut(),
        );
        hold(code != FULL, "a stream is full in room for all")?;
        told.extend([words.slice()[0], words.slice()[1], code]);
        sent += words.slice()[1] as usize;
    }
    let mut words = Words::new(SHARE_WORDS * inputs.len());
    let code = called(trial, &mut memory, turn, &mut replies, &mut words)?;
    same("the return code", GOOD, code)?;
    words.are(&told)?;
    replies.same("the replies of the streams one by one", &expected)?;
    memory.same("the memory after the streams one by one", &other)
}
