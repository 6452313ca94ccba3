//! Part c: rows of many requests, served by `fq_serve_stream`, by the calls
//! one by one, and by the reference in both ways.

use reference::serve::BULK_ROOM;
use reference::{serve, serve_stream, StreamAnswer, Table, Verdict};

use crate::calls::{compared, expected_table, room_for, Call, World};
use crate::chance::Chance;
use crate::damage;
use crate::difference::{hold, same, same_bytes, Difference, Outcome};
use crate::fields::{join, of_request};
use crate::lent::{Lent, Words};
use crate::make;
use crate::memory;
use crate::subject::{verdict_code, Subject, FULL, SERVE_WORDS, STREAM_WORDS, UNTOLD};
use crate::trial::Trial;

/// What a stream of calls comes to. A call that is refused 12 behind replies is
/// not made: the stream ends before it.
#[derive(Clone, Copy, Debug, Default, PartialEq, Eq)]
pub struct Total {
    pub taken: usize,
    sent: usize,
    /// The calls made, the last one included.
    calls: usize,
    /// The last call's, or that there was no room for a further one.
    code: u64,
}

impl Total {
    /// Adds a call, and says whether another one may follow: after a call that
    /// took its request.
    fn add(&mut self, code: u64, taken: usize, sent: usize) -> bool {
        if code == 12 && self.sent > 0 {
            self.code = FULL;
            return false;
        }
        self.taken += taken;
        self.sent += sent;
        self.calls += 1;
        self.code = code;
        taken > 0
    }
}

pub fn round<S: Subject>(trial: &mut Trial<S>) -> Outcome {
    let mut world = World::any(&mut trial.chance);
    let row = row(&mut trial.chance, &world);
    let mut taken = 0;
    let mut idle = 0;
    while idle < 3 {
        let end = seen_end(&mut trial.chance, taken, row.len());
        let call = Call {
            input: &row[taken..end],
            second: make::second_for(&mut trial.chance, &world.table),
            room: stream_room(&mut trial.chance),
        };
        let more = one_call(trial, &mut world, call)?;
        taken += more;
        idle = if more == 0 { idle + 1 } else { 0 };
    }
    Ok(())
}

/// Mostly a stream, at times a single call.
fn one_call<S: Subject>(
    trial: &mut Trial<S>,
    world: &mut World,
    call: Call,
) -> Result<usize, Difference> {
    if trial.chance.one_in(4) {
        let room = room_for(&mut trial.chance, call.input);
        return Ok(compared(trial, world, Call { room, ..call })?.taken);
    }
    Ok(compared_stream(trial, world, call)?.taken)
}

/// Many requests, some refused 9 to 11, at times one refused 1 to 8 between
/// them, and a tail.
fn row(chance: &mut Chance, world: &World) -> Vec<u8> {
    let mut row = Vec::new();
    for _ in 0..chance.pick(&[0, 1, 5, 40, 120]) {
        let request = make::request_for(chance, &world.table, &world.keys);
        let fields = of_request(&request);
        if chance.one_in(150) {
            row.extend(damage::broken(chance, &fields));
        } else {
            row.extend(join(&fields));
        }
    }
    row.extend(tail(chance));
    row
}

fn tail(chance: &mut Chance) -> Vec<u8> {
    let bytes = join(&of_request(&make::request(chance)));
    match chance.below(4) {
        0 => Vec::new(),
        1 => damage::cut(chance, &bytes),
        2 => damage::one_byte_changed(chance, &bytes),
        _ => damage::noise(chance, 0xa0),
    }
}

/// The row is seen whole, or only up to some place.
fn seen_end(chance: &mut Chance, taken: usize, length: usize) -> usize {
    if chance.one_in(3) {
        return taken + chance.up_to(length - taken);
    }
    length
}

/// Room that is enough for all, for some, for one, or for none.
fn stream_room(chance: &mut Chance) -> usize {
    match chance.below(8) {
        0 => chance.below(512),
        1 => 512,
        2 => 512 + chance.below(300),
        3 => 512 + chance.below(4000),
        4 => BULK_ROOM - 1 + chance.below(3),
        5 => BULK_ROOM + chance.below(1000),
        _ => 60_000,
    }
}

/// The reference's calls one by one.
fn one_by_one(call: Call, table: &mut Table, replies: &mut [u8]) -> Total {
    let mut total = Total::default();
    loop {
        let rest = &call.input[total.taken..];
        let answer = serve(rest, table, call.second, &mut replies[total.sent..]);
        let code = verdict_code(answer.verdict);
        if !total.add(code, answer.taken, answer.reply_len) {
            return total;
        }
    }
}

/// The subject's calls one by one. They also stop where no stream can go
/// on, beyond what was lent.
fn subject_one_by_one<S: Subject>(
    trial: &mut Trial<S>,
    call: Call,
    memory: &mut Lent,
    replies: &mut Lent,
) -> Total {
    let mut total = Total::default();
    loop {
        let mut words = Words::new(SERVE_WORDS);
        let code = trial.subject.serve(
            &call.input[total.taken..],
            memory.slice_mut(),
            call.second,
            &mut replies.slice_mut()[total.sent..],
            words.slice_mut(),
        );
        trial.counts.call(code);
        let [taken, sent] = [words.slice()[0] as usize, words.slice()[1] as usize];
        let goes_on = total.add(code, taken, sent);
        let inside = total.taken <= call.input.len() && total.sent <= call.room;
        if !inside || !goes_on {
            return total;
        }
    }
}

/// The stream on both, compared, and the calls one by one.
pub fn compared_stream<S: Subject>(
    trial: &mut Trial<S>,
    world: &mut World,
    call: Call,
) -> Result<Total, Difference> {
    let before = world.memory.clone();
    streamed(trial, world, call, &before).map_err(|found| {
        found
            .with("call", "fq_serve_stream")
            .bytes("input", call.input)
            .with("second", call.second)
            .with("room", call.room)
            .with("table before", memory::shown(before.slice()))
            .with("table after", memory::shown(world.memory.slice()))
    })
}

fn streamed<S: Subject>(
    trial: &mut Trial<S>,
    world: &mut World,
    call: Call,
    before: &Lent,
) -> Result<Total, Difference> {
    let lent = Lent::random(&mut trial.chance, call.room);
    let mut table = world.table.clone();
    let mut expected = lent.clone();
    let total = one_by_one(call, &mut table, expected.slice_mut());
    reference_agrees(call, world, &lent, total, &expected)?;
    single_calls(trial, world, call, &lent, total, &expected, &table)?;
    let changed = table != world.table;
    world.table = table;
    whole_stream(trial, world, call, lent, total, &expected)?;
    if changed {
        crate::calls::state_is(trial, world, before)?;
    } else {
        state_kept(world, total, before)?;
    }
    Ok(total)
}

/// The reference's own stream is its calls one by one.
fn reference_agrees(
    call: Call,
    world: &World,
    lent: &Lent,
    total: Total,
    expected: &Lent,
) -> Outcome {
    let mut replies = lent.clone();
    let mut table = world.table.clone();
    let answer = serve_stream(call.input, &mut table, call.second, replies.slice_mut());
    let StreamAnswer { taken, verdict, .. } = answer;
    let agree = taken == total.taken
        && answer.reply_len == total.sent
        && verdict_code(verdict) == total.code
        && replies.all() == expected.all()
        && answer.answered <= total.calls;
    hold(agree, "the reference's stream is not its calls one by one")
}

/// The subject's calls one by one are those of the reference.
fn single_calls<S: Subject>(
    trial: &mut Trial<S>,
    world: &World,
    call: Call,
    lent: &Lent,
    total: Total,
    expected: &Lent,
    table: &Table,
) -> Outcome {
    let mut memory = world.memory.clone();
    let mut replies = lent.clone();
    let single = subject_one_by_one(trial, call, &mut memory, &mut replies);
    totals_are("the calls one by one", total, single)?;
    replies.same("the replies of the calls one by one", expected)?;
    hold(
        memory::holds(memory.slice(), table),
        "the state after the calls one by one",
    )
    .map_err(|found| expected_table(found, table))
}

fn totals_are(whose: &str, expected: Total, got: Total) -> Outcome {
    if expected == got {
        return Ok(());
    }
    Err(Difference::new(whose)
        .with("expected", format!("{expected:?}"))
        .with("got", format!("{got:?}")))
}

fn whole_stream<S: Subject>(
    trial: &mut Trial<S>,
    world: &mut World,
    call: Call,
    mut replies: Lent,
    total: Total,
    expected: &Lent,
) -> Outcome {
    let input = Lent::of(call.input);
    if trial.chance.below(16) == 0 {
        let mut few = Words::new(trial.chance.below(STREAM_WORDS));
        let code = trial.subject.serve_stream(
            input.slice(),
            world.memory.slice_mut(),
            call.second,
            replies.slice_mut(),
            few.slice_mut(),
        );
        same("the return code where the answer has no room", UNTOLD, code)?;
        few.kept_behind(0)?;
    }
    let mut words = Words::enough(&mut trial.chance, STREAM_WORDS);
    let code = trial.subject.serve_stream(
        input.slice(),
        world.memory.slice_mut(),
        call.second,
        replies.slice_mut(),
        words.slice_mut(),
    );
    trial.counts.input(code);
    trial.counts.served += total.calls as u64;
    same("the return code of the stream", total.code, code)?;
    words.are(&[total.taken as u64, total.sent as u64, total.calls as u64])?;
    replies.same("the replies of the stream", expected)?;
    input.same("the input is changed", &Lent::of(call.input))
}

/// A stream that changed nothing left the state; one whose only call was
/// refused, or told that more is needed, left every byte.
fn state_kept(world: &World, total: Total, before: &Lent) -> Outcome {
    hold(
        memory::holds(world.memory.slice(), &world.table),
        "the state after a stream that changes nothing",
    )?;
    if total.calls == 1 && total.code != verdict_code(Verdict::Served) && total.code != FULL {
        let what = "the table's memory is changed by a refused call";
        return same_bytes(what, before.all(), world.memory.all());
    }
    Ok(())
}
