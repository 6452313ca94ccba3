//! One call to the server, compared with the reference: the answer, every
//! byte of the reply buffer, the input, and the table.

use reference::operation::greatest_bulk;
use reference::serve::BULK_ROOM;
use reference::{read_request, serve, Answer, Read, Table, Verdict};

use crate::chance::Chance;
use crate::difference::{hold, same, Difference, Outcome};
use crate::lent::{Lent, Words};
use crate::make;
use crate::memory;
use crate::subject::{verdict_code, Subject, SERVE_WORDS, UNTOLD};
use crate::trial::Trial;

/// The table in memory, the same table of the reference, and the keys that
/// requests to it use.
#[derive(Clone)]
pub struct World {
    pub memory: Lent,
    pub table: Table,
    pub keys: Vec<Vec<u8>>,
}

#[derive(Clone, Copy)]
pub struct Call<'a> {
    pub input: &'a [u8],
    pub second: u32,
    pub room: usize,
}

impl World {
    /// The table written over random bytes.
    pub fn of(chance: &mut Chance, table: Table, keys: Vec<Vec<u8>>) -> World {
        let mut memory = Lent::random(chance, memory::SIZE);
        memory::encode(&table, memory.slice_mut());
        World {
            memory,
            table,
            keys,
        }
    }

    /// A sound table by chance.
    pub fn any(chance: &mut Chance) -> World {
        let keys = make::keys(chance);
        let table = make::table(chance, &keys);
        World::of(chance, table, keys)
    }
}

/// Room for a reply: mostly enough, at times too little.
pub fn room(chance: &mut Chance) -> usize {
    match chance.below(30) {
        0 => chance.pick(&[0, 1, 279, 511]),
        1 => chance.below(512),
        2 => 513 + chance.below(200),
        3 => BULK_ROOM - 1 + chance.below(3),
        _ => 512,
    }
}

/// The same, for the request at the front of the input: for a bulk request
/// mostly enough or one byte less.
pub fn room_for(chance: &mut Chance, input: &[u8]) -> usize {
    let bulk = match read_request(input) {
        Read::Whole(request, _) => greatest_bulk(request.operation).is_some(),
        _ => false,
    };
    if bulk && !chance.one_in(4) {
        let more = BULK_ROOM + chance.below(200);
        return chance.pick(&[BULK_ROOM - 1, BULK_ROOM, BULK_ROOM, more]);
    }
    room(chance)
}

/// Makes the call on both and compares. The answer is the reference's.
pub fn compared<S: Subject>(
    trial: &mut Trial<S>,
    world: &mut World,
    call: Call,
) -> Result<Answer, Difference> {
    let (answer, _) = replied(trial, world, call)?;
    Ok(answer)
}

/// The same, with the bytes of the reply.
pub fn replied<S: Subject>(
    trial: &mut Trial<S>,
    world: &mut World,
    call: Call,
) -> Result<(Answer, Vec<u8>), Difference> {
    let before = world.memory.clone();
    made(trial, world, call, &before).map_err(|found| {
        found
            .with("call", "fq_serve")
            .bytes("input", call.input)
            .with("second", call.second)
            .with("room", call.room)
            .with("table before", memory::shown(before.slice()))
            .with("table after", memory::shown(world.memory.slice()))
    })
}

fn made<S: Subject>(
    trial: &mut Trial<S>,
    world: &mut World,
    call: Call,
    before: &Lent,
) -> Result<(Answer, Vec<u8>), Difference> {
    let input = Lent::of(call.input);
    let mut reply = Lent::random(&mut trial.chance, call.room);
    let mut expected = reply.clone();
    let answer = serve(
        call.input,
        &mut world.table,
        call.second,
        expected.slice_mut(),
    );
    // A call that has no room for its answer does nothing: the one behind it is
    // compared as if it had not been made.
    if trial.chance.below(16) == 0 {
        let mut few = Words::new(trial.chance.below(SERVE_WORDS));
        let code = trial.subject.serve(
            input.slice(),
            world.memory.slice_mut(),
            call.second,
            reply.slice_mut(),
            few.slice_mut(),
        );
        same("the return code where the answer has no room", UNTOLD, code)?;
        few.kept_behind(0)?;
    }
    let mut words = Words::enough(&mut trial.chance, SERVE_WORDS);
    let code = trial.subject.serve(
        input.slice(),
        world.memory.slice_mut(),
        call.second,
        reply.slice_mut(),
        words.slice_mut(),
    );
    trial.counts.call(code);
    same("the return code", verdict_code(answer.verdict), code)?;
    words.are(&[answer.taken as u64, answer.reply_len as u64])?;
    reply.same("the reply buffer, with a margin on both sides", &expected)?;
    input.same("the input is changed", &Lent::of(call.input))?;
    table_is(trial, world, before, answer.verdict == Verdict::Served)?;
    let sent = reply.slice()[..answer.reply_len].to_vec();
    Ok((answer, sent))
}

/// After a request that was served the memory stands for the reference's
/// table; after any other call every byte is as it was.
pub fn table_is<S: Subject>(
    trial: &mut Trial<S>,
    world: &World,
    before: &Lent,
    served: bool,
) -> Outcome {
    if !served {
        return world
            .memory
            .same("the table's memory is changed by a refused call", before);
    }
    state_is(trial, world, before)
}

/// The memory stands for the reference's table and is sound.
pub fn state_is<S: Subject>(trial: &mut Trial<S>, world: &World, before: &Lent) -> Outcome {
    world
        .memory
        .margins_kept("bytes beside the table's memory are changed", before)?;
    let held = memory::holds(world.memory.slice(), &world.table);
    hold(held, "the state of the table").map_err(|found| expected_table(found, &world.table))?;
    hold(
        trial.subject.is_table(world.memory.slice()),
        "fq_is_table says that the table after the call is none",
    )
}

/// Adds the expected table in its stored form.
pub fn expected_table(found: Difference, table: &Table) -> Difference {
    let file = reference::store(table);
    found.with("expected table", String::from_utf8_lossy(&file))
}
