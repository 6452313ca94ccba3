//! Part b: sequences of calls on one table, compared call by call.

use reference::Request;

use crate::calls::{compared, room_for, Call, World};
use crate::damage;
use crate::difference::{hold, Outcome};
use crate::fields::{join, of_request};
use crate::lent::Lent;
use crate::make;
use crate::memory;
use crate::subject::{Subject, GOOD};
use crate::trial::Trial;

const CALLS: usize = 150;

pub fn round<S: Subject>(trial: &mut Trial<S>) -> Outcome {
    let mut world = start(trial)?;
    for _ in 0..CALLS {
        let request = make::request_for(&mut trial.chance, &world.table, &world.keys);
        let input = input(trial, &request);
        let call = Call {
            input: &input,
            second: make::second_for(&mut trial.chance, &world.table),
            room: room_for(&mut trial.chance, &input),
        };
        compared(trial, &mut world, call)?;
    }
    Ok(())
}

/// A fresh table that the subject makes, or any sound one.
fn start<S: Subject>(trial: &mut Trial<S>) -> Result<World, crate::difference::Difference> {
    if !trial.chance.one_in(3) {
        return Ok(World::any(&mut trial.chance));
    }
    let mut memory = Lent::random(&mut trial.chance, memory::SIZE);
    let before = memory.clone();
    hold(
        trial.subject.make(memory.slice_mut()) == GOOD,
        "fq_make refuses memory of the right length",
    )?;
    let world = World {
        memory,
        table: reference::Table::default(),
        keys: make::keys(&mut trial.chance),
    };
    crate::calls::state_is(trial, &world, &before)?;
    Ok(world)
}

/// The request's bytes, mostly alone, at times followed by others, cut or
/// broken.
fn input<S>(trial: &mut Trial<S>, request: &Request) -> Vec<u8> {
    let chance = &mut trial.chance;
    let fields = of_request(request);
    let bytes = join(&fields);
    match chance.below(20) {
        0 => damage::cut(chance, &bytes),
        1 => damage::broken(chance, &fields),
        2 => damage::one_byte_changed(chance, &bytes),
        3 => damage::noise(chance, 0xa0),
        4 => [&bytes[..], &bytes].concat(),
        5 => {
            let tail = chance.up_to(30);
            [bytes, chance.bytes(tail)].concat()
        }
        _ => bytes,
    }
}
