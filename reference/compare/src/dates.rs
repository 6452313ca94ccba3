//! Part i: the deadlines that lifespans give at the border between spans and
//! dates, through a call, a stream, a request file, a stored file and back.
//! Each is compared like any other, and the deadline with one worked out by
//! hand.

use reference::hex::to_digits;
use reference::map::LARGEST_DEADLINE;
use reference::operation::{
    sends_entry_version, PUT, PUT_IF_ABSENT, REPLACE, REPLACE_IF_UNMODIFIED,
};
use reference::{store, Entry, Request, Table};

use crate::calls::{compared, Call, World};
use crate::chance::Chance;
use crate::difference::{same, Difference, Outcome};
use crate::fields::{join, of_request};
use crate::lines::whole_file;
use crate::make;
use crate::memory::SIZE;
use crate::stored::{loaded, stored};
use crate::streams::compared_stream;
use crate::subject::{ServesLines, Stores};
use crate::trial::Trial;

/// A lifespan, a second, and the deadline without flag 0x0002.
const EDGES: [(u32, u32, u64); 10] = [
    (0, 0, 0),
    (1, 0, 1),
    (2_592_000, 0, 2_592_000),
    (2_592_001, 0, 2_592_001),
    (4_294_967_295, 0, 4_294_967_295),
    (0, 4_294_967_295, 0),
    (1, 4_294_967_295, 4_294_967_296),
    (2_592_000, 4_294_967_295, 4_297_559_295),
    (2_592_001, 4_294_967_295, 2_592_001),
    (4_294_967_295, 4_294_967_295, 4_294_967_295),
];

/// A protocol version, flags, and whether 0x0002 is among them.
const FLAGS: [(u8, u32, bool); 18] = [
    (10, 0, false),
    (10, 1, false),
    (11, 0, false),
    (11, 1, false),
    (12, 0, false),
    (12, 1, false),
    (12, 2, true),
    (12, 3, true),
    (12, 4, false),
    (12, 5, false),
    (12, 6, true),
    (12, 7, true),
    (20, 0, false),
    (20, 1, false),
    (20, 2, true),
    (20, 8, false),
    (20, 29, false),
    (20, 31, true),
];

const WRITES: [u8; 4] = [PUT, PUT_IF_ABSENT, REPLACE, REPLACE_IF_UNMODIFIED];

const KEY: &[u8] = b"berth/7";
const HELD: u64 = 4;
const LAST: u64 = 9;

/// How a request gets to the server.
#[derive(Clone, Copy, Debug)]
enum Way {
    Call,
    Stream,
    Lines,
}

/// All edges with all flags, by each operation that stores, in each way.
pub fn round<S: ServesLines + Stores>(trial: &mut Trial<S>) -> Outcome {
    for (lifespan, second, deadline) in EDGES {
        for (version, flags, is_default) in FLAGS {
            for operation in WRITES {
                let request = Request {
                    version,
                    flags,
                    lifespan,
                    ..write(&mut trial.chance, operation)
                };
                let wanted = if is_default { 0 } else { deadline };
                every_way(trial, &request, second, wanted)?;
            }
        }
    }
    Ok(())
}

/// A request that stores under the key in `start`.
fn write(chance: &mut Chance, operation: u8) -> Request {
    let length = make::length(chance, 8);
    Request {
        id: make::long(chance),
        operation,
        intelligence: 1,
        key: KEY.to_vec(),
        max_idle: make::int(chance),
        entry_version: if sends_entry_version(operation) {
            HELD
        } else {
            0
        },
        value: chance.bytes(length),
        ..Request::default()
    }
}

/// Deadlines that stand at every second.
const STANDING: [u64; 4] = [0, 4_294_967_296, LARGEST_DEADLINE - 1, LARGEST_DEADLINE];

/// A table that holds the key with another deadline, or does not hold it.
fn start(chance: &mut Chance, operation: u8) -> World {
    let mut table = Table {
        last: LAST,
        ..Table::default()
    };
    let entry = Entry {
        value: vec![7],
        version: HELD,
        deadline: chance.pick(&STANDING),
    };
    if operation != PUT_IF_ABSENT {
        table.entries.insert(KEY.to_vec(), entry);
    }
    World::of(chance, table, vec![KEY.to_vec()])
}

fn every_way<S: ServesLines + Stores>(
    trial: &mut Trial<S>,
    request: &Request,
    second: u32,
    deadline: u64,
) -> Outcome {
    for way in [Way::Call, Way::Stream, Way::Lines] {
        one_way(trial, request, second, deadline, way).map_err(|found| {
            found
                .with("lifespan", request.lifespan)
                .with("flags", request.flags)
                .with("operation", request.operation)
                .with("way", format!("{way:?}"))
        })?;
    }
    Ok(())
}

fn one_way<S: ServesLines + Stores>(
    trial: &mut Trial<S>,
    request: &Request,
    second: u32,
    deadline: u64,
    way: Way,
) -> Outcome {
    let mut world = start(&mut trial.chance, request.operation);
    served(trial, &mut world, request, second, way)?;
    let entry = world.table.entries.get(KEY).cloned().unwrap_or_default();
    same("the version issued", LAST + 1, entry.version)?;
    same("the deadline worked out by hand", deadline, entry.deadline)?;
    stored(trial, &world)?;
    loaded(trial, &store(&world.table), SIZE)
}

fn served<S: ServesLines>(
    trial: &mut Trial<S>,
    world: &mut World,
    request: &Request,
    second: u32,
    way: Way,
) -> Result<(), Difference> {
    let input = join(&of_request(request));
    let call = Call {
        input: &input,
        second,
        room: 1024,
    };
    match way {
        Way::Call => compared(trial, world, call).map(drop),
        Way::Stream => compared_stream(trial, world, call).map(drop),
        Way::Lines => {
            let mut line = to_digits(&second.to_be_bytes());
            line.push(b' ');
            line.extend(to_digits(&input));
            whole_file(trial, world, &line)
        }
    }
}
