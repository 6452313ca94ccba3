//! Part k: the statistics that calls are told, beside counts that are made from
//! the requests and the statuses of their replies alone.
//!
//! Calls that are refused come among them and before the first one served, the
//! clock goes back, entries expire, and the table is stored and loaded, or made
//! anew.

use std::collections::BTreeMap;

use reference::operation::{sends_value, CLEAR, GET, PUT, REMOVE, REMOVE_IF_UNMODIFIED, STATS};
use reference::{
    load, read_request, step, store, Read, Reply, Request, Statistics, Table, Verdict,
};

use crate::calls::{compared, room_for, Call, World};
use crate::chance::Chance;
use crate::damage;
use crate::difference::{same, Difference, Outcome};
use crate::fields::{join, of_request};
use crate::make;
use crate::subject::{Stores, GOOD};
use crate::trial::Trial;

const CALLS: usize = 60;

/// The calls served since start or the last load.
#[derive(Default)]
struct Log {
    first: Option<u32>,
    /// Operation and status of each.
    served: Vec<(u8, u8)>,
    /// The keys held, by the statuses, each with its deadline.
    held: BTreeMap<Vec<u8>, u64>,
    /// Writes that added a key.
    added: u64,
    /// The latest second of them.
    latest: u32,
}

impl Log {
    /// A log that begins where the table holds these keys.
    fn new(table: &Table) -> Log {
        Log {
            held: table
                .entries
                .iter()
                .map(|(key, entry)| (key.clone(), entry.deadline))
                .collect(),
            ..Log::default()
        }
    }

    /// The present second of a call at this second.
    fn present(&self, second: u32) -> u64 {
        u64::from(self.latest.max(second))
    }

    /// How many of the keys stand at this second.
    fn standing(&self, now: u64) -> u64 {
        let deadlines = self.held.values();
        deadlines.filter(|end| **end == 0 || **end > now).count() as u64
    }

    fn often(&self, operation: u8, status: u8) -> u64 {
        let calls = self.served.iter();
        calls.filter(|call| **call == (operation, status)).count() as u64
    }

    /// What a stats call at this second has to be told.
    fn statistics(&self, second: u32) -> Statistics {
        let first = self.first.unwrap_or(second);
        [
            u64::from(second.max(first) - first),
            self.standing(self.present(second)),
            self.added,
            self.often(PUT, 0) + self.often(PUT, 3),
            self.often(GET, 0) + self.often(GET, 2),
            self.often(GET, 0),
            self.often(GET, 2),
            self.often(REMOVE, 0) + self.often(REMOVE, 3),
            self.often(REMOVE, 2),
        ]
    }

    fn note(&mut self, request: &Request, reply: &Reply, second: u32) {
        let now = self.present(second);
        self.first.get_or_insert(second);
        self.latest = self.latest.max(second);
        self.served.push((request.operation, reply.status));
        self.held.retain(|_, end| *end == 0 || *end > now);
        match (request.operation, reply.status) {
            (operation, 0 | 3) if sends_value(operation) => {
                let end = deadline(request, now);
                let before = self.held.insert(request.key.clone(), end);
                self.added += u64::from(before.is_none());
            }
            (REMOVE | REMOVE_IF_UNMODIFIED, 0 | 3) => drop(self.held.remove(&request.key)),
            (CLEAR, _) => self.held.clear(),
            _ => {}
        }
    }
}

/// The deadline that a request gives at the present second.
fn deadline(request: &Request, now: u64) -> u64 {
    let lifespan = u64::from(request.lifespan);
    match (request.flags & 2, lifespan) {
        (2, _) | (_, 0) => 0,
        (_, 1..=2_592_000) => now + lifespan,
        _ => lifespan,
    }
}

pub fn round<S: Stores>(trial: &mut Trial<S>) -> Outcome {
    let mut world = World::any(&mut trial.chance);
    let mut log = begun(trial, &mut world)?;
    let noon = make::second(&mut trial.chance);
    for _ in 0..CALLS {
        if trial.chance.one_in(25) {
            log = begun(trial, &mut world)?;
        }
        let input = input(&mut trial.chance, &world);
        let call = Call {
            input: &input,
            second: second(&mut trial.chance, noon, &world.table),
            room: room_for(&mut trial.chance, &input),
        };
        noted(trial, &mut world, call, &mut log)?;
    }
    Ok(())
}

/// The table is stored and loaded, or made anew: the counts begin at 0.
fn begun<S: Stores>(trial: &mut Trial<S>, world: &mut World) -> Result<Log, Difference> {
    let code = if trial.chance.one_in(2) {
        world.table = Table::default();
        trial.subject.make(world.memory.slice_mut())
    } else {
        let file = store(&world.table);
        world.table = load(&file).unwrap_or_default();
        trial.subject.load(&file, world.memory.slice_mut())
    };
    same("the return code of fq_make or fq_load", GOOD, code)?;
    Ok(Log::new(&world.table))
}

/// Seconds about noon: before, at and behind it, those that the table is
/// about, and the outermost ones.
fn second(chance: &mut Chance, noon: u32, table: &Table) -> u32 {
    let step = chance.below(100) as u32;
    match chance.below(24) {
        0..=2 => 0,
        3 => u32::MAX,
        4..=9 => noon.saturating_sub(step),
        10..=16 => make::second_for(chance, table),
        _ => noon.saturating_add(step),
    }
}

/// Mostly a request that counts or tells, at times one that is refused.
fn input(chance: &mut Chance, world: &World) -> Vec<u8> {
    let mut request = make::request_for(chance, &world.table, &world.keys);
    if chance.one_in(5) {
        request = make::request_of(chance, STATS);
    }
    let fields = of_request(&request);
    let bytes = join(&fields);
    match chance.below(12) {
        0 => damage::cut(chance, &bytes),
        1 => damage::broken(chance, &fields),
        _ => bytes,
    }
}

/// Makes the call on both, and holds what it tells to the log.
fn noted<S: Stores>(trial: &mut Trial<S>, world: &mut World, call: Call, log: &mut Log) -> Outcome {
    let mut before = world.table.clone();
    let answer = compared(trial, world, call)?;
    let Read::Whole(request, _) = read_request(call.input) else {
        return Ok(());
    };
    if answer.verdict != Verdict::Served {
        return Ok(());
    }
    let Ok(reply) = step(&request, call.second, &mut before) else {
        return Err(Difference::new("a step that is served is refused"));
    };
    if request.operation == STATS {
        let expected = log.statistics(call.second);
        same(
            "the statistics, counted from the replies",
            format!("{expected:?}"),
            format!("{:?}", reply.statistics),
        )?;
    }
    log.note(&request, &reply, call.second);
    Ok(())
}
