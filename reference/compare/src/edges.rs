//! Part h: the edges that document 01 names, each with the code it has to give there:
//! compared like any call, and the code with the paper's.

use reference::history::COUNTS;
use reference::map::{LARGEST_VERSION, MOST_KEYS};
use reference::number::LARGEST_VLONG;
use reference::operation::{GET, GET_WITH_VERSION, PUT, PUT_IF_ABSENT, REMOVE, REPLACE, STATS};
use reference::{Answer, Entry, History, Request, Table};

use crate::calls::{compared, Call, World};
use crate::difference::{hold, Difference, Outcome};
use crate::fields::{join, of_request};
use crate::subject::{verdict_code, Subject, GOOD};
use crate::trial::Trial;

/// A table, a request to it, and the code of the call.
struct Edge {
    name: &'static str,
    table: Table,
    request: Request,
    code: u64,
}

fn key(number: usize) -> Vec<u8> {
    vec![number as u8; 2]
}

/// A table of so many entries, the last version issued being this one.
fn table(count: usize, last: u64) -> Table {
    let entry = |at: usize| Entry {
        value: vec![0x31; 256],
        version: at as u64 + 1,
        deadline: 0,
    };
    Table {
        entries: (0..count).map(|at| (key(at), entry(at))).collect(),
        last,
        ..Table::default()
    }
}

fn request(operation: u8, key: Vec<u8>, value: usize) -> Request {
    Request {
        id: 1,
        version: 12,
        operation,
        intelligence: 1,
        key,
        value: vec![0x32; value],
        ..Request::default()
    }
}

fn named(name: &[u8]) -> Request {
    Request {
        name: name.to_vec(),
        ..request(GET, key(0), 0)
    }
}

fn sizes() -> Vec<(&'static str, Request, u64)> {
    vec![
        ("key of 64 bytes", request(PUT, vec![0x6b; 64], 1), GOOD),
        ("key of 65 bytes", request(PUT, vec![0x6b; 65], 1), 6),
        ("value of 256 bytes", request(PUT, key(0), 256), GOOD),
        ("value of 257 bytes", request(PUT, key(0), 257), 6),
        ("name of 32 bytes", named(&[0x6e; 32]), 9),
        ("name of 33 bytes", named(&[0x6e; 33]), 6),
        ("name c3", named(&[0xc3]), 7),
        ("name c0 80", named(&[0xc0, 0x80]), 7),
        ("name ed a0 80", named(&[0xed, 0xa0, 0x80]), 7),
    ]
}

const FULL: u64 = MOST_KEYS as u64;
const NEXT: u64 = LARGEST_VERSION - 1;
const SPENT: u64 = LARGEST_VERSION;

/// What it is, how many keys are held, the last version issued, the operation
/// and its key, and the code. Keys below the number held are held.
const FILLED: [(&str, usize, u64, u8, usize, u64); 10] = [
    ("128th key", 127, 127, PUT, 200, GOOD),
    ("129th key", 128, FULL, PUT, 200, 10),
    ("129th key, if absent", 128, FULL, PUT_IF_ABSENT, 200, 10),
    ("overwrite at 128", 128, FULL, PUT, 0, GOOD),
    ("no entry to replace at 128", 128, FULL, REPLACE, 200, GOOD),
    ("last version", 2, NEXT, PUT, 0, GOOD),
    ("no version left", 2, SPENT, PUT, 0, 11),
    ("nor an entry to replace", 2, SPENT, REPLACE, 9, GOOD),
    ("removal, no version left", 2, SPENT, REMOVE, 0, GOOD),
    ("129th key, none left", 128, SPENT, PUT, 200, 10),
];

fn edges() -> Vec<Edge> {
    let sizes = sizes().into_iter().map(|(name, request, code)| Edge {
        name,
        table: Table::default(),
        request,
        code,
    });
    let filled = FILLED.map(|(name, count, last, operation, at, code)| Edge {
        name,
        table: table(count, last),
        request: request(operation, key(at), (operation != REMOVE) as usize),
        code,
    });
    sizes.chain(filled).collect()
}

/// All edges, every beginning of each request that is served, and the longest
/// reply.
pub fn round<S: Subject>(trial: &mut Trial<S>) -> Outcome {
    for edge in edges() {
        let input = join(&of_request(&edge.request));
        one(trial, &edge, &input, edge.code)?;
        for end in 0..if edge.code == GOOD { input.len() } else { 0 } {
            one(trial, &edge, &input[..end], 0)?;
        }
    }
    let edge = longest();
    let input = join(&of_request(&edge.request));
    let answer = one(trial, &edge, &input, edge.code)?;
    hold(answer.reply_len == 279, edge.name)?;
    longest_statistics(trial)
}

/// A stats reply with all counts at the largest, the longest time since the
/// first call, and 128 keys: it passes 279 bytes.
fn longest_statistics<S: Subject>(trial: &mut Trial<S>) -> Outcome {
    let mut table = table(MOST_KEYS, SPENT);
    table.history = History {
        first: Some(0),
        counts: [LARGEST_VLONG; COUNTS],
        latest: 0,
    };
    let request = Request {
        id: LARGEST_VLONG,
        ..request(STATS, Vec::new(), 0)
    };
    let mut world = World::of(&mut trial.chance, table, Vec::new());
    let call = Call {
        input: &join(&of_request(&request)),
        second: u32::MAX,
        room: 512,
    };
    let answer = compared(trial, &mut world, call)?;
    let good = verdict_code(answer.verdict) == GOOD && answer.reply_len == 282;
    hold(good, "longest stats reply of a call")
}

/// The reply to this has a value of 256 bytes and a message id of 9.
fn longest() -> Edge {
    Edge {
        name: "longest reply",
        table: table(2, 2),
        request: Request {
            id: LARGEST_VERSION,
            ..request(GET_WITH_VERSION, key(0), 0)
        },
        code: GOOD,
    }
}

fn one<S: Subject>(
    trial: &mut Trial<S>,
    edge: &Edge,
    input: &[u8],
    code: u64,
) -> Result<Answer, Difference> {
    let mut world = World::of(&mut trial.chance, edge.table.clone(), Vec::new());
    let call = Call {
        input,
        second: 5,
        room: 512,
    };
    let answer = compared(trial, &mut world, call)?;
    hold(verdict_code(answer.verdict) == code, edge.name)?;
    Ok(answer)
}
