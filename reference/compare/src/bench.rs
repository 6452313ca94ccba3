//! Benchmarks: medians of several rounds. In each round the subject, the
//! reference and a memory copy of the same bytes are measured one after the
//! other, so that all meet the same conditions.

use std::cell::RefCell;
use std::hint::black_box;
use std::time::{Duration, Instant};

use reference::hex::to_digits;
use reference::map::LARGEST_DEADLINE;
use reference::operation::{BULK_GET, BULK_GET_KEYS, GET, PUT, STATS};
use reference::serve::BULK_ROOM;
use reference::{Entry, Read, Reply, Request, Table};

use crate::chance::Chance;
use crate::fields::{join, of_reply, of_request};
use crate::lines::LEAST;
use crate::memory::{self, put_number, BOUND, SIZE};
use crate::messages::{reply_numbers, request_numbers};
use crate::subject::{
    Asked, Piece, ReplyParts, RequestParts, ServesLines, Subject, GOOD, LINES_WORDS, REPLY_WORDS,
    REQUEST_WORDS, SERVE_WORDS, STREAM_WORDS,
};
use crate::writers::EntriesDraft;

/// The rounds whose median is told.
const ROUNDS: usize = 21;
/// The entries of the table.
const ENTRIES: usize = 128;
/// The requests of a stream and the lines of a file.
const REQUESTS: usize = 1000;
/// The calls on one message in a round.
const CALLS: usize = 10_000;
/// The calls that check the table in a round.
const CHECKS: usize = 128;
/// The calls that serve one request in a round.
const CALLED: usize = 120;
/// The bulk requests of a stream.
const BULKS: usize = 16;
const SECOND: u32 = 5;
/// A deadline far behind that second.
const FAR: u64 = 1_000_000;
const REPLY_ROOM: usize = 512;

/// What is said above the table of results.
pub const CONDITIONS: &str = "\
Medians of 21 rounds in nanoseconds for one message, request, check or line.
The table has 128 entries with keys of 32 bytes, 24 of them the same, and
values of 256 bytes. None has a deadline but where it is said; there each has
one, and none expires. Cleared before each round: the table is set back to these
entries, reply and output buffers are filled with zeros. Not cleared: the
caches of the processor, so all is warm. Reading of the reference copies name,
key and value, that of the library does not. serve_stream of the library checks
the table once a stream, that of the reference at each request; serve of both
checks it at each call. `copy` is a memory copy of the same bytes: those read
and those written; where 128 entries are sent at once, it is one of the reply
alone, to where the library wrote it: in a stream of 16 one behind the other.";

/// One line of the results, in nanoseconds for one unit.
pub struct Row {
    name: &'static str,
    bytes: usize,
    subject: f64,
    reference: f64,
    copy: f64,
}

fn median(mut times: Vec<Duration>, units: usize) -> f64 {
    times.sort();
    times[times.len() / 2].as_nanos() as f64 / units as f64
}

/// What is measured: how many units a round has, and the bytes that a copy
/// moves for `copies` of them at a time.
struct Task<'a> {
    name: &'static str,
    units: usize,
    copied: &'a [u8],
    copies: usize,
}

fn timed(body: impl FnOnce()) -> Duration {
    let start = Instant::now();
    body();
    start.elapsed()
}

/// So many copies, one behind the other as long as there is room, and then
/// from the front again. The room is cleared first.
fn copy_time(copied: &[u8], copies: usize, room: &mut [u8]) -> Duration {
    let places = room.len() / copied.len();
    room.fill(0);
    timed(|| {
        for at in 0..copies {
            let start = at % places * copied.len();
            room[start..start + copied.len()].copy_from_slice(black_box(copied));
            black_box(&mut *room);
        }
    })
}

/// Measures the two and a copy to a room of its own.
fn measured(
    task: Task,
    subject: impl FnMut() -> Duration,
    reference: impl FnMut() -> Duration,
) -> Row {
    let mut room = vec![0; task.copied.len()];
    let copy = || copy_time(task.copied, task.units / task.copies, &mut room);
    in_turn(&task, subject, reference, copy)
}

/// Measures all three in turn. Each body clears first and gives the time of
/// its round without that.
fn in_turn(
    task: &Task,
    mut subject: impl FnMut() -> Duration,
    mut reference: impl FnMut() -> Duration,
    mut copy: impl FnMut() -> Duration,
) -> Row {
    let mut times = [Vec::new(), Vec::new(), Vec::new()];
    for _ in 0..ROUNDS {
        times[0].push(subject());
        times[1].push(reference());
        times[2].push(copy());
    }
    let [subject, reference, copy] = times.map(|times| median(times, task.units));
    Row {
        name: task.name,
        bytes: task.copied.len() / task.copies,
        subject,
        reference,
        copy,
    }
}

/// The table and the keys it holds.
struct Setup {
    table: Table,
    memory: Vec<u8>,
    keys: Vec<Vec<u8>>,
    chance: Chance,
}

impl Setup {
    /// Entries without deadlines.
    fn new() -> Setup {
        Setup::with(0)
    }

    /// Entries with deadlines far away.
    fn dated() -> Setup {
        Setup::with(FAR)
    }

    /// Entries whose deadlines are so far away, or none if that is 0.
    fn with(far: u64) -> Setup {
        let mut chance = Chance::new(1);
        let front = chance.bytes(24);
        let mut table = Table::default();
        let mut keys = Vec::new();
        for at in 1..=ENTRIES as u64 {
            let key = [&front[..], &at.to_be_bytes()].concat();
            let entry = Entry {
                value: chance.bytes(256),
                version: at,
                deadline: if far == 0 { 0 } else { far + at },
            };
            table.entries.insert(key.clone(), entry);
            keys.push(key);
        }
        table.last = ENTRIES as u64;
        let mut memory = vec![0; SIZE];
        // The bound that a server has where the deadlines are these.
        let bound = if far == 0 { LARGEST_DEADLINE } else { far };
        put_number(&mut memory, BOUND, bound + 1);
        memory::encode(&table, &mut memory);
        Setup {
            table,
            memory,
            keys,
            chance,
        }
    }

    /// A request for a held key, with a value if it is a put.
    fn request(&mut self, operation: u8) -> Request {
        Request {
            id: 1000 + self.chance.below(10_000) as u64,
            version: 12,
            operation,
            intelligence: 1,
            key: self.chance.pick(&self.keys),
            value: self.chance.bytes(if operation == PUT { 256 } else { 0 }),
            ..Request::default()
        }
    }

    /// Gets of the key in the last row.
    fn gets_of_last(&mut self) -> Vec<Request> {
        let last = self.keys[ENTRIES - 1].clone();
        (0..REQUESTS)
            .map(|_| Request {
                key: last.clone(),
                ..self.request(GET)
            })
            .collect()
    }

    fn stats(&mut self) -> Vec<Request> {
        let without_key = |request: Request| Request {
            key: Vec::new(),
            ..request
        };
        (0..REQUESTS)
            .map(|_| without_key(self.request(STATS)))
            .collect()
    }

    /// Requests of which so many in ten are puts.
    fn requests(&mut self, puts: usize) -> Vec<Request> {
        let operation = |at: usize| if at % 10 < puts { PUT } else { GET };
        (0..REQUESTS)
            .map(|at| self.request(operation(at)))
            .collect()
    }
}

fn bytes_of(requests: &[Request]) -> Vec<u8> {
    requests
        .iter()
        .flat_map(|request| join(&of_request(request)))
        .collect()
}

/// All benchmarks but that of request files.
pub fn rows<S: Subject>(subject: &mut S) -> Vec<Row> {
    let mut setup = Setup::new();
    let mut rows = vec![
        read_request(subject, &mut setup),
        write_request(subject, &mut setup),
        read_reply(subject, &mut setup),
        write_reply(subject, &mut setup),
    ];
    rows.extend(served_rows(subject, &mut setup));
    rows.extend([
        bulk_stream(subject, &setup),
        bulk(subject, &setup, "serve, bulkGet of 128 entries", BULK_GET),
        bulk(
            subject,
            &setup,
            "serve, bulkGetKeys of 128 keys",
            BULK_GET_KEYS,
        ),
        read_bulk(subject, &setup),
        write_bulk(subject, &setup),
        check(subject, &setup),
    ]);
    rows
}

/// Streams and calls.
fn served_rows<S: Subject>(subject: &mut S, setup: &mut Setup) -> Vec<Row> {
    let mut dated = Setup::dated();
    let dated_gets = bytes_of(&dated.requests(0));
    let gets = bytes_of(&setup.requests(0));
    let name = "serve_stream, get, all with deadlines";
    let mut rows = vec![
        stream(subject, setup, "serve_stream, get", &gets),
        stream(subject, &dated, name, &dated_gets),
    ];
    for (name, requests) in [
        ("serve_stream, put over a held key", setup.requests(10)),
        ("serve_stream, nine gets to one put", setup.requests(1)),
        ("serve_stream, get of the last key", setup.gets_of_last()),
        ("serve_stream, stats", setup.stats()),
    ] {
        rows.push(stream(subject, setup, name, &bytes_of(&requests)));
    }
    rows.extend([
        calls(subject, setup, "serve, get", 0),
        calls(subject, &mut dated, "serve, get, all with deadlines", 0),
        calls(subject, setup, "serve, put over a held key", 10),
        calls(subject, setup, "serve, nine gets to one put", 1),
    ]);
    rows
}

fn read_request<S: Subject>(subject: &mut S, setup: &mut Setup) -> Row {
    let bytes = join(&of_request(&setup.request(PUT)));
    let mut answer = [0; REQUEST_WORDS];
    let task = Task {
        name: "read_request, a put",
        units: CALLS,
        copied: &bytes,
        copies: 1,
    };
    let library = || {
        timed(|| {
            for _ in 0..CALLS {
                black_box(subject.read_request(black_box(&bytes), &mut answer));
            }
        })
    };
    let reference = || {
        timed(|| {
            for _ in 0..CALLS {
                black_box(reference::read_request(black_box(&bytes)));
            }
        })
    };
    measured(task, library, reference)
}

fn write_request<S: Subject>(subject: &mut S, setup: &mut Setup) -> Row {
    let request = setup.request(PUT);
    let bytes = join(&of_request(&request));
    let numbers = &request_numbers(&request, 0)[1..];
    let parts = RequestParts {
        name: &request.name,
        key: &request.key,
        value: &request.value,
    };
    let mut out = [0; REPLY_ROOM];
    let mut other = [0; REPLY_ROOM];
    let task = Task {
        name: "write_request, a put",
        units: CALLS,
        copied: &bytes,
        copies: 1,
    };
    let library = || {
        out.fill(0);
        timed(|| {
            for _ in 0..CALLS {
                black_box(subject.write_request(black_box(&mut out), numbers, parts));
            }
        })
    };
    let reference = || {
        other.fill(0);
        timed(|| {
            for _ in 0..CALLS {
                let written = reference::write_request(black_box(&request), &mut other);
                black_box(written.is_ok());
            }
        })
    };
    measured(task, library, reference)
}

/// The reply to a get, with a value of 256 bytes.
fn reply(setup: &mut Setup) -> (Asked, Reply) {
    let asked = Asked {
        version: 12,
        op: GET,
        flag: false,
    };
    let reply = Reply {
        id: 1000,
        operation: GET + 1,
        value: setup.chance.bytes(256),
        ..Reply::default()
    };
    (asked, reply)
}

fn read_reply<S: Subject>(subject: &mut S, setup: &mut Setup) -> Row {
    let (asked, reply) = reply(setup);
    let bytes = join(&of_reply(asked, &reply));
    let mut answer = [0; REPLY_WORDS];
    let task = Task {
        name: "read_reply, to a get",
        units: CALLS,
        copied: &bytes,
        copies: 1,
    };
    let library = || {
        timed(|| {
            for _ in 0..CALLS {
                black_box(subject.read_reply(black_box(&bytes), asked, &mut answer));
            }
        })
    };
    let reference = || {
        timed(|| {
            for _ in 0..CALLS {
                let read = reference::read_reply(asked, black_box(&bytes));
                black_box(matches!(read, Read::Whole(_, _)));
            }
        })
    };
    measured(task, library, reference)
}

fn write_reply<S: Subject>(subject: &mut S, setup: &mut Setup) -> Row {
    let (asked, reply) = reply(setup);
    let bytes = join(&of_reply(asked, &reply));
    let numbers = &reply_numbers(&reply, 0)[1..];
    let parts = ReplyParts {
        value: &reply.value,
        text: &reply.text,
    };
    let mut out = [0; REPLY_ROOM];
    let mut other = [0; REPLY_ROOM];
    let task = Task {
        name: "write_reply, to a get",
        units: CALLS,
        copied: &bytes,
        copies: 1,
    };
    let library = || {
        out.fill(0);
        timed(|| {
            for _ in 0..CALLS {
                black_box(subject.write_reply(black_box(&mut out), asked, numbers, parts));
            }
        })
    };
    let reference = || {
        other.fill(0);
        timed(|| {
            for _ in 0..CALLS {
                let written = reference::write_reply(asked, black_box(&reply), &mut other);
                black_box(written.is_ok());
            }
        })
    };
    measured(task, library, reference)
}

/// The row of requests and all replies to it.
fn with_replies(setup: &Setup, row: &[u8]) -> Vec<u8> {
    let mut replies = vec![0; REPLY_ROOM * (REQUESTS + 1)];
    let mut table = setup.table.clone();
    let answer = reference::serve_stream(row, &mut table, SECOND, &mut replies);
    [row, &replies[..answer.reply_len]].concat()
}

fn stream<S: Subject>(subject: &mut S, setup: &Setup, name: &'static str, row: &[u8]) -> Row {
    let copied = with_replies(setup, row);
    let mut memory = vec![0; SIZE];
    let mut replies = vec![0; REPLY_ROOM * (REQUESTS + 1)];
    let mut others = replies.clone();
    let task = Task {
        name,
        units: REQUESTS,
        copied: &copied,
        copies: REQUESTS,
    };
    let library = || {
        memory.copy_from_slice(&setup.memory);
        replies.fill(0);
        let mut answer = [0; STREAM_WORDS];
        let time = timed(|| {
            subject.serve_stream(row, &mut memory, SECOND, &mut replies, &mut answer);
        });
        assert_eq!(
            answer[2],
            REQUESTS as u64 + 1,
            "a stream is not served whole"
        );
        time
    };
    let reference = || {
        let mut table = setup.table.clone();
        others.fill(0);
        timed(|| {
            black_box(reference::serve_stream(row, &mut table, SECOND, &mut others).taken);
        })
    };
    measured(task, library, reference)
}

/// One request a call, so many in ten of them puts.
fn calls<S: Subject>(subject: &mut S, setup: &mut Setup, name: &'static str, puts: usize) -> Row {
    let requests: Vec<Vec<u8>> = setup.requests(puts)[..CALLED]
        .iter()
        .map(|request| join(&of_request(request)))
        .collect();
    let copied = with_replies(setup, &requests.concat());
    let mut memory = setup.memory.clone();
    let mut reply = [0; REPLY_ROOM];
    let mut other = [0; REPLY_ROOM];
    let task = Task {
        name,
        units: CALLED,
        copied: &copied,
        copies: CALLED,
    };
    let library = || {
        memory.copy_from_slice(&setup.memory);
        reply.fill(0);
        let mut answer = [0; SERVE_WORDS];
        let mut codes = 0;
        let time = timed(|| {
            for request in &requests {
                codes += subject.serve(request, &mut memory, SECOND, &mut reply, &mut answer);
            }
        });
        assert_eq!(codes, GOOD * CALLED as u64, "a request is not served");
        time
    };
    let reference = || {
        let mut table = setup.table.clone();
        other.fill(0);
        timed(|| {
            for request in &requests {
                black_box(reference::serve(request, &mut table, SECOND, &mut other).taken);
            }
        })
    };
    measured(task, library, reference)
}

/// A request for all entries of the table, and the reply to it.
fn bulk_messages(setup: &Setup, operation: u8) -> (Vec<u8>, Vec<u8>) {
    let request = Request {
        id: 1000,
        version: 12,
        operation,
        intelligence: 1,
        ..Request::default()
    };
    let input = join(&of_request(&request));
    let mut reply = vec![0; BULK_ROOM];
    let mut table = setup.table.clone();
    let answer = reference::serve(&input, &mut table, SECOND, &mut reply);
    reply.truncate(answer.reply_len);
    (input, reply)
}

/// All entries of the table, one request a call.
fn bulk<S: Subject>(subject: &mut S, setup: &Setup, name: &'static str, operation: u8) -> Row {
    let (input, copied) = bulk_messages(setup, operation);
    let mut memory = setup.memory.clone();
    let reply = RefCell::new(vec![0; BULK_ROOM]);
    let mut other = vec![0; BULK_ROOM];
    let task = Task {
        name,
        units: CALLED,
        copied: &copied,
        copies: 1,
    };
    let library = || {
        let reply = &mut reply.borrow_mut()[..];
        memory.copy_from_slice(&setup.memory);
        reply.fill(0);
        let mut answer = [0; SERVE_WORDS];
        let mut codes = 0;
        let time = timed(|| {
            for _ in 0..CALLED {
                codes += subject.serve(&input, &mut memory, SECOND, reply, &mut answer);
            }
        });
        assert_eq!(codes, GOOD * CALLED as u64, "a request is not served");
        assert_eq!(reply[..copied.len()], copied, "the reply is another one");
        time
    };
    let copy = || copy_time(&copied, CALLED, &mut reply.borrow_mut()[..copied.len()]);
    let reference = || {
        let mut table = setup.table.clone();
        other.fill(0);
        timed(|| {
            for _ in 0..CALLED {
                black_box(reference::serve(&input, &mut table, SECOND, &mut other).taken);
            }
        })
    };
    in_turn(&task, library, reference, copy)
}

/// All entries of the table, time and again in one stream.
fn bulk_stream<S: Subject>(subject: &mut S, setup: &Setup) -> Row {
    let (request, reply) = bulk_messages(setup, BULK_GET);
    let row = request.repeat(BULKS);
    let wanted = reply.repeat(BULKS);
    let mut memory = setup.memory.clone();
    let mut others = vec![0; wanted.len() + BULK_ROOM];
    let replies = RefCell::new(others.clone());
    let task = Task {
        name: "serve_stream, bulkGet of 128 entries",
        units: BULKS,
        copied: &reply,
        copies: 1,
    };
    let library = || {
        let replies = &mut replies.borrow_mut()[..];
        memory.copy_from_slice(&setup.memory);
        replies.fill(0);
        let mut answer = [0; STREAM_WORDS];
        let time = timed(|| {
            subject.serve_stream(&row, &mut memory, SECOND, replies, &mut answer);
        });
        assert_eq!(replies[..wanted.len()], wanted, "the replies are others");
        time
    };
    let copy = || copy_time(&reply, BULKS, &mut replies.borrow_mut()[..wanted.len()]);
    let reference = || {
        let mut table = setup.table.clone();
        others.fill(0);
        timed(|| {
            black_box(reference::serve_stream(&row, &mut table, SECOND, &mut others).taken);
        })
    };
    in_turn(&task, library, reference, copy)
}

fn read_bulk<S: Subject>(subject: &mut S, setup: &Setup) -> Row {
    let (_, reply) = bulk_messages(setup, BULK_GET);
    let asked = Asked {
        version: 12,
        op: BULK_GET,
        flag: false,
    };
    let mut answer = [0; REPLY_WORDS];
    let task = Task {
        name: "read_reply, to that bulkGet",
        units: CALLED,
        copied: &reply,
        copies: 1,
    };
    let library = || {
        timed(|| {
            for _ in 0..CALLED {
                black_box(subject.read_reply(black_box(&reply), asked, &mut answer));
            }
        })
    };
    let reference = || {
        timed(|| {
            for _ in 0..CALLED {
                let read = reference::read_reply(asked, black_box(&reply));
                black_box(matches!(read, Read::Whole(_, _)));
            }
        })
    };
    measured(task, library, reference)
}

/// The entries of the table as parts of one row of bytes.
fn entries_of(setup: &Setup) -> EntriesDraft {
    let mut draft = EntriesDraft {
        version: 12,
        id: 1000,
        values: true,
        bytes: Vec::new(),
        numbers: Vec::new(),
    };
    for key in &setup.keys {
        for part in [key, &setup.table.entries[key].value] {
            draft.numbers.push(draft.bytes.len() as u64);
            draft.numbers.push(part.len() as u64);
            draft.bytes.extend_from_slice(part);
        }
    }
    draft
}

fn write_bulk<S: Subject>(subject: &mut S, setup: &Setup) -> Row {
    let (_, bytes) = bulk_messages(setup, BULK_GET);
    let draft = entries_of(setup);
    let parts = draft.parts();
    let reply = Reply {
        id: draft.id,
        operation: BULK_GET + 1,
        entries: draft.entries(),
        ..Reply::default()
    };
    let out = RefCell::new(vec![0; BULK_ROOM]);
    let mut other = vec![0; BULK_ROOM];
    let task = Task {
        name: "write_entries, 128 entries",
        units: CALLED,
        copied: &bytes,
        copies: 1,
    };
    let library = || {
        let out = &mut out.borrow_mut()[..];
        out.fill(0);
        let time = timed(|| {
            for _ in 0..CALLED {
                black_box(subject.write_entries(black_box(out), draft.version, draft.id, parts));
            }
        });
        assert_eq!(out[..bytes.len()], bytes, "the reply is another one");
        time
    };
    let copy = || copy_time(&bytes, CALLED, &mut out.borrow_mut()[..bytes.len()]);
    let reference = || {
        other.fill(0);
        timed(|| {
            for _ in 0..CALLED {
                let written = reference::write_reply(draft.asked(), &reply, &mut other);
                black_box(written.is_ok());
            }
        })
    };
    in_turn(&task, library, reference, copy)
}

fn check<S: Subject>(subject: &mut S, setup: &Setup) -> Row {
    let task = Task {
        name: "the check of the table alone",
        units: CHECKS,
        copied: &setup.memory,
        copies: 1,
    };
    let library = || {
        let mut sound = 0;
        let time = timed(|| {
            for _ in 0..CHECKS {
                sound += usize::from(subject.is_table(black_box(&setup.memory)));
            }
        });
        assert_eq!(sound, CHECKS, "the table is not sound");
        time
    };
    let reference = || {
        timed(|| {
            for _ in 0..CHECKS {
                black_box(reference::is_table(black_box(&setup.table)));
            }
        })
    };
    measured(task, library, reference)
}

/// A file of nine gets to one put.
fn file(setup: &mut Setup) -> Vec<u8> {
    let mut file = Vec::new();
    for request in setup.requests(1) {
        file.extend(to_digits(&SECOND.to_be_bytes()));
        file.push(b' ');
        file.extend(to_digits(&join(&of_request(&request))));
        file.push(b'\n');
    }
    file
}

/// The benchmark of request files.
pub fn lines_row<S: ServesLines>(subject: &mut S) -> Row {
    let mut setup = Setup::new();
    let file = file(&mut setup);
    let mut output = Vec::new();
    // Writing to memory does not fail.
    let _ = reference::serve_reader(&mut &file[..], &mut output, &mut setup.table.clone());
    let copied = [&file[..], &output].concat();
    let mut memory = vec![0; SIZE];
    let mut out = vec![0; output.len() + LEAST];
    let task = Task {
        name: "serve_lines, nine gets to one put",
        units: REQUESTS,
        copied: &copied,
        copies: REQUESTS,
    };
    let length = output.len();
    let library = || {
        memory.copy_from_slice(&setup.memory);
        out.fill(0);
        let mut written = 0;
        let time = timed(|| written = all_lines(subject, &file, &mut memory, &mut out));
        assert_eq!(written, length, "the file is not served whole");
        time
    };
    let reference = || {
        let mut table = setup.table.clone();
        output.clear();
        timed(|| {
            let _ = reference::serve_reader(&mut &file[..], &mut output, &mut table);
        })
    };
    measured(task, library, reference)
}

/// Hands in the file until it is taken whole, and gives the bytes written.
fn all_lines<S: ServesLines>(
    subject: &mut S,
    file: &[u8],
    memory: &mut [u8],
    out: &mut [u8],
) -> usize {
    let piece = Piece {
        passing: false,
        last: true,
    };
    let (mut taken, mut written) = (0, 0);
    while taken < file.len() {
        let mut answer = [0; LINES_WORDS];
        let code = subject.serve_lines(
            &file[taken..],
            memory,
            &mut out[written..],
            piece,
            &mut answer,
        );
        assert!(
            code == GOOD && answer[0] > 0,
            "lines are not served: {code}"
        );
        taken += answer[0] as usize;
        written += answer[1] as usize;
    }
    written
}

/// The results as a table.
pub fn shown(rows: &[Row]) -> String {
    let mut text = format!(
        "{:38}{:>7}{:>12}{:>12}{:>19}{:>10}{:>14}\n",
        "", "bytes", "library", "reference", "reference/library", "copy", "library/copy"
    );
    for row in rows {
        text += &format!(
            "{:38}{:>7}{:>12.1}{:>12.1}{:>19.2}{:>10.1}{:>14.1}\n",
            row.name,
            row.bytes,
            row.subject,
            row.reference,
            row.reference / row.subject,
            row.copy,
            row.subject / row.copy
        );
    }
    text
}
