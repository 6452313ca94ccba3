//! Part f, request files: files handed to `fq_serve_lines` in pieces, against
//! the reference's `serve_line` on each line.
//!
//! A caller hands in the bytes not taken yet and those of the next piece
//! until the last piece is said and nothing is taken any more. How much is
//! taken by one call, and when output comes, is not compared; the whole
//! output and the table at the end are. With too little room (12, or nothing
//! taken) the call is made again with room enough.

use reference::hex::to_digits;
use reference::lines::{lines_of, LINE_END, LINE_LIMIT};
use reference::{serve_line, serve_lines, Table};

use crate::calls::{state_is, World};
use crate::chance::Chance;
use crate::damage;
use crate::difference::{hold, same, same_bytes, Difference, Outcome};
use crate::fields::{join, of_request};
use crate::lent::{Lent, Words};
use crate::make;
use crate::memory;
use crate::subject::{Piece, ServesLines, Subject, GOOD, LINES_WORDS};
use crate::tables;
use crate::trial::Trial;

/// The least room: that of the longest reply in digits, and the line end.
pub const LEAST: usize = 83_201;
/// Room that is always enough for a line's output.
const AMPLE: usize = LEAST + 8192;

pub fn round<S: ServesLines>(trial: &mut Trial<S>) -> Outcome {
    unsound(trial)?;
    for _ in 0..6 {
        let mut world = start(trial)?;
        let file = file(&mut trial.chance, &world);
        let before = world.memory.clone();
        whole_file(trial, &mut world, &file).map_err(|found| {
            found
                .with("call", "fq_serve_lines")
                .with("file", String::from_utf8_lossy(&file))
                .bytes("file's bytes", &file)
                .with("table before", memory::shown(before.slice()))
                .with("table after", memory::shown(world.memory.slice()))
        })?;
    }
    Ok(())
}

fn start<S: Subject>(trial: &mut Trial<S>) -> Result<World, Difference> {
    let mut world = World::any(&mut trial.chance);
    if trial.chance.one_in(2) {
        let made = trial.subject.make(world.memory.slice_mut());
        hold(made == GOOD, "fq_make refuses memory of the right length")?;
        world.table = Table::default();
    }
    Ok(world)
}

/// Some lines, good and bad. The last one has no end at times.
fn file(chance: &mut Chance, world: &World) -> Vec<u8> {
    let mut file = Vec::new();
    for _ in 0..chance.below(25) {
        let line = line(chance, world);
        file.extend(line);
        file.push(LINE_END);
    }
    if chance.one_in(2) {
        file.pop();
    }
    file
}

fn second_digits(chance: &mut Chance, world: &World) -> Vec<u8> {
    let second = make::second_for(chance, &world.table);
    let mut line = to_digits(&second.to_be_bytes());
    line.push(b' ');
    line
}

fn line(chance: &mut Chance, world: &World) -> Vec<u8> {
    if chance.one_in(12) {
        return long_line(chance, world);
    }
    let mut line = second_digits(chance, world);
    let frame = frame(chance, world);
    line.extend(to_digits(&frame));
    if chance.one_in(5) {
        break_line(chance, &mut line);
    }
    line
}

fn frame(chance: &mut Chance, world: &World) -> Vec<u8> {
    let request = make::request_for(chance, &world.table, &world.keys);
    let fields = of_request(&request);
    let bytes = join(&fields);
    match chance.below(16) {
        0 => damage::cut(chance, &bytes),
        1 => damage::broken(chance, &fields),
        2 => damage::one_byte_changed(chance, &bytes),
        3 => [&bytes[..], &[chance.byte()]].concat(),
        4 => [&bytes[..], &bytes].concat(),
        5 => Vec::new(),
        _ => bytes,
    }
}

/// A line about the limit or far above it, most of the time good up to it.
fn long_line(chance: &mut Chance, world: &World) -> Vec<u8> {
    let length = match chance.below(3) {
        0 => LINE_LIMIT - 2 + chance.below(6),
        1 => LINE_LIMIT + 1 + 2 * chance.below(3),
        _ => LINE_LIMIT + chance.below(6000),
    };
    let mut line = second_digits(chance, world);
    if chance.one_in(2) {
        line.extend(b"a0010a170000010000");
    }
    let digits = to_digits(&chance.bytes(length));
    line.extend(digits);
    line.truncate(length);
    line
}

/// Characters that are no lowercase digits, most of them neighbours of one.
const BAD_CHARACTERS: [u8; 16] = [
    b'A', b'F', b'g', b'`', b'/', b':', b'@', b'G', b' ', b'\t', b'\r', 0, 0x80, 0xff, b'x', b'-',
];

/// Changes, adds or takes away one character.
fn break_line(chance: &mut Chance, line: &mut Vec<u8>) {
    let at = match chance.below(3) {
        0 => chance.up_to(10).min(line.len() - 1),
        1 => line.len() - 1,
        _ => chance.below(line.len()),
    };
    let bad = chance.pick(&BAD_CHARACTERS);
    match chance.below(8) {
        0 => line.insert(at, bad),
        1 => line.push(bad),
        2 => {
            line.remove(at);
        }
        3 => line.truncate(at),
        4 => line.insert(0, bad),
        5 => line.make_ascii_uppercase(),
        _ => line[at] = bad,
    }
}

/// The output for the file from the world's table, which is led on.
fn expected_output(world: &mut World, file: &[u8]) -> Vec<u8> {
    let mut out = Vec::new();
    for line in lines_of(file) {
        out.extend(serve_line(line, &mut world.table));
        out.push(LINE_END);
    }
    out
}

/// The file in pieces through the subject, and by the reference.
pub fn whole_file<S: ServesLines>(trial: &mut Trial<S>, world: &mut World, file: &[u8]) -> Outcome {
    let fresh = world.table == Table::default();
    let before = world.memory.clone();
    let expected = expected_output(world, file);
    if fresh {
        let what = "the reference's serve_lines is not its serve_line on each line";
        same_bytes(what, &expected, &serve_lines(file))?;
    }
    let mut feed = Feed {
        file,
        seen: 0,
        taken: 0,
        passing: false,
        last: false,
        out: Vec::new(),
    };
    feed.run(trial, &mut world.memory)?;
    trial.counts.served += lines_of(file).len() as u64;
    trial.counts.inputs += 1;
    same_bytes("the output", &expected, &feed.out)?;
    same("the bytes taken", file.len(), feed.taken)?;
    state_is(trial, world, &before)
}

/// A file on its way through the subject.
struct Feed<'a> {
    file: &'a [u8],
    /// The end of the bytes handed in so far.
    seen: usize,
    taken: usize,
    passing: bool,
    /// Whether it was said that nothing comes behind the bytes seen.
    last: bool,
    out: Vec<u8>,
}

impl Feed<'_> {
    fn run<S: ServesLines>(&mut self, trial: &mut Trial<S>, memory: &mut Lent) -> Outcome {
        self.next_piece(&mut trial.chance);
        for _ in 0..4 * self.file.len() + 10 {
            let room = small_room(&mut trial.chance);
            if self.call(trial, memory, room)? || self.call(trial, memory, AMPLE)? {
                continue;
            }
            if self.last {
                return Ok(());
            }
            self.next_piece(&mut trial.chance);
        }
        Err(Difference::new("the calls come to no end"))
    }

    /// Shows more of the file; at its end says so, at once or later.
    fn next_piece(&mut self, chance: &mut Chance) {
        let rest = self.file.len() - self.seen;
        if rest == 0 {
            self.last = true;
            return;
        }
        let length = match chance.below(4) {
            0 => 1 + chance.below(4),
            1 => 1 + chance.below(200),
            2 => 1 + chance.below(4000),
            _ => rest,
        };
        self.seen += length.min(rest);
        self.last = self.seen == self.file.len() && chance.one_in(2);
    }

    /// One call, and whether it did anything.
    fn call<S: ServesLines>(
        &mut self,
        trial: &mut Trial<S>,
        memory: &mut Lent,
        room: usize,
    ) -> Result<bool, Difference> {
        let before = memory.clone();
        let input = Lent::of(&self.file[self.taken..self.seen]);
        let lent = Lent::random(&mut trial.chance, room);
        let mut out = lent.clone();
        let mut words = Words::new(LINES_WORDS);
        let start = [0, 0, u64::from(self.passing)];
        words.slice_mut().copy_from_slice(&start);
        let piece = Piece {
            passing: self.passing,
            last: self.last,
        };
        let (table, space) = (memory.slice_mut(), out.slice_mut());
        let code = trial
            .subject
            .serve_lines(input.slice(), table, space, piece, words.slice_mut());
        trial.counts.code(code);
        hold(
            code == GOOD || (code == 12 && room < AMPLE),
            "the return code is neither 0x100 nor 12 for too little room",
        )
        .map_err(|found| found.with("code", code).with("room", room))?;
        words.kept_behind(LINES_WORDS)?;
        let given = Lent::of(&self.file[self.taken..self.seen]);
        input.same("the input is changed", &given)?;
        let done = words.slice() != start;
        if !done {
            memory.same("a call that took nothing changes the memory", &before)?;
        }
        self.take(words.slice(), &lent, &out)?;
        Ok(done)
    }

    /// Goes on by the answer; behind the output the buffer has to be as lent.
    fn take(&mut self, answer: &[u64], lent: &Lent, out: &Lent) -> Outcome {
        let most = (self.seen - self.taken) as u64;
        hold(
            answer[0] <= most && answer[1] <= lent.slice().len() as u64 && answer[2] <= 1,
            "an answer beyond what was lent",
        )
        .map_err(|found| found.with("answer", format!("{answer:?}")))?;
        let written = answer[1] as usize;
        let mut expected = lent.clone();
        expected.slice_mut()[..written].copy_from_slice(&out.slice()[..written]);
        out.same("the buffer behind the output", &expected)?;
        self.out.extend_from_slice(&out.slice()[..written]);
        self.taken += answer[0] as usize;
        self.passing = answer[2] == 1;
        Ok(())
    }
}

fn small_room(chance: &mut Chance) -> usize {
    match chance.below(7) {
        0 => chance.pick(&[0, 1, 10, 11, 12]),
        1 => chance.below(2500),
        2 => LEAST - 10 + chance.below(20),
        3 => chance.below(AMPLE),
        _ => AMPLE,
    }
}

/// On memory that is no table nothing is served and nothing changes.
fn unsound<S: ServesLines>(trial: &mut Trial<S>) -> Outcome {
    let mut world = World::any(&mut trial.chance);
    let file = file(&mut trial.chance, &world);
    let what = tables::damage(&mut trial.chance, world.memory.slice_mut());
    if memory::is_table(world.memory.slice()) {
        return Ok(());
    }
    let before = world.memory.clone();
    let mut out = Lent::random(&mut trial.chance, AMPLE);
    let lent = out.clone();
    let piece = Piece {
        passing: false,
        last: true,
    };
    let mut words = [0; LINES_WORDS];
    let (table, space) = (world.memory.slice_mut(), out.slice_mut());
    let code = trial
        .subject
        .serve_lines(&file, table, space, piece, &mut words);
    trial.counts.input(code);
    same("the return code of fq_serve_lines on no table", 13, code)
        .and_then(|()| {
            world
                .memory
                .same("a refused call changes the memory", &before)
        })
        .and_then(|()| out.same("a refused call changes the output buffer", &lent))
        .map_err(|found| {
            found
                .with("damage", what)
                .bytes("file's bytes", &file)
                .with("memory", memory::shown(before.slice()))
        })
}
