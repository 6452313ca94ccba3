//! A client over TCP: `caller PORT ROUNDS SEED` calls a server with a fresh
//! table on many connections, and compares every reply with this program's map.
//! In each round a few connections send requests of all operations and the
//! others a ping, before any reply is read. The map has to give these replies in
//! some order of the calls, each connection's in its own. The table that is left
//! is printed.

use std::collections::HashMap;
use std::io::{Read as _, Write as _};
use std::net::TcpStream;
use std::ops::RangeInclusive;
use std::time::{SystemTime, UNIX_EPOCH};

use reference::operation::{greatest_bulk, greatest_flags, sends_entry_version, sends_key};
use reference::operation::{
    sends_value, serves, BULK_GET, GET_WITH_VERSION, PING, SERVED, VERSIONS,
};
use reference::serve::answer_request;
use reference::{read_reply, store, write_request, Read, Request, Table};

const CONNECTIONS: usize = 64;
/// Connections of a round that send more than a ping. All their orders are tried.
const PLAYERS: usize = 5;
const KEYS: [&[u8]; 3] = [b"", b"k", &[b'k'; 64]];

type Fault = Box<dyn std::error::Error>;
/// A request, and the bytes of its reply.
type Call = (Request, Vec<u8>);
/// The tables that may be left, by how many calls of each connection were made.
type Reached = HashMap<Vec<usize>, Vec<Table>>;

/// Numbers that look like chance, the same for a seed.
struct Chance(u64);

impl Chance {
    fn below(&mut self, limit: usize) -> usize {
        self.0 = self.0.wrapping_add(0x9e37_79b9_7f4a_7c15);
        let mixed = (self.0 ^ (self.0 >> 31)).wrapping_mul(0xbf58_476d_1ce4_e5b9);
        (mixed >> 33) as usize % limit
    }

    /// A request of any operation; an entry version is about the last one.
    fn request(&mut self, last: u64) -> Request {
        let operation = SERVED[self.below(SERVED.len())];
        let mut request = plain(operation, &[]);
        let version = VERSIONS[self.below(VERSIONS.len())];
        if serves(version, operation) {
            request.version = version;
        }
        request.id = 1 << self.below(63);
        let greatest = greatest_flags(request.version) as usize;
        request.flags = self.below(greatest + 1) as u32;
        request.name = [b"".to_vec(), b"other".to_vec()][self.below(30) / 29].clone();
        if sends_key(operation) {
            request.key = KEYS[self.below(KEYS.len())].to_vec();
        }
        if sends_value(operation) {
            request.lifespan = [0, 0, 0, 1, 2, 1000, 2_592_001][self.below(7)];
            request.value = vec![self.below(256) as u8; self.below(257)];
        }
        if sends_entry_version(operation) {
            request.entry_version = last.saturating_sub(self.below(4) as u64);
        }
        if greatest_bulk(operation).is_some() {
            request.bulk = self.below(3) as u32;
        }
        request
    }
}

fn plain(operation: u8, key: &[u8]) -> Request {
    Request {
        id: 1,
        version: 12,
        operation,
        intelligence: 1,
        key: key.to_vec(),
        ..Request::default()
    }
}

fn second() -> Result<u32, Fault> {
    let time = SystemTime::now().duration_since(UNIX_EPOCH)?;
    Ok(u32::try_from(time.as_secs())?)
}

fn send(mut stream: &TcpStream, requests: &[Request]) -> Result<(), Fault> {
    let mut bytes = Vec::new();
    for request in requests {
        let mut one = [0; 512];
        let size =
            write_request(request, &mut one).map_err(|number| format!("refused {number}"))?;
        bytes.extend_from_slice(&one[..size]);
    }
    Ok(stream.write_all(&bytes)?)
}

/// Reads the replies to these requests, behind which nothing may come.
fn receive(mut stream: &TcpStream, requests: Vec<Request>) -> Result<Vec<Call>, Fault> {
    let (mut bytes, mut calls, mut more) = (Vec::new(), Vec::new(), [0; 65536]);
    for request in requests {
        loop {
            match read_reply(request.asked(), &bytes) {
                Read::Whole(_, size) => break calls.push((request, bytes.drain(..size).collect())),
                Read::Refused(number) => {
                    return Err(format!("refused {number}: {bytes:02x?} to {request:?}").into())
                }
                Read::More => {}
            }
            match stream.read(&mut more)? {
                0 => return Err(format!("closed before the reply to {request:?}").into()),
                count => bytes.extend_from_slice(&more[..count]),
            }
        }
    }
    match bytes[..] {
        [] => Ok(calls),
        _ => Err(format!("{bytes:02x?} came behind the replies").into()),
    }
}

/// Adds the tables that a call leaves of these where it gives its reply.
fn call(tables: &[Table], call: &Call, seconds: &RangeInclusive<u32>, left: &mut Vec<Table>) {
    for second in seconds.clone() {
        for table in tables {
            let mut table = table.clone();
            let reply = answer_request(&call.0, second, &mut table).0;
            if reply == call.1 && !left.contains(&table) {
                left.push(table);
            }
        }
    }
}

/// The tables that may be left by one more call, of whatever connection.
fn step(reached: &Reached, rows: &[Vec<Call>], seconds: &RangeInclusive<u32>) -> Reached {
    let mut next = Reached::new();
    for (made, tables) in reached {
        for row in (0..rows.len()).filter(|row| made[*row] < rows[*row].len()) {
            let mut after = made.clone();
            after[row] += 1;
            let left = next.entry(after).or_default();
            call(tables, &rows[row][made[row]], seconds, left);
        }
    }
    next.retain(|_, tables| !tables.is_empty());
    next
}

/// The tables that the calls of these connections leave in some order.
fn play(
    tables: Vec<Table>,
    rows: &[Vec<Call>],
    seconds: &RangeInclusive<u32>,
) -> Result<Vec<Table>, Fault> {
    let mut reached = Reached::from([(vec![0; rows.len()], tables)]);
    for _ in 0..rows.iter().map(Vec::len).sum() {
        reached = step(&reached, rows, seconds);
    }
    let fault = || format!("no order of these calls gives their replies: {rows:02x?}");
    Ok(reached.into_values().next().ok_or_else(fault)?)
}

/// A round on all connections, and then calls on one that tell what is held.
fn round(
    streams: &[TcpStream],
    chance: &mut Chance,
    tables: Vec<Table>,
) -> Result<Vec<Table>, Fault> {
    let (begin, last, first) = (
        second()?,
        tables[0].last,
        chance.below(CONNECTIONS - PLAYERS),
    );
    let mut plans = vec![vec![plain(PING, &[])]; CONNECTIONS];
    for plan in &mut plans[first..first + PLAYERS] {
        *plan = (0..1 + chance.below(3))
            .map(|_| chance.request(last))
            .collect();
    }
    for (stream, plan) in streams.iter().zip(&plans) {
        send(stream, plan)?;
    }
    let mut rows = Vec::new();
    for (stream, plan) in streams.iter().zip(plans) {
        rows.push(receive(stream, plan)?);
    }
    let mut told: Vec<Request> = KEYS
        .iter()
        .map(|key| plain(GET_WITH_VERSION, key))
        .collect();
    told.push(plain(BULK_GET, &[]));
    send(&streams[first], &told)?;
    let told = [receive(&streams[first], told)?];
    let seconds = begin..=second()?;
    let players: Vec<_> = rows.drain(first..first + PLAYERS).collect();
    // A ping is answered the same at any place, and leaves nothing but the second of a first call.
    let mut left = play(tables, &rows[..1], &seconds)?;
    for ping in rows.chunks(1) {
        play(left.clone(), ping, &seconds)?;
    }
    left = play(left, &players, &seconds)?;
    play(left, &told, &seconds)
}

fn main() -> Result<(), Fault> {
    let words: Vec<u64> = std::env::args()
        .skip(1)
        .map(|word| word.parse())
        .collect::<Result<_, _>>()?;
    let [port, rounds, seed] = words[..] else {
        return Err("usage: caller PORT ROUNDS SEED".into());
    };
    let mut streams = Vec::new();
    for _ in 0..CONNECTIONS {
        streams.push(TcpStream::connect(("127.0.0.1", u16::try_from(port)?))?);
    }
    let (mut chance, mut tables) = (Chance(seed), vec![Table::default()]);
    for _ in 0..rounds {
        tables = round(&streams, &mut chance, tables)?;
    }
    Ok(std::io::stdout().write_all(&store(&tables[0]))?)
}
