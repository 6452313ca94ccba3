//! A load generator, the same for three servers.
//!
//! `load KIND ADDRESS WHAT CONNECTIONS DEPTH SECONDS` fills 128 keys of 32
//! bytes, 24 of them the same, with values of 256 bytes, and then asks for
//! them on so many connections. Each sends DEPTH requests in one write, waits
//! for their replies, and sends the next ones. Every byte of a reply is
//! compared. KIND is hotrod, memcached or redis; WHAT is get, put or mix, which
//! is nine gets to a put. It prints requests a second, and the median and the
//! 99th percentile of the time from the write to a reply in microseconds.

#![forbid(unsafe_code)]

use std::io::{self, Read, Write};
use std::net::TcpStream;
use std::process::ExitCode;
use std::time::{Duration, Instant};

use feyqoolad::border::library::write_request;
use feyqoolad::border::system::{Event, Poll, READABLE};
use feyqoolad::command::{GET, PUT};
use feyqoolad::limits::LONGEST_REQUEST;

const KEYS: usize = 128;
const VALUE: [u8; 256] = [b'v'; 256];
/// Bytes of replies read at a time.
const READ: usize = 1 << 16;

/// A request and the reply that is awaited.
struct Pair {
    request: Vec<u8>,
    reply: Vec<u8>,
}

fn key(index: usize) -> Vec<u8> {
    format!("harbour/arrivals/berth-/{index:08}").into_bytes()
}

fn hot_rod(operation: u8, key: &[u8], value: &[u8]) -> Vec<u8> {
    let mut out = vec![0; LONGEST_REQUEST];
    let numbers = [1, 12, u64::from(operation), 0, 1, 0, 0, 0, 0, 0];
    let size = write_request(&mut out, &numbers, key, value).expect("the request is good");
    out.truncate(size);
    out
}

fn put(kind: &str, key: &[u8]) -> Pair {
    let (request, reply) = match kind {
        "hotrod" => (hot_rod(PUT, key, &VALUE), vec![0xa1, 1, 2, 0, 0]),
        "memcached" => (
            [&b"set "[..], key, b" 0 0 256\r\n", &VALUE, b"\r\n"].concat(),
            b"STORED\r\n".to_vec(),
        ),
        _ => (
            [
                &b"*3\r\n$3\r\nSET\r\n$32\r\n"[..],
                key,
                b"\r\n$256\r\n",
                &VALUE,
                b"\r\n",
            ]
            .concat(),
            b"+OK\r\n".to_vec(),
        ),
    };
    Pair { request, reply }
}

fn get(kind: &str, key: &[u8]) -> Pair {
    let (request, reply) = match kind {
        "hotrod" => (
            hot_rod(GET, key, &[]),
            [&[0xa1, 1, 4, 0, 0, 0x80, 2][..], &VALUE].concat(),
        ),
        "memcached" => (
            [&b"get "[..], key, b"\r\n"].concat(),
            [&b"VALUE "[..], key, b" 0 256\r\n", &VALUE, b"\r\nEND\r\n"].concat(),
        ),
        _ => (
            [&b"*2\r\n$3\r\nGET\r\n$32\r\n"[..], key, b"\r\n"].concat(),
            [&b"$256\r\n"[..], &VALUE, b"\r\n"].concat(),
        ),
    };
    Pair { request, reply }
}

/// Chooses the pairs that are sent: xorshift, the same row of numbers each time.
struct Choice {
    gets: Vec<Pair>,
    puts: Vec<Pair>,
    /// How many of ten are puts.
    share: u64,
    state: u64,
}

impl Choice {
    fn next(&mut self) -> &Pair {
        self.state ^= self.state << 13;
        self.state ^= self.state >> 7;
        self.state ^= self.state << 17;
        let index = (self.state >> 8) as usize % KEYS;
        if (self.state >> 32) % 10 < self.share {
            &self.puts[index]
        } else {
            &self.gets[index]
        }
    }
}

/// A connection: what it awaits, and how much of that has come.
struct Caller {
    stream: TcpStream,
    awaited: Vec<u8>,
    ends: Vec<usize>,
    came: usize,
    answered: usize,
    sent: Instant,
}

impl Caller {
    fn new(address: &str) -> io::Result<Caller> {
        let stream = TcpStream::connect(address)?;
        stream.set_nodelay(true)?;
        Ok(Caller {
            stream,
            awaited: Vec::new(),
            ends: Vec::new(),
            came: 0,
            answered: 0,
            sent: Instant::now(),
        })
    }

    /// Sends the next requests in one write. None of these is so long that the
    /// system would not take it at once.
    fn send(&mut self, choice: &mut Choice, depth: usize, out: &mut Vec<u8>) -> io::Result<()> {
        out.clear();
        self.awaited.clear();
        self.ends.clear();
        (self.came, self.answered) = (0, 0);
        for _ in 0..depth {
            let pair = choice.next();
            out.extend_from_slice(&pair.request);
            self.awaited.extend_from_slice(&pair.reply);
            self.ends.push(self.awaited.len());
        }
        self.sent = Instant::now();
        self.stream.write_all(out)
    }

    /// Reads what has come, and counts the replies that are whole.
    fn receive(&mut self, buffer: &mut [u8], times: &mut Vec<u32>) -> io::Result<bool> {
        let count = self.stream.read(buffer)?;
        let awaited = self.awaited.get(self.came..self.came + count);
        if count == 0 || awaited != Some(&buffer[..count]) {
            return Err(io::Error::other("a reply is not the awaited one"));
        }
        self.came += count;
        let time = u32::try_from(self.sent.elapsed().as_nanos()).unwrap_or(u32::MAX);
        while self.answered < self.ends.len() && self.ends[self.answered] <= self.came {
            self.answered += 1;
            times.push(time);
        }
        Ok(self.came == self.awaited.len())
    }
}

/// Puts all keys, so that each get finds one.
fn fill(address: &str, puts: &[Pair]) -> io::Result<()> {
    let mut stream = TcpStream::connect(address)?;
    for pair in puts {
        stream.write_all(&pair.request)?;
        let mut reply = vec![0; pair.reply.len()];
        stream.read_exact(&mut reply)?;
        if reply != pair.reply {
            return Err(io::Error::other("a key could not be put"));
        }
    }
    Ok(())
}

struct Load {
    address: String,
    connections: usize,
    depth: usize,
    time: Duration,
}

/// Asks for so long; gives the time of each reply in nanoseconds.
fn run(load: &Load, choice: &mut Choice) -> io::Result<Vec<u32>> {
    let poll = Poll::new()?;
    let mut out = Vec::new();
    let mut buffer = vec![0; READ];
    let mut times = Vec::with_capacity(1 << 22);
    let mut callers = Vec::new();
    for index in 0..load.connections {
        let caller = Caller::new(&load.address)?;
        poll.add(&caller.stream, index, READABLE)?;
        callers.push(caller);
    }
    for caller in &mut callers {
        caller.send(choice, load.depth, &mut out)?;
    }
    let begin = Instant::now();
    let mut events = [Event::NONE; 256];
    while begin.elapsed() < load.time {
        let count = poll.wait(&mut events, Some(Duration::from_secs(10)))?;
        if count == 0 {
            return Err(io::Error::other("no reply within ten seconds"));
        }
        for event in &events[..count] {
            let caller = &mut callers[event.token()];
            if caller.receive(&mut buffer, &mut times)? {
                caller.send(choice, load.depth, &mut out)?;
            }
        }
    }
    Ok(times)
}

fn measure(words: &[String]) -> Result<String, String> {
    let [kind, address, what, connections, depth, seconds] = words else {
        return Err("usage: load KIND ADDRESS WHAT CONNECTIONS DEPTH SECONDS".to_string());
    };
    let number = |word: &String| word.parse::<usize>().map_err(|_| format!("{word}?"));
    let load = Load {
        address: address.clone(),
        connections: number(connections)?,
        depth: number(depth)?,
        time: Duration::from_secs_f64(seconds.parse().map_err(|_| "seconds?".to_string())?),
    };
    let mut choice = Choice {
        gets: (0..KEYS).map(|index| get(kind, &key(index))).collect(),
        puts: (0..KEYS).map(|index| put(kind, &key(index))).collect(),
        share: match what.as_str() {
            "get" => 0,
            "put" => 10,
            _ => 1,
        },
        state: 88172645463325252,
    };
    let fault = |error: io::Error| error.to_string();
    fill(&load.address, &choice.puts).map_err(fault)?;
    let mut times = run(&load, &mut choice).map_err(fault)?;
    times.sort_unstable();
    let at = |share: f64| times[((times.len() - 1) as f64 * share) as usize] as f64 / 1000.0;
    let rate = times.len() as f64 / load.time.as_secs_f64();
    Ok(format!("{rate:.0} {:.1} {:.1}", at(0.5), at(0.99)))
}

fn main() -> ExitCode {
    let words: Vec<String> = std::env::args().skip(1).collect();
    match measure(&words) {
        Ok(line) => {
            println!("{line}");
            ExitCode::SUCCESS
        }
        Err(fault) => {
            eprintln!("load: {fault}");
            ExitCode::FAILURE
        }
    }
}
