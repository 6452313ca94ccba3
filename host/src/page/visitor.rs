//! A visitor of the page: one request, one answer, and the end.

use std::io::{self, Read};
use std::net::{Shutdown, TcpStream};
use std::time::{Duration, Instant};

use super::http::{request, Body, Request, LONGEST_HEAD};
use crate::border::system::{READABLE, WRITABLE};
use crate::connection::{is_later, write_some};

/// How long a visitor may take to send its request.
const ASKING: Duration = Duration::from_secs(3);
/// How long it may be waited for what it wants.
const WAITING: Duration = Duration::from_secs(4);
/// How long it may take to read the answer.
const READING: Duration = Duration::from_secs(10);
/// How long what it still sends is passed over behind the answer. Closing at
/// once would destroy an answer that is still on its way.
const LEAVING: Duration = Duration::from_secs(1);

pub struct Visitor {
    stream: TcpStream,
    input: Box<[u8]>,
    held: usize,
    asked: Option<Request>,
    answer: Option<(Vec<u8>, Body)>,
    /// Bytes of the answer that were sent.
    sent: usize,
    /// The answer was sent, and the visitor told that nothing follows.
    shut: bool,
    /// The visitor sends no more.
    ended: bool,
    /// When a byte of the request last came, or one of the answer went.
    moved: Instant,
    /// When it is closed.
    until: Instant,
}

impl Visitor {
    pub fn new(stream: TcpStream, now: Instant) -> io::Result<Visitor> {
        stream.set_nonblocking(true)?;
        stream.set_nodelay(true)?;
        Ok(Visitor {
            stream,
            input: vec![0; LONGEST_HEAD].into_boxed_slice(),
            held: 0,
            asked: None,
            answer: None,
            sent: 0,
            shut: false,
            ended: false,
            moved: now,
            until: now + ASKING,
        })
    }

    pub fn stream(&self) -> &TcpStream {
        &self.stream
    }

    /// Reads what has come. Behind the request it is passed over.
    pub fn receive(&mut self, now: Instant) -> io::Result<()> {
        if self.asked.is_some() {
            self.held = 0;
        }
        match self.stream.read(&mut self.input[self.held..]) {
            Ok(0) => self.ended = true,
            Ok(count) => self.held += count,
            Err(error) if is_later(&error) => {}
            Err(error) => return Err(error),
        }
        if self.asked.is_none() {
            self.asked = request(&self.input[..self.held], self.ended);
            self.moved = now;
            if self.asked.is_some() {
                self.until = now + WAITING;
            }
        }
        Ok(())
    }

    /// What it wants, once that is known and before it is answered.
    pub fn wants(&self) -> Option<Request> {
        self.asked.filter(|_| self.answer.is_none())
    }

    pub fn answer(&mut self, head: Vec<u8>, body: Body, now: Instant) {
        self.answer = Some((head, body));
        self.moved = now;
        self.until = now + READING;
    }

    /// Sends as much of the answer as is taken.
    pub fn send(&mut self, now: Instant) -> io::Result<()> {
        let Some((head, body)) = &self.answer else {
            return Ok(());
        };
        let all = head.len() + body.bytes().len();
        while self.sent < all {
            let part = match head.get(self.sent..) {
                Some(rest) if !rest.is_empty() => rest,
                _ => &body.bytes()[self.sent - head.len()..],
            };
            let count = write_some(&self.stream, part)?;
            if count == 0 {
                return Ok(());
            }
            self.sent += count;
            self.moved = now;
        }
        if !self.shut {
            self.shut = true;
            self.until = now + LEAVING;
            let _ = self.stream.shutdown(Shutdown::Write);
        }
        Ok(())
    }

    /// What is to be waited for.
    pub fn interest(&self) -> u32 {
        match (&self.answer, self.shut) {
            (Some(_), false) => WRITABLE,
            (None, _) if self.ended => 0,
            _ => READABLE,
        }
    }

    /// Whether nothing is left to be done.
    pub fn is_over(&self) -> bool {
        self.ended && self.wants().is_none() && (self.answer.is_none() || self.shut)
    }

    /// Since when nothing has moved, unless it waits for an answer.
    pub fn rests_since(&self) -> Option<Instant> {
        self.wants().is_none().then_some(self.moved)
    }

    pub fn is_late(&self, now: Instant) -> bool {
        now >= self.until
    }
}
