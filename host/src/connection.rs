//! A client's connection: what was read and not yet served, what was answered
//! and not yet sent, and what is waited for. Both buffers have a fixed size,
//! and a client that does not take its replies is not read from.

use std::io::{self, ErrorKind, Read, Write};
use std::net::{Shutdown, TcpStream};
use std::time::{Duration, Instant};

use crate::batch::REPLIES;
use crate::border::system::{READABLE, WRITABLE};
use crate::buffer::Buffer;

/// Bytes read ahead of a client, many requests long.
pub const READ_AHEAD: usize = 16384;
/// How long what a client still sends is passed over behind the last reply.
/// Closing at once would destroy a reply that is still on its way.
const LEAVING: Duration = Duration::from_secs(2);

pub struct Connection {
    pub stream: TcpStream,
    pub input: Buffer,
    output: Buffer,
    /// The input may hold a whole request.
    pub pending: bool,
    /// It is among those to be served next.
    pub queued: bool,
    /// Its next request is a change, and waits until the table can be stored.
    pub held: bool,
    /// The client sends no more.
    ended: bool,
    /// The last reply was given; what comes behind it is passed over.
    leaving: bool,
    /// The last reply was sent, and the client told that none follows: when it
    /// is closed.
    until: Option<Instant>,
    /// When a byte last went to the client or came from it.
    pub moved: Instant,
    /// What is waited for.
    pub interest: u32,
}

impl Connection {
    pub fn new(stream: TcpStream, now: Instant) -> Connection {
        Connection {
            stream,
            input: Buffer::new(READ_AHEAD),
            output: Buffer::new(REPLIES),
            pending: false,
            queued: false,
            held: false,
            ended: false,
            leaving: false,
            until: None,
            moved: now,
            interest: READABLE,
        }
    }

    /// Lets reads and writes not wait, and replies go out at once.
    pub fn make_ready(&self) -> io::Result<()> {
        self.stream.set_nonblocking(true)?;
        self.stream.set_nodelay(true)
    }

    /// Reads what has come, as far as there is room. What was read before is
    /// served first, so that a client that sends much waits for its turn.
    pub fn receive(&mut self, now: Instant) -> io::Result<()> {
        if self.leaving {
            self.input.clear();
        } else if self.ended || self.pending || !self.output.is_empty() {
            return Ok(());
        }
        let count = match self.stream.read(self.input.room()) {
            Ok(count) => count,
            Err(error) if is_later(&error) => return Ok(()),
            Err(error) => return Err(error),
        };
        self.input.added(count);
        self.ended = count == 0;
        self.pending = count > 0 && !self.leaving;
        self.moved = now;
        Ok(())
    }

    /// Sends these replies, and keeps what the client does not take. Those
    /// before were taken, since nothing is served until then.
    pub fn send(&mut self, replies: &[u8], now: Instant) -> io::Result<()> {
        let sent = write_some(&self.stream, replies)?;
        if sent < replies.len() {
            self.output.add(&replies[sent..]);
        }
        self.moved = now;
        Ok(())
    }

    /// Sends what was kept.
    pub fn flush(&mut self, now: Instant) -> io::Result<()> {
        if !self.output.is_empty() {
            let sent = write_some(&self.stream, self.output.held())?;
            self.output.take(sent);
            self.moved = now;
        }
        Ok(())
    }

    /// The stream ends behind the replies given so far.
    pub fn leave(&mut self) {
        self.leaving = true;
        self.pending = false;
    }

    /// Whether the client was told that no reply follows.
    pub fn is_shut(&self) -> bool {
        self.until.is_some()
    }

    /// Tells the client that no reply follows, once the last one was sent. It
    /// may take its time for that as any other client.
    pub fn shut(&mut self, now: Instant) {
        if self.leaving && self.output.is_empty() && !self.is_shut() {
            self.until = Some(now + LEAVING);
            let _ = self.stream.shutdown(Shutdown::Write);
        }
    }

    /// Whether there is something to serve and room for its replies.
    pub fn can_be_served(&self) -> bool {
        self.can_be_tried() && !self.held
    }

    /// The same, where changes can be served too.
    pub fn can_be_tried(&self) -> bool {
        self.pending && self.output.is_empty()
    }

    /// Whether nothing is left to be done. The client's end is read when all
    /// before it was served.
    pub fn is_over(&self) -> bool {
        self.ended && self.output.is_empty()
    }

    /// Whether it has to go: nothing moved for so long, or it was left.
    pub fn is_late(&self, now: Instant, idle: Option<Duration>) -> bool {
        match (self.until, idle) {
            (Some(until), _) => now >= until,
            _ if self.held => false,
            (None, Some(idle)) => now.duration_since(self.moved) >= idle,
            (None, None) => false,
        }
    }

    /// What is to be waited for.
    pub fn wanted(&self) -> u32 {
        if !self.output.is_empty() {
            WRITABLE
        } else if self.ended || self.held {
            0
        } else {
            READABLE
        }
    }
}

/// Writes as much as is taken without waiting.
pub fn write_some(mut stream: &TcpStream, bytes: &[u8]) -> io::Result<usize> {
    match stream.write(bytes) {
        Ok(count) => Ok(count),
        Err(error) if is_later(&error) => Ok(0),
        Err(error) => Err(error),
    }
}

/// Whether a call only has to be made again later.
pub fn is_later(error: &io::Error) -> bool {
    matches!(error.kind(), ErrorKind::WouldBlock | ErrorKind::Interrupted)
}
