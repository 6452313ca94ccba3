//! The event loop: one thread that waits for all connections, serves what came
//! in one call of the library, has the table stored, and sends the replies.

use std::io;
use std::net::{SocketAddr, TcpListener, TcpStream};
use std::time::{Duration, Instant};

use crate::batch::{Batch, Rest};
use crate::border::library::{write_error, Table};
use crate::border::system::{Event, Poll, Signals, READABLE};
pub use crate::clock::second;
use crate::clock::Clock;
use crate::command::{ERROR, PING, PROTOCOL};
use crate::connection::{is_later, Connection};
use crate::failure::{because, plain, say, Failure};
use crate::haste::{Haste, LOOK};
use crate::limits::REPLY_ROOM;
use crate::outage::Outage;
use crate::places::Places;
use crate::saver::{unstored, Saver, Sync, TRY_AGAIN};

/// The numbers under which the poll knows the listener and the signals; those
/// of the connections follow.
const LISTENER: usize = 0;
const SIGNALS: usize = 1;
const FIRST: usize = 2;

/// Events taken at a time.
const EVENTS: usize = 256;
/// Connections taken in one turn.
const ACCEPTS: usize = 64;
/// Connections above the limit that are told so; further ones are closed.
pub const TOLD: usize = 16;
/// How often connections that are late are looked for.
const TICK: Duration = Duration::from_secs(1);
/// How often it is told that nobody is taken.
const TELL_EVERY: Duration = Duration::from_secs(60);

pub struct Limits {
    pub connections: usize,
    /// How long a connection may be idle; none is for ever.
    pub idle: Option<Duration>,
}

pub struct Server {
    limits: Limits,
    poll: Poll,
    signals: Signals,
    listener: TcpListener,
    places: Places,
    /// The connections that are to be served next.
    queue: Vec<usize>,
    haste: Haste,
    /// Whether to look for further requests before it sleeps.
    looks: bool,
    batch: Batch,
    table: Table,
    /// The table as it was before the turn, where replies wait for the disk.
    before: Table,
    clock: Clock,
    saver: Saver,
    next_tick: Instant,
    /// Whether the listener waits for the next tick.
    deaf: bool,
    /// When it may be told again that the limit is met.
    tell_full_at: Instant,
    /// When it may be told again that callers wait.
    tell_deaf_at: Instant,
}

impl Server {
    pub fn new(
        listener: TcpListener,
        signals: Signals,
        table: Table,
        saver: Saver,
        limits: Limits,
    ) -> io::Result<Server> {
        let poll = Poll::new()?;
        listener.set_nonblocking(true)?;
        poll.add(&listener, LISTENER, READABLE)?;
        poll.add(&signals, SIGNALS, READABLE)?;
        let now = Instant::now();
        Ok(Server {
            limits,
            poll,
            signals,
            listener,
            places: Places::default(),
            queue: Vec::new(),
            haste: Haste::new(now),
            looks: false,
            batch: Batch::default(),
            before: table.clone(),
            table,
            clock: Clock::default(),
            saver,
            next_tick: now,
            deaf: false,
            tell_full_at: now,
            tell_deaf_at: now,
        })
    }

    /// Serves this connection beside those of the limit, however long nothing
    /// moves there.
    pub fn keep(&mut self, stream: TcpStream) -> io::Result<()> {
        let connection = Connection::new(stream, Instant::now());
        connection.make_ready()?;
        let index = self.places.keep(connection);
        match self.places.get(index) {
            Some(connection) => self.poll.add(&connection.stream, index + FIRST, READABLE),
            None => Ok(()),
        }
    }

    /// Serves until a signal comes, or something fails without which nothing can
    /// be served; then the table is stored.
    pub fn run(mut self) -> Result<(), Failure> {
        let served = self.serve_all();
        let stored = match self.serve_held() {
            true => self.saver.finish(&self.table, &mut self.signals),
            false => Err(unstored(Sync::Always)),
        };
        match (served, stored) {
            (Err(one), Err(other)) => Err(format!("{one}\n{other}")),
            (served, stored) => served.and(stored),
        }
    }

    /// At the end, where changes wait for the disk: tries until they are stored
    /// and answered. False where a signal came first.
    fn serve_held(&mut self) -> bool {
        while self.saver.is_failing() {
            if self.signals.wait(TRY_AGAIN) {
                return false;
            }
            self.serve(Instant::now());
        }
        true
    }

    fn serve_all(&mut self) -> Result<(), Failure> {
        let mut events = [Event::NONE; EVENTS];
        let mut now = Instant::now();
        loop {
            let count = self
                .wait(&mut events, now)
                .map_err(|error| because("can't wait for connections", error))?;
            now = Instant::now();
            if !self.turn(&events[..count], now)? {
                return Ok(());
            }
        }
    }

    /// Waits until something happens or has to be done; answers how many events
    /// there are. The time is that at which the turn began.
    fn wait(&mut self, events: &mut [Event], now: Instant) -> io::Result<usize> {
        if self.looks && self.queue.is_empty() {
            let begin = Instant::now();
            while begin.elapsed() < LOOK {
                let count = self.poll.wait(events, Some(Duration::ZERO))?;
                if count > 0 {
                    return Ok(count);
                }
            }
        }
        self.poll.wait(events, self.waits(now))
    }

    /// How long nothing has to be done unless something happens.
    fn waits(&self, now: Instant) -> Option<Duration> {
        if !self.queue.is_empty() {
            return Some(Duration::ZERO);
        }
        let tick = (self.places.taken() > 0 || self.deaf).then_some(self.next_tick);
        let due = [tick, self.saver.due()].into_iter().flatten().min()?;
        Some(due.saturating_duration_since(now))
    }

    /// One turn: what has come is read, served, stored where that is due, and
    /// answered. False where a signal came.
    fn turn(&mut self, events: &[Event], now: Instant) -> Result<bool, Failure> {
        let (mut ended, mut callers) = (false, false);
        for event in events {
            match event.token() {
                LISTENER => callers = true,
                SIGNALS => ended |= self.signals.take(),
                token => self.move_bytes(token - FIRST, event, now),
            }
        }
        // Places that became free are given again only when all events were seen.
        if callers {
            self.accept(now);
        }
        self.serve(now);
        if now >= self.next_tick {
            self.tick(now);
        }
        self.saver.look(&self.table, now)?;
        Ok(!ended)
    }

    /// Reads from a connection and writes to it, as it is ready.
    fn move_bytes(&mut self, index: usize, event: &Event, now: Instant) {
        let Some(connection) = self.places.get_mut(index) else {
            return;
        };
        if connection.held && event.is_lost() {
            self.places.close(index);
            return;
        }
        let mut moved = Ok(());
        if event.is_writable() {
            moved = connection.flush(now);
        }
        if event.is_readable() && moved.is_ok() {
            moved = connection.receive(now);
        }
        match moved {
            Ok(()) => self.settle(index, now),
            Err(_) => self.places.close(index),
        }
    }

    /// Sees to what a connection needs next: to be served, to be waited for, or
    /// to be closed.
    fn settle(&mut self, index: usize, now: Instant) {
        self.places.shut(index, now);
        let Some(connection) = self.places.get_mut(index) else {
            return;
        };
        if connection.is_over() {
            self.places.close(index);
            return;
        }
        if connection.can_be_served() && !connection.queued {
            connection.queued = true;
            self.queue.push(index);
        }
        let wanted = connection.wanted();
        if wanted != connection.interest {
            connection.interest = wanted;
            let changed = self.poll.change(&connection.stream, index + FIRST, wanted);
            if changed.is_err() {
                self.places.close(index);
            }
        }
    }

    /// Serves the queue, and sends the replies that may go out.
    fn serve(&mut self, now: Instant) {
        self.looks = false;
        let again = self.saver.is_due_again(now);
        if again {
            self.try_held();
        }
        if self.queue.is_empty() && !again {
            return;
        }
        self.looks = self.haste.served(self.queue.len().max(1), now);
        let tries = again || !self.saver.is_failing();
        if !(tries && self.serve_changes(now)) {
            self.serve_unchanged(now);
        }
        if again && !self.saver.is_failing() {
            self.release_held(now);
        }
    }

    /// Serves the queue in one call, and sends the replies when the table is
    /// stored. False where it can't be: then nothing was served.
    fn serve_changes(&mut self, now: Instant) -> bool {
        let delays = self.saver.delays();
        if delays {
            self.before.copy_from(&self.table);
        }
        self.serve_queue();
        if !self.saver.served(&self.table, now) {
            self.table.copy_from(&self.before);
            self.queue
                .extend(self.batch.shares.iter().map(|share| share.connection));
            return false;
        }
        let mut sent = now;
        if delays {
            sent = Instant::now();
        }
        if sent.duration_since(now) >= TICK {
            // Storing was waited for, which is nobody's idleness.
            self.places.begin_anew(sent);
        }
        self.send_replies(sent);
        true
    }

    /// Puts those whose changes wait into the queue.
    fn try_held(&mut self) {
        for index in self.places.held() {
            if let Some(connection) = self.places.get_mut(index) {
                if connection.can_be_tried() && !connection.queued {
                    connection.queued = true;
                    self.queue.push(index);
                }
            }
        }
    }

    /// The table can be stored again: nobody waits for it any more.
    fn release_held(&mut self, now: Instant) {
        for index in self.places.held() {
            if let Some(connection) = self.places.get_mut(index) {
                connection.held = false;
                connection.moved = now;
                self.settle(index, now);
            }
        }
    }

    /// Serves the queue as far as nothing is changed. A change waits, with all
    /// that its connection sent behind it.
    fn serve_unchanged(&mut self, now: Instant) {
        let mut outage = Outage::new(&self.table, self.clock.second());
        for index in std::mem::take(&mut self.queue) {
            let Some(connection) = self.places.get_mut(index) else {
                continue;
            };
            connection.queued = false;
            if connection.held {
                continue;
            }
            let part = outage.serve(&mut self.table, connection.input.held());
            let replies = &outage.replies[..part.replied];
            let sent = give(connection, part.taken, replies, part.rest, now);
            connection.pending |= part.held;
            connection.held = part.held;
            match sent {
                Ok(()) => self.settle(index, now),
                Err(_) => self.places.close(index),
            }
        }
    }

    fn serve_queue(&mut self) {
        if self.queue.is_empty() {
            self.batch.shares.clear();
            return;
        }
        let second = self.clock.second();
        for index in &self.queue {
            if let Some(connection) = self.places.get_mut(*index) {
                connection.queued = false;
            }
        }
        let places = &self.places;
        let input = |index: usize| Some(places.get(index)?.input.held());
        self.batch
            .serve(&self.queue, input, &mut self.table, second);
        self.queue.clear();
    }

    /// Gives each connection its replies, and sees to what is left.
    fn send_replies(&mut self, now: Instant) {
        self.batch.put_waiting_first();
        let shares = std::mem::take(&mut self.batch.shares);
        for share in &shares {
            let Some(connection) = self.places.get_mut(share.connection) else {
                continue;
            };
            let replies = self.batch.replies_of(share);
            let sent = give(connection, share.taken, replies, share.rest, now);
            connection.held = false;
            match sent {
                Ok(()) => self.settle(share.connection, now),
                Err(_) => self.places.close(share.connection),
            }
        }
        self.batch.shares = shares;
    }

    /// Takes the connections that wait.
    fn accept(&mut self, now: Instant) {
        for _ in 0..ACCEPTS {
            match self.listener.accept() {
                Ok((stream, _)) => self.take_in(stream, now),
                Err(error) if error.kind() == io::ErrorKind::ConnectionAborted => {}
                Err(error) if is_later(&error) => return,
                Err(error) => {
                    if is_due(&mut self.tell_deaf_at, now) {
                        say(because("callers wait, since none can be taken", error));
                    }
                    self.listen(false);
                    return;
                }
            }
        }
    }

    /// Listens, or leaves the callers waiting until the next tick.
    fn listen(&mut self, on: bool) {
        let interest = if on { READABLE } else { 0 };
        if self.poll.change(&self.listener, LISTENER, interest).is_ok() {
            self.deaf = !on;
        }
    }

    /// Takes one connection; above the limit it is told so, or closed.
    fn take_in(&mut self, stream: TcpStream, now: Instant) {
        let full = self.places.open() >= self.limits.connections;
        if full {
            self.tell_full(now);
        }
        if self.places.taken() >= self.limits.connections + TOLD {
            return;
        }
        let mut connection = Connection::new(stream, now);
        let mut ready = connection.make_ready();
        if full {
            turn_away(&mut connection, now);
        }
        let index = self.places.add(connection);
        if let Some(connection) = self.places.get(index) {
            ready = ready.and(self.poll.add(&connection.stream, index + FIRST, READABLE));
        }
        match ready {
            Ok(()) => self.settle(index, now),
            Err(_) => self.places.close(index),
        }
    }

    /// Tells that the limit is met.
    fn tell_full(&mut self, now: Instant) {
        if is_due(&mut self.tell_full_at, now) {
            let are = match self.places.open() {
                1 => "1 connection is".to_string(),
                count => format!("{count} connections are"),
            };
            say(format!(
                "{are} open, which is the limit (--connections); others are turned away"
            ));
        }
    }

    /// Once a second: closes connections that are late, and listens again.
    fn tick(&mut self, now: Instant) {
        self.next_tick = now + TICK;
        if self.deaf {
            self.listen(true);
        }
        let idle = self.places.close_late(now, self.limits.idle);
        let were = match idle {
            0 => return,
            1 => "1 connection was".to_string(),
            _ => format!("{idle} connections were"),
        };
        say(format!(
            "{were} closed, since nothing moved there for the time of --idle"
        ));
    }
}

/// Gives a connection its replies, and keeps what is left of its input.
fn give(
    connection: &mut Connection,
    taken: usize,
    replies: &[u8],
    rest: Rest,
    now: Instant,
) -> io::Result<()> {
    connection.input.take(taken);
    connection.pending = rest == Rest::Again;
    let mut sent = Ok(());
    if !replies.is_empty() {
        sent = connection.send(replies, now);
    }
    if rest == Rest::Ended {
        connection.leave();
    }
    sent
}

/// Tells a client that there are too many, in an error reply of the library.
fn turn_away(connection: &mut Connection, now: Instant) {
    const SERVER_ERROR: u64 = 0x85;
    let mut reply = [0; REPLY_ROOM];
    let numbers = [0, u64::from(ERROR), SERVER_ERROR, 0];
    if let Ok(size) = write_error(
        &mut reply,
        PROTOCOL,
        PING,
        &numbers,
        b"too many connections",
    ) {
        let _ = connection.send(&reply[..size], now);
    }
    connection.leave();
}

/// Whether something is to be told, which it then is not for a while.
fn is_due(at: &mut Instant, now: Instant) -> bool {
    let due = now >= *at;
    if due {
        *at = now + TELL_EVERY;
    }
    due
}

/// Listens at an address; answers also which one it is.
pub fn listen(address: &str) -> Result<(TcpListener, SocketAddr), Failure> {
    TcpListener::bind(address)
        .and_then(|listener| listener.local_addr().map(|at| (listener, at)))
        .map_err(|error| format!("can't listen on {address}: {}", plain(&error)))
}
