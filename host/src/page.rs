//! A page for a screen: one HTML page with its style, script and icon, and its
//! data, which are the entries that the server lists. A thread of its own
//! answers visitors, and another one asks the server over TCP as any client
//! does. The number of visitors at a time, their buffers and their time are
//! fixed, and none waits for another.

mod documents;
mod http;
mod json;
pub mod metrics;
mod order;
mod source;
mod visitor;

use std::io;
use std::net::{TcpListener, TcpStream};
use std::thread;
use std::time::{Duration, Instant};

use crate::border::system::{Event, Poll, READABLE};
use crate::connection::is_later;
use crate::failure::{because, say, Failure};
use documents::{Documents, ICON, SCRIPT, STYLE};
use http::{Body, Request, Wanted};
pub use source::pair;
use source::Source;
use visitor::Visitor;

/// Visitors at a time; others wait.
const VISITORS: usize = 64;
/// Files of a page at most: visitors, listener, poll, and both ends of the bell
/// and of the connection to the server.
pub const FILES: u64 = VISITORS as u64 + 6;
/// How often visitors that are late are looked for.
const TICK: Duration = Duration::from_millis(250);
/// How long nothing has to have moved at a visitor whose place is given to
/// another one.
const RESTS: Duration = Duration::from_millis(250);
/// The numbers under which the poll knows the listener and the bell.
const LISTENER: usize = VISITORS;
const BELL: usize = VISITORS + 1;

/// Answers visitors at the listener, with what is asked on the connection to
/// the server, in a thread of its own. Signals have to be blocked before, so
/// that they come to the server.
pub fn begin(listener: TcpListener, server: TcpStream, title: Option<&str>) -> Result<(), Failure> {
    let mut page = Page::new(listener, server, Documents::new(title))
        .map_err(|error| because("can't show the page", error))?;
    let answer = move || {
        if let Err(error) = page.run() {
            say(because("the page is not shown any more", error));
        }
    };
    thread::Builder::new()
        .name("page".to_string())
        .spawn(answer)
        .map(|_| ())
        .map_err(|error| because("can't show the page", error))
}

struct Page {
    listener: TcpListener,
    poll: Poll,
    visitors: Vec<Option<Visitor>>,
    documents: Documents,
    source: Source,
    /// Whether callers are taken.
    listens: bool,
}

impl Page {
    fn new(listener: TcpListener, server: TcpStream, documents: Documents) -> io::Result<Page> {
        let poll = Poll::new()?;
        let source = Source::new(server, documents.number.clone())?;
        listener.set_nonblocking(true)?;
        poll.add(&listener, LISTENER, READABLE)?;
        poll.add(source.bell(), BELL, READABLE)?;
        Ok(Page {
            listener,
            poll,
            visitors: (0..VISITORS).map(|_| None).collect(),
            documents,
            source,
            listens: true,
        })
    }

    /// Answers visitors as they come; ends only where the system fails.
    fn run(&mut self) -> io::Result<()> {
        let mut events = [Event::NONE; VISITORS + 2];
        loop {
            let idle = self.listens && self.visitors.iter().all(Option::is_none);
            let count = self.poll.wait(&mut events, (!idle).then_some(TICK))?;
            let now = Instant::now();
            for event in &events[..count] {
                match event.token() {
                    LISTENER => {}
                    BELL => self.source.take(now),
                    place => self.attend(place, now),
                }
            }
            self.attend_waiting(now);
            self.close_late(now);
            self.accept(now)?;
        }
    }

    /// Takes callers as long as there are places. Those who find none wait.
    fn accept(&mut self, now: Instant) -> io::Result<()> {
        while let Some(place) = self.free_place(now) {
            match self.listener.accept() {
                Ok((stream, _)) => self.take_in(place, stream, now),
                Err(error) if is_later(&error) => return self.listen(true),
                Err(error) if error.kind() == io::ErrorKind::ConnectionAborted => {}
                // No file is left, for example; callers are looked for at the next tick.
                Err(_) => break,
            }
        }
        self.listen(false)
    }

    /// A place for one more: a free one, or that of the visitor at which
    /// nothing moved for the longest time, if that was a while.
    fn free_place(&self, now: Instant) -> Option<usize> {
        let free = self.visitors.iter().position(Option::is_none);
        free.or_else(|| {
            let rests = |place: &Option<Visitor>| place.as_ref()?.rests_since();
            let (since, place) = (self.visitors.iter().enumerate())
                .filter_map(|(at, place)| Some((rests(place)?, at)))
                .min()?;
            (now >= since + RESTS).then_some(place)
        })
    }

    fn listen(&mut self, on: bool) -> io::Result<()> {
        if on != self.listens {
            let interest = if on { READABLE } else { 0 };
            self.poll.change(&self.listener, LISTENER, interest)?;
            self.listens = on;
        }
        Ok(())
    }

    fn take_in(&mut self, place: usize, stream: TcpStream, now: Instant) {
        self.visitors[place] = None;
        let Ok(visitor) = Visitor::new(stream, now) else {
            return;
        };
        if self.poll.add(visitor.stream(), place, READABLE).is_ok() {
            self.visitors[place] = Some(visitor);
        }
    }

    /// Reads from a visitor and writes to it.
    fn attend(&mut self, place: usize, now: Instant) {
        let Some(visitor) = &mut self.visitors[place] else {
            return;
        };
        let mut over = visitor.receive(now).is_err();
        if let Some(request) = visitor.wants() {
            if let Some((head, body)) = answer(request, &self.documents, &mut self.source, now) {
                visitor.answer(head, body, now);
            }
        }
        over = over || visitor.send(now).is_err() || visitor.is_over();
        let interest = visitor.interest();
        over = over || self.poll.change(visitor.stream(), place, interest).is_err();
        if over {
            self.visitors[place] = None;
        }
    }

    /// Sees to those who wait for an answer of the server.
    fn attend_waiting(&mut self, now: Instant) {
        for place in 0..VISITORS {
            let wants = self.visitors[place].as_ref().and_then(Visitor::wants);
            if wants.is_some() {
                self.attend(place, now);
            }
        }
    }

    fn close_late(&mut self, now: Instant) {
        for place in &mut self.visitors {
            if place.as_ref().is_some_and(|visitor| visitor.is_late(now)) {
                *place = None;
            }
        }
    }
}

/// The answer to a request, if it is known.
fn answer(
    request: Request,
    documents: &Documents,
    source: &mut Source,
    now: Instant,
) -> Option<(Vec<u8>, Body)> {
    const HTML: &str = "text/html; charset=utf-8";
    const TEXT: &str = "text/plain; charset=utf-8";
    const JSON: &str = "application/json";
    let (status, kind, body) = match request.wanted {
        Wanted::Page => (200, HTML, Body::Shared(documents.page.clone())),
        Wanted::Style => (200, "text/css; charset=utf-8", Body::Fixed(STYLE)),
        Wanted::Script => (200, "text/javascript; charset=utf-8", Body::Fixed(SCRIPT)),
        Wanted::Icon => (200, "image/svg+xml", Body::Fixed(ICON)),
        Wanted::Data => match source.data(now)? {
            Some(data) => (200, JSON, Body::Shared(data)),
            None => (503, JSON, Body::Fixed(b"{}")),
        },
        Wanted::Health => match source.data(now)? {
            Some(_) => (200, TEXT, Body::Fixed(b"The server answers.\n")),
            None => (503, TEXT, Body::Fixed(b"The server does not answer.\n")),
        },
        Wanted::Refused((status, words)) => (status, TEXT, Body::Fixed(words.as_bytes())),
    };
    let head = http::head(status, kind, body.bytes().len());
    let body = if request.with_body {
        body
    } else {
        Body::Fixed(b"")
    };
    Some((head, body))
}
