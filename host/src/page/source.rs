//! Where the page has its entries from: the server, which a thread asks by a
//! bulkGet on a connection that is kept for it. Visitors wait for an answer
//! beside each other, and many are given one answer.

use std::io::{self, Read, Write};
use std::net::{Ipv4Addr, TcpListener, TcpStream};
use std::os::unix::net::UnixStream;
use std::sync::mpsc::{channel, Receiver, Sender};
use std::sync::Arc;
use std::thread;
use std::time::{Duration, Instant};

use super::json::of_entries;
use crate::border::library::entries;
use crate::client::receive;
use crate::command::Command;
use crate::failure::{because, say, Failure};
use crate::limits::LONGEST_BULK;

/// How long an answer is given to further visitors.
const FRESH: Duration = Duration::from_millis(200);
/// How long the server is waited for.
const PATIENCE: Duration = Duration::from_millis(1500);

/// The entries as data for the page; none where the server is away.
pub type Data = Option<Arc<[u8]>>;

pub struct Source {
    questions: Sender<()>,
    answers: Receiver<Arc<[u8]>>,
    /// Becomes readable when an answer has come.
    bell: UnixStream,
    /// What was last answered, and until when it is given.
    data: Data,
    until: Instant,
    /// When the question was asked that is not answered yet.
    asked: Option<Instant>,
}

impl Source {
    /// Begins the thread that asks on this connection, for a page with this
    /// number.
    pub fn new(server: TcpStream, page: String) -> io::Result<Source> {
        let (bell, rings) = UnixStream::pair()?;
        bell.set_nonblocking(true)?;
        let (questions, asked) = channel();
        let (answer, answers) = channel();
        let run = move || answer_all(server, &page, &asked, &answer, rings);
        thread::Builder::new()
            .name("page asks".to_string())
            .spawn(run)?;
        Ok(Source {
            questions,
            answers,
            bell,
            data: None,
            until: Instant::now(),
            asked: None,
        })
    }

    pub fn bell(&self) -> &UnixStream {
        &self.bell
    }

    /// The data, once they are known; until then the server is asked.
    pub fn data(&mut self, now: Instant) -> Option<Data> {
        if now < self.until {
            return Some(self.data.clone());
        }
        match self.asked {
            None if self.questions.send(()).is_ok() => self.asked = Some(now),
            Some(asked) if now < asked + PATIENCE => {}
            _ => return Some(None),
        }
        None
    }

    /// Takes an answer that has come.
    pub fn take(&mut self, now: Instant) {
        let _ = self.bell.read(&mut [0; 16]);
        if let Ok(data) = self.answers.try_recv() {
            self.data = Some(data);
            self.until = now + FRESH;
            self.asked = None;
        }
    }
}

/// Answers each question by what the server answers.
fn answer_all(
    mut server: TcpStream,
    page: &str,
    questions: &Receiver<()>,
    answers: &Sender<Arc<[u8]>>,
    mut bell: UnixStream,
) {
    let mut bytes = vec![0; LONGEST_BULK];
    while questions.recv().is_ok() {
        let text = match ask(&mut server, page, &mut bytes) {
            Ok(text) => text,
            Err(failure) => return say(format!("the page has no entries any more: {failure}")),
        };
        let data = Arc::from(text.into_bytes());
        if answers.send(data).is_err() || bell.write_all(&[1]).is_err() {
            return;
        }
    }
}

/// Asks the server for all entries, and waits for them however long it takes.
fn ask(server: &mut TcpStream, page: &str, bytes: &mut [u8]) -> Result<String, Failure> {
    let command = Command::list();
    server
        .write_all(&command.request()?)
        .map_err(|error| because("can't send", error))?;
    let reply = receive(server, command.asked(), bytes)?;
    if reply.operation != command.operation.code + 1 {
        return Err("the server refuses".to_string());
    }
    Ok(of_entries(entries(bytes, &reply, true), page))
}

/// Both ends of a connection within this program.
pub fn pair() -> io::Result<(TcpStream, TcpStream)> {
    let listener = TcpListener::bind((Ipv4Addr::LOCALHOST, 0))?;
    let one = TcpStream::connect(listener.local_addr()?)?;
    loop {
        let (other, caller) = listener.accept()?;
        // Somebody else may have called.
        if caller == one.local_addr()? {
            return Ok((one, other));
        }
    }
}
