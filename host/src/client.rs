//! A client that sends one request after the other. Replies are read by the
//! library.

use std::io::{self, ErrorKind, Read, Write};
use std::net::{SocketAddr, TcpStream, ToSocketAddrs};
use std::time::Duration;

use crate::border::library::{read_reply, Asked, Found, Reply};
use crate::command::{ERROR, ID};
use crate::failure::{because, Failure};
use crate::limits::LONGEST_BULK;

/// How long the server may take for each step.
const PATIENCE: Duration = Duration::from_secs(10);

/// A connection to a server, on which requests are sent one by one.
pub struct Caller {
    stream: TcpStream,
    to: String,
    bytes: Vec<u8>,
}

impl Caller {
    pub fn reach(to: &str) -> Result<Caller, Failure> {
        Ok(Caller {
            stream: reach(to)?,
            to: to.to_string(),
            bytes: vec![0; LONGEST_BULK],
        })
    }

    /// Sends a request; answers its reply, and the bytes in which its parts are.
    pub fn ask(&mut self, request: &[u8], asked: Asked) -> Result<(Reply, &[u8]), Failure> {
        let to = &self.to;
        self.stream
            .write_all(request)
            .map_err(|error| because(format!("can't send to {to}"), error))?;
        let reply = receive(&mut self.stream, asked, &mut self.bytes)
            .map_err(|failure| format!("{failure}\nThe server at {to} may have done it or not."))?;
        Ok((reply, &self.bytes))
    }
}

/// Connects to the first address that answers.
fn reach(to: &str) -> Result<TcpStream, Failure> {
    let what = || format!("can't reach a server at {to}");
    let addresses = to
        .to_socket_addrs()
        .map_err(|error| format!("{}\n{}", because(what(), error), form(to)))?;
    let mut failure = what();
    for address in addresses {
        match connect(&address, PATIENCE) {
            Ok(stream) => return Ok(stream),
            Err(error) => failure = because(what(), error),
        }
    }
    Err(failure)
}

/// What an address has to be, where one is not understood.
pub fn form(given: &str) -> String {
    let given = given.escape_default();
    format!(
        "An address is ADDRESS:PORT, as 127.0.0.1:11222; '{given}' was given. Nothing was done."
    )
}

/// Whether a read has waited for as long as it may.
fn is_late(error: &io::Error) -> bool {
    matches!(error.kind(), ErrorKind::WouldBlock | ErrorKind::TimedOut)
}

/// Connects to a server that may take so long for each step.
pub fn connect(to: &SocketAddr, patience: Duration) -> io::Result<TcpStream> {
    let stream = TcpStream::connect_timeout(to, patience)?;
    stream.set_read_timeout(Some(patience))?;
    stream.set_write_timeout(Some(patience))?;
    Ok(stream)
}

/// Whether the reply is to the request that was sent: an error reply to one
/// whose id was not read has the id 0.
fn is_awaited(reply: &Reply) -> bool {
    reply.id == ID || reply.id == 0 && reply.operation == ERROR
}

/// Reads on until the reply is whole.
pub fn receive(stream: &mut TcpStream, asked: Asked, bytes: &mut [u8]) -> Result<Reply, Failure> {
    let mut held = 0;
    loop {
        match read_reply(&bytes[..held], asked) {
            Found::Whole(reply) if is_awaited(&reply) => return Ok(reply),
            Found::Whole(_) => return Err("the reply is to another request".to_string()),
            Found::Refused(number) => {
                return Err(format!("refused {number}: what came is not a reply"))
            }
            Found::More => {}
        }
        match stream.read(&mut bytes[held..]) {
            Ok(0) => return Err("the connection was closed before the reply".to_string()),
            Ok(count) => held += count,
            Err(error) if is_late(&error) => {
                let seconds = PATIENCE.as_secs();
                return Err(format!("no reply came within {seconds} seconds"));
            }
            Err(error) => return Err(because("no reply came", error)),
        }
    }
}
