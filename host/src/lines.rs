//! Request lines for ./board, and its reply lines in words.

use std::ffi::OsString;
use std::fs::File;
use std::io::{self, BufRead, BufReader, Write};

use crate::border::library::{read_reply, read_request, Asked, Found};
use crate::command::{Command, Operation, PING, PROTOCOL};
use crate::failure::{because, Failure};
use crate::hex::{from_digits, to_digits};
use crate::server::second;
use crate::words::{of_reply, shown};

/// `encode COMMAND ..`: the request line of a command.
pub fn encode(given: &[OsString]) -> Result<String, Failure> {
    let (command, words) = Command::parse(given, &["second"], &[])?;
    let second = match words.number("second", 0..=u64::from(u32::MAX))? {
        Some(number) => number as u32,
        None => second(),
    };
    Ok(format!("{second:08x} {}", to_digits(&command.request()?)))
}

/// `decode REQUESTS REPLIES`: each reply line in words, behind what its request
/// line asks for.
pub fn decode(
    requests: &OsString,
    replies: &OsString,
    out: &mut impl Write,
) -> Result<(), Failure> {
    let mut replies = lines_of(replies)?;
    for request in lines_of(requests)? {
        let request = request?;
        let Some(reply) = replies.next() else {
            return Err("there are fewer replies than requests".to_string());
        };
        let words = in_words(&request, &reply?);
        writeln!(out, "{words}").map_err(|error| because("can't write", error))?;
    }
    match replies.next() {
        None => Ok(()),
        Some(_) => Err("there are more replies than requests".to_string()),
    }
}

/// The lines of a file, or of standard input for `-`.
fn lines_of(name: &OsString) -> Result<impl Iterator<Item = Result<Vec<u8>, Failure>>, Failure> {
    let shown = name.to_string_lossy().into_owned();
    let input: Box<dyn BufRead> = if name == "-" {
        Box::new(io::stdin().lock())
    } else {
        let file =
            File::open(name).map_err(|error| because(format!("can't open {shown}"), error))?;
        Box::new(BufReader::new(file))
    };
    Ok(input
        .split(b'\n')
        .map(move |line| line.map_err(|error| because(format!("can't read {shown}"), error))))
}

/// One reply line in words.
fn in_words(request: &[u8], reply: &[u8]) -> String {
    let (what, asked) = asked_by(request);
    let words = match reply {
        b"refused 14" => "refused 14: not a request line".to_string(),
        b"refused 15" => "refused 15: not exactly one request".to_string(),
        digits => reply_in_words(digits, asked),
    };
    format!("{what}: {words}")
}

fn reply_in_words(digits: &[u8], asked: Asked) -> String {
    let Some(bytes) = from_digits(digits) else {
        return "not a reply line".to_string();
    };
    match read_reply(&bytes, asked) {
        Found::Whole(reply) if reply.size == bytes.len() => {
            of_reply(asked, &reply, &bytes).1.replace('\n', "; ")
        }
        _ => "not a reply to this request".to_string(),
    }
}

/// What a request line asks for, in words and for the reader of replies. Where
/// it can't be read, only an error reply can follow, which is read as one to
/// any operation.
fn asked_by(line: &[u8]) -> (String, Asked) {
    let unknown = Asked {
        version: PROTOCOL,
        operation: PING,
        previous: false,
    };
    let bytes = line.get(9..).and_then(from_digits).unwrap_or_default();
    let Found::Whole(request) = read_request(&bytes) else {
        return ("?".to_string(), unknown);
    };
    let Some(operation) = Operation::of_code(request.operation) else {
        return ("?".to_string(), unknown);
    };
    let key = &bytes[request.key.clone()];
    let what = match (key, request.bulk) {
        ([], 0) => operation.word.to_string(),
        ([], bulk) => format!("{} {bulk}", operation.word),
        (key, _) => format!("{} {}", operation.word, shown(key)),
    };
    let asked = Asked {
        version: request.version,
        operation: request.operation,
        previous: request.flags & 1 == 1,
    };
    (what, asked)
}
