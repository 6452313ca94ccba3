//! The commands that send one request to a server. The reply goes to standard
//! output. With --raw and --json that the answer is no, and that there is nothing
//! to list, goes to standard error.

use std::ffi::OsString;
use std::io::{self, Write};
use std::process::ExitCode;

use crate::client::Caller;
use crate::command::Command;
use crate::failure::{because, not_understood, say, Failure};
use crate::json;
use crate::options::Words;
use crate::words::{of_reply, Went};

/// The address of a server where none is told.
pub const ADDRESS: &str = "127.0.0.1:11222";
/// The status where the server's answer is no.
const NO: u8 = 2;

/// The address that these words tell, or this one.
pub fn address<'a>(words: &'a Words, usual: &'a str) -> Result<&'a str, Failure> {
    Ok(words.text("to").map_err(not_understood)?.unwrap_or(usual))
}

/// Writes what was asked for.
pub fn print(text: &[u8]) -> Result<(), Failure> {
    let mut out = io::stdout().lock();
    out.write_all(text)
        .and_then(|()| out.flush())
        .map_err(|error| because("can't write to standard output", error))
}

/// Sends the request of a command, to this address unless another is told, and
/// prints its reply.
pub fn ask(given: &[OsString], usual: &str) -> Result<ExitCode, Failure> {
    let flags: &[&str] = match given.first() {
        Some(word) if word == "get" => &["json", "raw"],
        _ => &["json"],
    };
    let (command, words) = Command::parse(given, &["to"], flags).map_err(not_understood)?;
    if words.has("raw") && words.has("json") {
        return Err(not_understood("only one of --raw and --json can be given"));
    }
    let (request, asked) = (command.request()?, command.asked());
    let mut caller = Caller::reach(address(&words, usual)?)?;
    let (reply, bytes) = caller.ask(&request, asked)?;
    let (went, text) = of_reply(asked, &reply, bytes);
    if went == Went::Failed {
        return Err(text);
    }
    if words.has("json") {
        print(json::of_reply(asked, &command.key, &reply, bytes).as_bytes())?;
    } else if !words.has("raw") {
        print(format!("{text}\n").as_bytes())?;
    } else if went == Went::Done {
        print(&bytes[reply.value.clone()])?;
    }
    if went != Went::Done && (words.has("json") || words.has("raw")) {
        say(text);
    }
    Ok(match went {
        Went::No => ExitCode::from(NO),
        _ => ExitCode::SUCCESS,
    })
}
