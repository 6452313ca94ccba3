//! The program: `serve` is the server, the other commands are for people.

#![forbid(unsafe_code)]

use std::ffi::OsString;
use std::io;
use std::path::{Path, PathBuf};
use std::process::ExitCode;
use std::time::Duration;

use feyqoolad::ask::{ask, print, ADDRESS};
use feyqoolad::border::system::Signals;
use feyqoolad::failure::{because, not_understood, say, Failure};
use feyqoolad::files::fitting;
use feyqoolad::keeper::Keeper;
use feyqoolad::lines::{decode, encode};
use feyqoolad::options::Words;
use feyqoolad::page::{begin, pair};
use feyqoolad::saver::{Saver, Sync};
use feyqoolad::server::{listen, Limits, Server};
use feyqoolad::show::{sheet, show};
use feyqoolad::usage;
use feyqoolad::words::shown;

/// Characters of the page's heading at most.
const LONGEST_TITLE: usize = 64;

fn main() -> ExitCode {
    let given: Vec<OsString> = std::env::args_os().skip(1).collect();
    match run(&given) {
        Ok(status) => status,
        Err(failure) => {
            say(failure);
            ExitCode::FAILURE
        }
    }
}

fn run(given: &[OsString]) -> Result<ExitCode, Failure> {
    if let Some(name) = usage::asked(given) {
        let no = || not_understood(format!("there is no command '{}'", shown(name.as_bytes())));
        return print_text(usage::part(name).ok_or_else(no)?);
    }
    match given.first().and_then(|word| word.to_str()) {
        Some("serve") => serve(&given[1..]),
        Some("encode") => run_encode(&given[1..]),
        Some("decode") => run_decode(&given[1..]),
        Some("show") => of_table("show", &given[1..], show),
        Some("sheet") => of_table("sheet", &given[1..], sheet),
        _ => ask(given, ADDRESS),
    }
}

fn print_text(text: &str) -> Result<ExitCode, Failure> {
    print(text.as_bytes())?;
    Ok(ExitCode::SUCCESS)
}

fn run_encode(given: &[OsString]) -> Result<ExitCode, Failure> {
    let line = encode(given).map_err(not_understood)?;
    print_text(&format!("{line}\n"))
}

fn run_decode(given: &[OsString]) -> Result<ExitCode, Failure> {
    let standard = OsString::from("-");
    let (requests, replies) = match given {
        [requests] => (requests, &standard),
        [requests, replies] => (requests, replies),
        _ => {
            return Err(not_understood(
                "decode is followed by REQUESTS and, if not standard input, REPLIES",
            ))
        }
    };
    if requests == "-" && replies == "-" {
        return Err(not_understood(
            "REQUESTS and REPLIES can't both be standard input; one has to be a file",
        ));
    }
    decode(requests, replies, &mut io::stdout().lock())?;
    Ok(ExitCode::SUCCESS)
}

/// A command on a stored table that is only read.
fn of_table(
    word: &str,
    given: &[OsString],
    told: fn(&Path) -> Result<String, Failure>,
) -> Result<ExitCode, Failure> {
    let [table] = given else {
        return Err(not_understood(format!("{word} is followed by TABLE")));
    };
    print_text(&told(Path::new(table))?)
}

/// What `serve` is told.
struct Told {
    table: PathBuf,
    address: String,
    page: Option<String>,
    title: Option<String>,
    sync: Sync,
    connections: u64,
    idle: u64,
}

impl Told {
    fn parse(given: &[OsString]) -> Result<Told, Failure> {
        let options = ["listen", "page", "title", "sync", "connections", "idle"];
        let words = Words::part(given, &options, &[])?;
        let [table] = words.words() else {
            return Err("serve is followed by TABLE and options".to_string());
        };
        let sync = match words.text("sync")? {
            None | Some("second") => Sync::Second,
            Some("always") => Sync::Always,
            Some(_) => return Err("--sync is second or always".to_string()),
        };
        let most = u64::from(u32::MAX);
        Ok(Told {
            table: PathBuf::from(table),
            address: words.text("listen")?.unwrap_or(ADDRESS).to_string(),
            page: words.text("page")?.map(str::to_string),
            title: title(&words)?,
            sync,
            connections: words.number("connections", 1..=100_000)?.unwrap_or(1000),
            idle: words.number("idle", 0..=most)?.unwrap_or(600),
        })
    }

    fn limits(&self) -> Result<Limits, Failure> {
        Ok(Limits {
            connections: fitting(self.connections, self.page.is_some())? as usize,
            idle: (self.idle > 0).then_some(Duration::from_secs(self.idle)),
        })
    }
}

/// The heading of the page, if one is given.
fn title(words: &Words) -> Result<Option<String>, Failure> {
    let Some(title) = words.text("title")? else {
        return Ok(None);
    };
    let is_good = !title.trim().is_empty() && !title.chars().any(char::is_control);
    if words.text("page")?.is_none() {
        return Err("--title needs --page".to_string());
    }
    if !is_good || title.chars().count() > LONGEST_TITLE {
        return Err(format!(
            "--title has to be a text of at most {LONGEST_TITLE} characters"
        ));
    }
    Ok(Some(title.to_string()))
}

fn serve(given: &[OsString]) -> Result<ExitCode, Failure> {
    let told = Told::parse(given).map_err(not_understood)?;
    let limits = told.limits()?;
    // The address first, so that no fresh table is left where it is in use.
    let (listener, at) = listen(&told.address)?;
    let page = told.page.as_deref().map(listen).transpose()?;
    let (keeper, loaded) = Keeper::open(&told.table)?;
    // Signals are blocked before any thread begins, so that they come to the server.
    let mut server = Signals::new()
        .and_then(|signals| {
            let saver = Saver::new(keeper, told.sync)?;
            Server::new(listener, signals, loaded, saver, limits)
        })
        .map_err(|error| because("can't serve", error))?;
    say(format!("serves {} on {at}", told.table.display()));
    if let Some((listener, page)) = page {
        let (asks, served) = pair().map_err(|error| because("can't show the page", error))?;
        server
            .keep(served)
            .map_err(|error| because("can't show the page", error))?;
        begin(listener, asks, told.title.as_deref())?;
        say(format!("shows it on http://{page}/"));
    }
    server.run()?;
    say("ended; the table is stored");
    Ok(ExitCode::SUCCESS)
}
