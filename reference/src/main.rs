//! The program.
//!
//! `reference serve REQUESTS` serves a file of request lines from a fresh
//! table. `reference serve REQUESTS TABLE` loads the table first and stores
//! it afterwards. `reference sheet TABLE [CACHE [KEY [COUNT]]]` lists the keys
//! of a stored table. The other commands read one case a line from standard
//! input and print one result a line.

mod cases;

use std::ffi::{OsStr, OsString};
use std::fs::{self, File};
use std::io::{self, BufReader, BufWriter, ErrorKind, Read, Write};
use std::os::unix::ffi::OsStrExt;
use std::process::ExitCode;

use reference::hex::to_digits;
use reference::order::LONGEST_LISTING;
use reference::statistics::decimal;
use reference::stored::LONGEST;
use reference::{list_keys, load, serve_reader, store, Table};

const USAGE: &str = "usage:
  reference serve REQUESTS
  reference serve REQUESTS TABLE
  reference sheet TABLE [CACHE [KEY [COUNT]]]
  reference number 5
  reference number 9
  reference write-number
  reference text
  reference limited LIMIT
  reference limited-text LIMIT
  reference version
  reference fields
  reference request
  reference reply VERSION OPERATION FLAG
All but the first three read one case a line from standard input. Before a
case of `fields` stands a letter: i vInt, l vLong, e entry version, t text,
n name, k key, v value.";

fn main() -> ExitCode {
    let arguments: Vec<OsString> = std::env::args_os().skip(1).collect();
    let result = match arguments.as_slice() {
        [command, requests] if command == "serve" => serve_fresh(requests),
        [command, requests, table] if command == "serve" => serve_with_table(requests, table),
        [command, table, rest @ ..] if command == "sheet" && rest.len() <= 3 => {
            list_file(table, rest)
        }
        _ => run_cases(&arguments),
    };
    match result {
        Ok(()) => ExitCode::SUCCESS,
        Err(sentence) => {
            // If even this cannot be written, the exit status still tells it.
            let _ = writeln!(io::stderr(), "{sentence}");
            ExitCode::FAILURE
        }
    }
}

fn run_cases(arguments: &[OsString]) -> Result<(), String> {
    let words: Vec<&str> = arguments
        .iter()
        .map(|word| word.to_str().unwrap_or(""))
        .collect();
    let Some(command) = cases::parse(&words) else {
        return Err(USAGE.to_string());
    };
    cases::run(&command).map_err(|error| format!("The cases could not be run: {error}."))
}

fn serve_fresh(requests: &OsStr) -> Result<(), String> {
    serve_file(requests, &mut Table::default())
}

fn serve_with_table(requests: &OsStr, path: &OsStr) -> Result<(), String> {
    let mut table = load_file(path)?;
    serve_file(requests, &mut table)?;
    store_file(&table, path).map_err(|error| format!("The table could not be stored: {error}."))
}

fn not_listed(number: u8) -> String {
    format!("refused {number}\nThe keys are not listed.")
}

/// Prints the listing of a stored table's keys as a line of digits. A cache, a
/// key that it begins at, and the most keys that it has may be given.
fn list_file(path: &OsStr, rest: &[OsString]) -> Result<(), String> {
    let bytes =
        read_table_file(path).map_err(|error| format!("The table could not be read: {error}."))?;
    let table = load(&bytes).ok_or_else(|| not_listed(17))?;
    let word = |at: usize| rest.get(at).map_or(&[][..], |word| word.as_bytes());
    let most = match rest.get(2) {
        None => Some(u64::MAX),
        Some(_) => decimal(word(2)),
    };
    let most = most.ok_or(USAGE)?;
    let mut out = vec![0; LONGEST_LISTING];
    let length = list_keys(&table, word(0), word(1), most, &mut out).map_err(not_listed)?;
    let line = [&to_digits(&out[..length])[..], b"\n"].concat();
    io::stdout()
        .write_all(&line)
        .map_err(|error| format!("The keys could not be written: {error}."))
}

/// Serves the lines of the file and prints the replies.
fn serve_file(requests: &OsStr, table: &mut Table) -> Result<(), String> {
    let file = File::open(requests)
        .map_err(|error| format!("The requests could not be opened: {error}."))?;
    let mut input = BufReader::with_capacity(1 << 16, file);
    let mut output = BufWriter::with_capacity(1 << 16, io::stdout().lock());
    serve_reader(&mut input, &mut output, table)
        .and_then(|()| output.flush())
        .map_err(|error| format!("The requests could not be served: {error}."))
}

/// The table in the file, and a fresh one only if there is no such file.
fn load_file(path: &OsStr) -> Result<Table, String> {
    let bytes = match read_table_file(path) {
        Ok(bytes) => bytes,
        Err(error) if error.kind() == ErrorKind::NotFound => return Ok(Table::default()),
        Err(error) => return Err(format!("The table could not be read: {error}.")),
    };
    load(&bytes).ok_or_else(|| {
        "refused 17\nThe table file is not a stored table; nothing was served.".to_string()
    })
}

/// Reads no more than one byte beyond the longest stored table, which is
/// enough to see that a longer file is none.
fn read_table_file(path: &OsStr) -> io::Result<Vec<u8>> {
    let mut bytes = Vec::new();
    File::open(path)?
        .take(LONGEST as u64 + 1)
        .read_to_end(&mut bytes)?;
    Ok(bytes)
}

/// Writes a new file beside the old one and gives it the old one's name.
fn store_file(table: &Table, path: &OsStr) -> io::Result<()> {
    let mut beside = path.to_os_string();
    beside.push(".new");
    let mut file = File::create(&beside)?;
    file.write_all(&store(table))?;
    file.sync_all()?;
    fs::rename(&beside, path)
}
