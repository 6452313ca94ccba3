//! `show TABLE` and `sheet TABLE`: a stored table and its keys in words. The file
//! is read and nothing else is touched: the library loads it into memory, and is
//! asked there for the entries.

use std::fs::{self, File};
use std::io::ErrorKind;
use std::path::Path;

use crate::border::library::{entries, entries_at, read_reply, Found, Reply, Table};
use crate::command::Command;
use crate::date::date;
use crate::failure::{because, Failure};
use crate::keeper::{broken, read_table};
use crate::limits::BULK_ROOM;
use crate::server::second;
use crate::words::{of_entry, of_keys, NO_ENTRIES};

/// The words for the table that a file stores: a line for each entry, with its
/// version, and with its deadline where it has one.
pub fn show(path: &Path) -> Result<String, Failure> {
    let bytes = read(path)?;
    let (reply, listed) = list(load(path, &bytes)?)?;
    let stored = bytes.split(|byte| *byte == b'\n').skip(1);
    let mut lines = String::new();
    for (entry, line) in entries(&listed, &reply, true).into_iter().zip(stored) {
        let (version, deadline) = (number(&line[..16]), number(&line[16..32]));
        let words = (of_deadline(deadline), of_entry(entry));
        lines.push_str(&format!("version {version}{}: {}\n", words.0, words.1));
    }
    if lines.is_empty() {
        lines = format!("{NO_ENTRIES}\n");
    }
    Ok(lines)
}

/// The keys of the table that a file stores, in their order, a line for each.
pub fn sheet(path: &Path) -> Result<String, Failure> {
    let bytes = read(path)?;
    let listed = load(path, &bytes)?.list_keys();
    let mut keys = of_keys(entries_at(&listed, 0, false));
    if keys.is_empty() {
        keys.push_str(NO_ENTRIES);
    }
    Ok(keys + "\n")
}

/// The table that these bytes of a file store.
fn load(path: &Path, bytes: &[u8]) -> Result<Table, Failure> {
    Table::load(bytes)
        .ok_or_else(|| format!("{}\nThe file was left as it is.", broken(path, bytes)))
}

/// The words for a deadline; 0 is none.
fn of_deadline(deadline: u64) -> String {
    match deadline {
        0 => String::new(),
        past if past <= u64::from(second()) => format!(", expired {}", date(past)),
        _ => format!(", until {}", date(deadline)),
    }
}

/// The number in sixteen digits. Such are the version and the deadline with
/// which the line of an entry begins, in a file that the library has judged.
fn number(digits: &[u8]) -> u64 {
    let digits = std::str::from_utf8(digits).unwrap_or_default();
    u64::from_str_radix(digits, 16).expect("fq_load takes a line without numbers")
}

fn read(path: &Path) -> Result<Vec<u8>, Failure> {
    let shown = path.display();
    let kind = fs::metadata(path).map_err(|error| match error.kind() {
        ErrorKind::NotFound => format!("there is no table {shown}"),
        _ => because(format!("can't look at the table {shown}"), error),
    })?;
    if !kind.is_file() {
        return Err(format!("the table {shown} is not a file"));
    }
    File::open(path)
        .and_then(read_table)
        .map_err(|error| because(format!("can't read the table {shown}"), error))
}

/// The reply that lists all entries, in the order of their lines, and its bytes.
/// At second 0 none of them has expired.
fn list(mut table: Table) -> Result<(Reply, Vec<u8>), Failure> {
    let command = Command::list();
    let mut bytes = vec![0; BULK_ROOM];
    let request = command.request()?;
    let mut told = Vec::new();
    let ends = [request.len() as u64];
    let served = table
        .serve_many(&request, &ends, 0, &mut bytes, &mut told)
        .next()
        .expect("one connection is served");
    bytes.truncate(served.replied);
    match read_reply(&bytes, command.asked()) {
        Found::Whole(reply) => Ok((reply, bytes)),
        _ => Err("the library gives no reply".to_string()),
    }
}
