//! How many files may be open, and so how many connections.

use std::fs;

use crate::border::system::raise_files;
use crate::failure::{because, say, Failure};
use crate::page;
use crate::server::TOLD;

/// The files of a server: its listener, the table's folder, two polls, the
/// signals, the file that becomes the table, and a connection that is closed at
/// once.
const OWN: u64 = 7;
/// Those that are open at the start, where the system does not tell.
const STANDARD: u64 = 3;

/// Lets as many files be open as the system permits. Answers how many
/// connections fit, at most those that are wanted, and says so where these are
/// fewer: one more would take the file by which the table is stored.
pub fn fitting(wanted: u64, with_page: bool) -> Result<u64, Failure> {
    let most = raise_files().map_err(|error| because("can't tell how many files", error))?;
    let page = if with_page { page::FILES } else { 0 };
    let others = open_files() + OWN + TOLD as u64 + page;
    let fit = most.saturating_sub(others).min(wanted);
    if fit == 0 {
        return Err(format!(
            "the system permits {most} open files, and {} are needed for one connection.\nRaise that limit ('ulimit -n'). Nothing was done.",
            others + 1
        ));
    }
    if fit < wanted {
        say(format!(
            "warning: the system permits {most} open files, so --connections is {fit}, and not {wanted}"
        ));
    }
    Ok(fit)
}

/// How many files are open.
fn open_files() -> u64 {
    match fs::read_dir("/proc/self/fd") {
        // One of them is the folder that is looked at.
        Ok(open) => (open.count() as u64).saturating_sub(1),
        Err(_) => STANDARD,
    }
}
