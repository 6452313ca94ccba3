//! The program.
//!
//! `compare quick [SEED]` compares the library with the reference on a fixed
//! number of inputs. `compare long [SEED] [MINUTES]` does it as long as said
//! and prints the totals every minute. `compare again SEED PART ROUND` plays one
//! round again. `compare bench` measures both.

use std::process::ExitCode;
use std::time::Duration;

use compare::bench;
use compare::difference::Difference;
use compare::ffi::Library;
use compare::run::{self, Part, Totals};

const USAGE: &str = "usage:
  compare quick [SEED]
  compare long [SEED] [MINUTES]
  compare again SEED PART ROUND
  compare bench";

const MINUTES: u64 = 60;
const SEED: u64 = 1;

fn main() -> ExitCode {
    let words: Vec<String> = std::env::args().skip(1).collect();
    let words: Vec<&str> = words.iter().map(String::as_str).collect();
    match command(&words) {
        Some(true) => ExitCode::SUCCESS,
        Some(false) => ExitCode::FAILURE,
        None => {
            eprintln!("{USAGE}");
            ExitCode::from(2)
        }
    }
}

/// Runs the command and says whether all was the same; nothing if there is
/// no such command.
fn command(words: &[&str]) -> Option<bool> {
    let (name, rest) = words.split_first()?;
    match (*name, rest) {
        ("quick", rest) if rest.len() <= 1 => Some(quick(number(rest, 0, SEED)?)),
        ("long", rest) if rest.len() <= 2 => {
            let minutes = number(rest, 1, MINUTES)?;
            let time = Duration::from_secs(minutes.checked_mul(60)?);
            Some(long(number(rest, 0, SEED)?, time))
        }
        ("again", [seed, part, round]) => again(seed.parse().ok()?, part, round.parse().ok()?),
        ("bench", []) => {
            measure();
            Some(true)
        }
        _ => None,
    }
}

/// The number at this place, or the usual one if there is none.
fn number(words: &[&str], at: usize, usual: u64) -> Option<u64> {
    match words.get(at) {
        Some(word) => word.parse().ok(),
        None => Some(usual),
    }
}

/// The parts that the linked library can play.
fn parts() -> Vec<Part<Library>> {
    #[allow(unused_mut)]
    let mut parts = run::parts();
    parts.push(run::keys_part());
    parts.push(run::many_part());
    #[cfg(feature = "lines")]
    parts.push(run::lines_part());
    #[cfg(feature = "stored")]
    parts.push(run::stored_part());
    #[cfg(feature = "stored")]
    parts.push(run::statistics_part());
    #[cfg(feature = "stored")]
    parts.push(run::expiry_part());
    #[cfg(feature = "order")]
    parts.push(run::order_part());
    #[cfg(all(feature = "lines", feature = "stored"))]
    parts.push(run::dates_part());
    parts
}

/// Compares on the inputs of a quick run.
fn quick(seed: u64) -> bool {
    let parts = parts();
    println!("seed {seed}");
    let found = run::all_rounds(&parts, &mut Library, seed);
    shown(&parts, found)
}

/// Compares for this time, and prints the totals every minute.
fn long(seed: u64, time: Duration) -> bool {
    let parts = parts();
    println!("seed {seed}, {} seconds", time.as_secs());
    let every_minute = |totals: &Totals| tell(&parts, totals);
    let found = run::for_time(&parts, &mut Library, seed, time, every_minute);
    shown(&parts, found)
}

fn tell(parts: &[Part<Library>], totals: &Totals) {
    print!("{}", totals.shown(parts));
    println!("{}", totals.last_line());
}

/// Prints what was found, and says whether all was the same.
fn shown(parts: &[Part<Library>], found: Result<Totals, Difference>) -> bool {
    match found {
        Ok(totals) => {
            tell(parts, &totals);
            true
        }
        Err(found) => told(&found),
    }
}

fn told(found: &Difference) -> bool {
    print!("{found}");
    false
}

/// Plays one round of a part again.
fn again(seed: u64, name: &str, round: u64) -> Option<bool> {
    let part = parts().into_iter().find(|part| part.name == name)?;
    match run::play(&part, &mut Library, seed, round) {
        Ok(counts) => {
            println!(
                "{} inputs, 0 differences: {}",
                counts.inputs,
                counts.shown()
            );
            Some(true)
        }
        Err(found) => Some(told(&found)),
    }
}

fn measure() {
    #[allow(unused_mut)]
    let mut rows = bench::rows(&mut Library);
    #[cfg(feature = "lines")]
    rows.push(bench::lines_row(&mut Library));
    println!("{}\n", bench::CONDITIONS);
    print!("{}", bench::shown(&rows));
}
