//! The commands that print expected values: one case a line in, one result a
//! line out.

use std::io::{self, BufRead, BufWriter, Write};

use reference::fields::{KEY_LIMIT, NAME_LIMIT, VALUE_LIMIT};
use reference::hex::{from_digits, to_string};
use reference::number::LARGEST_VLONG;
use reference::operation::{greatest_bulk, BULK_GET, BULK_GET_KEYS, STATS};
use reference::{
    is_text, read_limited, read_limited_text, read_number, read_reply, read_request, read_version,
    write_number, Asked, Read, Reply, Request,
};

pub enum Command {
    Number(usize),
    WriteNumber,
    Text,
    Limited(usize),
    LimitedText(usize),
    Version,
    Fields,
    Request,
    Reply(Asked),
}

/// The command that the words of the command line say.
pub fn parse(words: &[&str]) -> Option<Command> {
    let command = match words {
        ["number", "5"] => Command::Number(5),
        ["number", "9"] => Command::Number(9),
        ["write-number"] => Command::WriteNumber,
        ["text"] => Command::Text,
        ["limited", limit] => Command::Limited(limit.parse().ok()?),
        ["limited-text", limit] => Command::LimitedText(limit.parse().ok()?),
        ["version"] => Command::Version,
        ["fields"] => Command::Fields,
        ["request"] => Command::Request,
        ["reply", version, operation, flag] => Command::Reply(Asked {
            version: version.parse().ok()?,
            op: operation_code(operation)?,
            flag: is_set(flag)?,
        }),
        _ => return None,
    };
    Some(command)
}

fn operation_code(word: &str) -> Option<u8> {
    u8::from_str_radix(word, 16).ok()
}

fn is_set(word: &str) -> Option<bool> {
    match word {
        "0" => Some(false),
        "1" => Some(true),
        _ => None,
    }
}

/// Runs the command on every line of standard input.
pub fn run(command: &Command) -> io::Result<()> {
    let mut input = io::stdin().lock();
    let mut output = BufWriter::new(io::stdout().lock());
    let mut line = Vec::new();
    loop {
        line.clear();
        if input.read_until(b'\n', &mut line)? == 0 {
            return output.flush();
        }
        let case = line.trim_ascii();
        let result = result_of(command, case).unwrap_or_else(|| "not a case".to_string());
        writeln!(output, "{result}")?;
    }
}

/// The result line, or nothing if the line is no case.
fn result_of(command: &Command, case: &[u8]) -> Option<String> {
    if let Command::WriteNumber = command {
        return written_number(case);
    }
    if let Command::Fields = command {
        let (letter, digits) = case.split_first()?;
        return result_of(&field_of(*letter)?, digits);
    }
    let bytes = from_digits(case)?;
    let result = match command {
        Command::WriteNumber | Command::Fields => String::new(),
        Command::Number(most) => shown(read_number(&bytes, *most), number_words),
        Command::Text if is_text(&bytes) => "text".to_string(),
        Command::Text => "no text".to_string(),
        Command::Limited(limit) => shown(read_limited(&bytes, *limit), bytes_words),
        Command::LimitedText(limit) => shown(read_limited_text(&bytes, *limit), bytes_words),
        Command::Version => shown(read_version(&bytes), number_words),
        Command::Request => shown(read_request(&bytes), request_words),
        Command::Reply(asked) => shown(read_reply(*asked, &bytes), reply_words),
    };
    Some(result)
}

/// The field that a letter in front of a case stands for.
fn field_of(letter: u8) -> Option<Command> {
    match letter {
        b'i' => Some(Command::Number(5)),
        b'l' => Some(Command::Number(9)),
        b'e' => Some(Command::Version),
        b't' => Some(Command::Text),
        b'n' => Some(Command::LimitedText(NAME_LIMIT)),
        b'k' => Some(Command::Limited(KEY_LIMIT)),
        b'v' => Some(Command::Limited(VALUE_LIMIT)),
        _ => None,
    }
}

/// The digits of a decimal number's wire form. A number above the largest
/// vLong has none.
fn written_number(case: &[u8]) -> Option<String> {
    let number: u64 = std::str::from_utf8(case).ok()?.parse().ok()?;
    if number > LARGEST_VLONG {
        return Some("refused 16".to_string());
    }
    let mut bytes = Vec::new();
    write_number(number, &mut bytes);
    Some(to_string(&bytes))
}

/// A reader's answer in words.
fn shown<T>(answer: Read<T>, words: impl Fn(T, usize) -> String) -> String {
    match answer {
        Read::Whole(thing, taken) => words(thing, taken),
        Read::More => "more".to_string(),
        Read::Refused(number) => format!("refused {number}"),
    }
}

fn number_words(number: u64, taken: usize) -> String {
    format!("whole {number} {taken}")
}

fn bytes_words(bytes: &[u8], taken: usize) -> String {
    format!("whole {} {taken}", to_string(bytes))
}

fn request_words(request: Request, taken: usize) -> String {
    let mut words = format!(
        "whole {taken} id={} version={} operation={} name={} flags={} intelligence={} \
         topology={} key={} lifespan={} max_idle={} entry_version={} value={}",
        request.id,
        request.version,
        request.operation,
        to_string(&request.name),
        request.flags,
        request.intelligence,
        request.topology,
        to_string(&request.key),
        request.lifespan,
        request.max_idle,
        request.entry_version,
        to_string(&request.value),
    );
    if greatest_bulk(request.operation).is_some() {
        words += &format!(" bulk={}", request.bulk);
    }
    words
}

fn reply_words(reply: Reply, taken: usize) -> String {
    let mut words = format!(
        "whole {taken} id={} operation={} status={} version={} value={} text={}",
        reply.id,
        reply.operation,
        reply.status,
        reply.version,
        to_string(&reply.value),
        to_string(&reply.text),
    );
    if reply.operation == STATS + 1 {
        words += &format!(" statistics={:?}", reply.statistics);
    }
    if reply.operation == BULK_GET + 1 || reply.operation == BULK_GET_KEYS + 1 {
        words += &format!(" entries={}", reply.entries.len());
        for entry in &reply.entries {
            words += &format!(" {}:{}", to_string(&entry.key), to_string(&entry.value));
        }
    }
    words
}
