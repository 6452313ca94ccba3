//! The commands for people, and the requests that they stand for. Requests are
//! written by the library.

use std::ffi::OsString;
use std::os::unix::ffi::OsStringExt;

use crate::border::library::{write_request, Asked};
use crate::clock::second;
use crate::failure::Failure;
use crate::lifespan::{self, lifespan};
use crate::limits::{KEY_LIMIT, LONGEST_REQUEST, VALUE_LIMIT};
use crate::options::Words;
use crate::words::shown;

pub const PUT: u8 = 0x01;
pub const GET: u8 = 0x03;
pub const PUT_IF_ABSENT: u8 = 0x05;
pub const REPLACE: u8 = 0x07;
pub const REPLACE_IF_UNMODIFIED: u8 = 0x09;
pub const REMOVE: u8 = 0x0b;
pub const REMOVE_IF_UNMODIFIED: u8 = 0x0d;
pub const CONTAINS_KEY: u8 = 0x0f;
pub const GET_WITH_VERSION: u8 = 0x11;
pub const CLEAR: u8 = 0x13;
pub const STATS: u8 = 0x15;
pub const PING: u8 = 0x17;
pub const BULK_GET: u8 = 0x19;
pub const BULK_GET_KEYS: u8 = 0x1d;
/// The operation code of an error reply.
pub const ERROR: u8 = 0x50;

/// What a command has to be told.
#[derive(Clone, Copy, Debug, PartialEq, Eq)]
pub enum Told {
    Nothing,
    Key,
    KeyAndVersion,
    KeyAndValue,
    KeyVersionAndValue,
}

/// A command: its word, its operation, and what it has to be told.
pub struct Operation {
    pub word: &'static str,
    pub code: u8,
    told: Told,
}

const fn operation(word: &'static str, code: u8, told: Told) -> Operation {
    Operation { word, code, told }
}

const LIST: Operation = operation("list", BULK_GET, Told::Nothing);

pub const OPERATIONS: [Operation; 14] = [
    operation("put", PUT, Told::KeyAndValue),
    operation("get", GET, Told::Key),
    operation("putifabsent", PUT_IF_ABSENT, Told::KeyAndValue),
    operation("replace", REPLACE, Told::KeyAndValue),
    operation(
        "replaceifunmodified",
        REPLACE_IF_UNMODIFIED,
        Told::KeyVersionAndValue,
    ),
    operation("remove", REMOVE, Told::Key),
    operation(
        "removeifunmodified",
        REMOVE_IF_UNMODIFIED,
        Told::KeyAndVersion,
    ),
    operation("contains", CONTAINS_KEY, Told::Key),
    operation("getwithversion", GET_WITH_VERSION, Told::Key),
    operation("clear", CLEAR, Told::Nothing),
    LIST,
    operation("keys", BULK_GET_KEYS, Told::Nothing),
    operation("stats", STATS, Told::Nothing),
    operation("ping", PING, Told::Nothing),
];

impl Operation {
    /// The operation of a command's word.
    pub fn of_word(word: &str) -> Option<&'static Operation> {
        OPERATIONS.iter().find(|one| one.word == word)
    }

    /// The operation with a code.
    pub fn of_code(code: u8) -> Option<&'static Operation> {
        OPERATIONS.iter().find(|one| one.code == code)
    }

    fn sends_value(&self) -> bool {
        matches!(self.told, Told::KeyAndValue | Told::KeyVersionAndValue)
    }

    fn sends_version(&self) -> bool {
        matches!(self.told, Told::KeyAndVersion | Told::KeyVersionAndValue)
    }

    /// Whether a protocol version has it.
    fn is_in(&self, protocol: u8) -> bool {
        self.code != BULK_GET_KEYS || protocol >= 12
    }

    /// Whether it changes an entry, whose value before can be asked for.
    fn has_previous(&self) -> bool {
        self.sends_value() || matches!(self.code, REMOVE | REMOVE_IF_UNMODIFIED)
    }

    /// The options that have a value.
    fn options(&self) -> Vec<&'static str> {
        let mut options = vec!["protocol"];
        if self.sends_value() {
            options.extend(lifespan::OPTIONS);
            options.push("max-idle");
        }
        if self.sends_version() {
            options.push("version");
        }
        if self.code == BULK_GET {
            options.push("count");
        }
        options
    }
}

/// The protocol versions in which requests can be written.
const PROTOCOLS: [u8; 4] = [10, 11, 12, 20];
/// The one in which they are written where none is told: 2.0.
pub const PROTOCOL: u8 = 20;
/// A client that knows of no cluster.
const BASIC: u64 = 1;
/// The message id of the one request that is sent.
pub const ID: u64 = 1;

/// A request to be written.
pub struct Command {
    protocol: u8,
    pub operation: &'static Operation,
    /// Whether the value before is asked for.
    pub previous: bool,
    pub key: Vec<u8>,
    value: Vec<u8>,
    lifespan: u64,
    max_idle: u64,
    entry_version: u64,
    /// How many entries are asked for, 0 for all.
    count: u64,
}

impl Command {
    /// Reads a command's words; `others` are options that have another meaning
    /// for the caller, and `flags` those without a value. A span is counted from
    /// the present second, or from the one of the option `second`.
    pub fn parse(
        given: &[OsString],
        others: &[&str],
        flags: &[&str],
    ) -> Result<(Command, Words), Failure> {
        let word = given.first().ok_or("a command is missing")?;
        let word = word.to_string_lossy();
        let operation = Operation::of_word(&word)
            .ok_or_else(|| format!("there is no command '{}'", shown(word.as_bytes())))?;
        let mut options = operation.options();
        options.extend(others);
        let mut bare = flags.to_vec();
        if operation.has_previous() {
            bare.push("previous");
        }
        let words = Words::part(&given[1..], &options, &bare)?;
        let (key, value) = parts(operation, words.words())?;
        let version = words.number("version", 0..=u64::MAX)?;
        if operation.sends_version() && version.is_none() {
            return Err(format!(
                "{word} needs --version N, as getwithversion prints it"
            ));
        }
        let small = || 0..=u64::from(u32::MAX);
        let now = words.number("second", small())?;
        let now = now.unwrap_or_else(|| u64::from(second()));
        let command = Command {
            protocol: protocol(operation, &words)?,
            operation,
            previous: words.has("previous"),
            key,
            value,
            lifespan: lifespan(&words, now)?,
            max_idle: words.number("max-idle", small())?.unwrap_or(0),
            entry_version: version.unwrap_or(0),
            count: words.number("count", small())?.unwrap_or(0),
        };
        Ok((command, words))
    }

    /// Asks for all entries.
    pub fn list() -> Command {
        Command {
            protocol: PROTOCOL,
            operation: &LIST,
            previous: false,
            key: Vec::new(),
            value: Vec::new(),
            lifespan: 0,
            max_idle: 0,
            entry_version: 0,
            count: 0,
        }
    }

    /// What a reply to it has to be read as.
    pub fn asked(&self) -> Asked {
        Asked {
            version: self.protocol,
            operation: self.operation.code,
            previous: self.previous,
        }
    }

    /// The bytes of the request.
    pub fn request(&self) -> Result<Vec<u8>, Failure> {
        let mut out = vec![0; LONGEST_REQUEST];
        let numbers = [
            ID,
            u64::from(self.protocol),
            u64::from(self.operation.code),
            u64::from(self.previous),
            BASIC,
            0,
            self.lifespan,
            self.max_idle,
            self.entry_version,
            self.count,
        ];
        let size = write_request(&mut out, &numbers, &self.key, &self.value).map_err(|number| {
            format!(
                "refused {number}: a key has at most {KEY_LIMIT} bytes, and a value at most {VALUE_LIMIT}; these have {} and {}",
                self.key.len(),
                self.value.len()
            )
        })?;
        out.truncate(size);
        Ok(out)
    }
}

/// The protocol version that was told, which has to have the operation.
fn protocol(operation: &Operation, words: &Words) -> Result<u8, Failure> {
    let Some(text) = words.text("protocol")? else {
        return Ok(PROTOCOL);
    };
    let protocol = PROTOCOLS
        .into_iter()
        .find(|one| one.to_string() == text)
        .ok_or("--protocol has to be 10, 11, 12 or 20")?;
    match operation.is_in(protocol) {
        true => Ok(protocol),
        false => Err(format!("{} needs --protocol 12 or 20", operation.word)),
    }
}

/// Key and value among the words; neither more nor fewer words.
fn parts(operation: &Operation, words: &[OsString]) -> Result<(Vec<u8>, Vec<u8>), Failure> {
    let wanted = match operation.told {
        Told::Nothing => "no words",
        Told::Key | Told::KeyAndVersion => "KEY",
        Told::KeyAndValue | Told::KeyVersionAndValue => "KEY VALUE",
    };
    let word = |at: usize| words[at].clone().into_vec();
    match (operation.told, words.len()) {
        (Told::Nothing, 0) => Ok((Vec::new(), Vec::new())),
        (Told::Key | Told::KeyAndVersion, 1) => Ok((word(0), Vec::new())),
        (Told::KeyAndValue | Told::KeyVersionAndValue, 2) => Ok((word(0), word(1))),
        _ => Err(format!("{} is followed by {wanted}", operation.word)),
    }
}
