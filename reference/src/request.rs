//! Requests: reading and writing.

use crate::fields::{
    copy_out, write_eight, write_limited, Cursor, Read, Stop, KEY_LIMIT, NAME_LIMIT, VALUE_LIMIT,
};
use crate::number::{write_number, LARGEST_VLONG};
use crate::operation::{
    greatest_bulk, greatest_flags, is_version, sends_entry_version, sends_key, sends_value, serves,
    Asked, TWO,
};
use crate::text::is_text;

/// The first byte of every request.
pub const MAGIC: u8 = 0xa0;

/// The flag that asks for the old value.
pub const FLAG_OLD_VALUE: u32 = 1;
/// The flag that asks for no lifespan of the entry's own.
pub const FLAG_DEFAULT_LIFESPAN: u32 = 2;

/// A request. A field that its operation does not send is zero or empty.
/// The transaction type is not held: where it is sent, it is 0.
#[derive(Clone, Debug, Default, PartialEq, Eq)]
pub struct Request {
    /// The message id.
    pub id: u64,
    /// The protocol version: 10, 11, 12 or 20.
    pub version: u8,
    pub operation: u8,
    /// The cache name.
    pub name: Vec<u8>,
    pub flags: u32,
    /// The client intelligence.
    pub intelligence: u8,
    /// The topology id.
    pub topology: u32,
    pub key: Vec<u8>,
    pub lifespan: u32,
    pub max_idle: u32,
    pub entry_version: u64,
    pub value: Vec<u8>,
    /// The entry count of bulkGet, 0 for all, or the scope of bulkGetKeys.
    pub bulk: u32,
}

impl Request {
    /// What its reply is an answer to.
    pub fn asked(&self) -> Asked {
        Asked {
            version: self.version,
            op: self.operation,
            flag: self.flags & FLAG_OLD_VALUE != 0,
        }
    }
}

/// Whether a request of this version has a transaction type.
fn has_transaction_type(version: u8) -> bool {
    version != TWO
}

fn is_intelligence(intelligence: u8) -> bool {
    (1..=3).contains(&intelligence)
}

/// Reads the request at the front of the bytes.
pub fn read_request(bytes: &[u8]) -> Read<Request> {
    let mut cursor = Cursor::new(bytes);
    let request = read_fields(&mut cursor);
    cursor.answer(request)
}

/// The message id of the request at the front of the bytes, and 0 if the
/// reader does not come to its end.
pub fn message_id(bytes: &[u8]) -> u64 {
    let mut cursor = Cursor::new(bytes);
    read_id(&mut cursor).unwrap_or(0)
}

fn read_id(cursor: &mut Cursor) -> Result<u64, Stop> {
    cursor.byte(|byte| byte == MAGIC, 1)?;
    cursor.vlong()
}

fn read_header(cursor: &mut Cursor) -> Result<Request, Stop> {
    let id = read_id(cursor)?;
    let version = cursor.byte(is_version, 3)?;
    let operation = cursor.byte(|operation| serves(version, operation), 4)?;
    let name = cursor.limited_text(NAME_LIMIT)?;
    let flags = cursor.vint()?;
    if flags > greatest_flags(version) {
        return Err(Stop::Refused(8));
    }
    let intelligence = cursor.byte(is_intelligence, 8)?;
    let topology = cursor.vint()?;
    if has_transaction_type(version) {
        cursor.byte(|transaction_type| transaction_type == 0, 8)?;
    }
    Ok(Request {
        id,
        version,
        operation,
        name,
        flags,
        intelligence,
        topology,
        ..Request::default()
    })
}

fn read_fields(cursor: &mut Cursor) -> Result<Request, Stop> {
    let mut request = read_header(cursor)?;
    if sends_key(request.operation) {
        request.key = cursor.limited(KEY_LIMIT)?;
    }
    if sends_value(request.operation) {
        request.lifespan = cursor.vint()?;
        request.max_idle = cursor.vint()?;
    }
    if sends_entry_version(request.operation) {
        request.entry_version = cursor.eight()?;
    }
    if sends_value(request.operation) {
        request.value = cursor.limited(VALUE_LIMIT)?;
    }
    if let Some(greatest) = greatest_bulk(request.operation) {
        request.bulk = cursor.vint()?;
        if request.bulk > greatest {
            return Err(Stop::Refused(8));
        }
    }
    Ok(request)
}

/// Whether the request breaks no rule, so that it can be written and read
/// back as itself.
pub fn keeps_rules(request: &Request) -> bool {
    header_keeps_rules(request) && body_keeps_rules(request)
}

fn header_keeps_rules(request: &Request) -> bool {
    request.id <= LARGEST_VLONG
        && is_version(request.version)
        && serves(request.version, request.operation)
        && request.name.len() <= NAME_LIMIT
        && is_text(&request.name)
        && request.flags <= greatest_flags(request.version)
        && is_intelligence(request.intelligence)
}

fn body_keeps_rules(request: &Request) -> bool {
    let key_limit = if sends_key(request.operation) {
        KEY_LIMIT
    } else {
        0
    };
    let value_limit = if sends_value(request.operation) {
        VALUE_LIMIT
    } else {
        0
    };
    request.key.len() <= key_limit
        && request.value.len() <= value_limit
        && (sends_value(request.operation) || request.lifespan == 0)
        && (sends_value(request.operation) || request.max_idle == 0)
        && (sends_entry_version(request.operation) || request.entry_version == 0)
        && request.bulk <= greatest_bulk(request.operation).unwrap_or(0)
}

fn request_bytes(request: &Request) -> Vec<u8> {
    let mut out = vec![MAGIC];
    write_number(request.id, &mut out);
    out.push(request.version);
    out.push(request.operation);
    write_limited(&request.name, &mut out);
    write_number(u64::from(request.flags), &mut out);
    out.push(request.intelligence);
    write_number(u64::from(request.topology), &mut out);
    if has_transaction_type(request.version) {
        out.push(0);
    }
    if sends_key(request.operation) {
        write_limited(&request.key, &mut out);
    }
    if sends_value(request.operation) {
        write_number(u64::from(request.lifespan), &mut out);
        write_number(u64::from(request.max_idle), &mut out);
    }
    if sends_entry_version(request.operation) {
        write_eight(request.entry_version, &mut out);
    }
    if sends_value(request.operation) {
        write_limited(&request.value, &mut out);
    }
    if greatest_bulk(request.operation).is_some() {
        write_number(u64::from(request.bulk), &mut out);
    }
    out
}

/// Writes the request to the front of the buffer and gives its length.
/// A request that breaks a rule is 16; too little room is 12. On a refusal
/// nothing is written.
pub fn write_request(request: &Request, out: &mut [u8]) -> Result<usize, u8> {
    if !keeps_rules(request) {
        return Err(16);
    }
    copy_out(&request_bytes(request), out)
}
