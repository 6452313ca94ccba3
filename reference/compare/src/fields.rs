//! A message as a list of fields, so that one of them can be found or broken.

use reference::fields::{KEY_LIMIT, NAME_LIMIT, TEXT_LIMIT, VALUE_LIMIT};
use reference::operation::{
    body, greatest_bulk, greatest_flags, sends_entry_version, sends_key, sends_value, Body, ERROR,
    TWO,
};
use reference::{statistics, write_number, Listed, Reply, Request, Statistics};

use crate::subject::Asked;

#[derive(Clone, Copy, Debug, PartialEq, Eq)]
pub enum Kind {
    Byte,
    /// A vLong.
    Long,
    /// A vInt.
    Int,
    /// A vInt that has to be this number.
    Just(usize),
    /// A vInt up to this number.
    UpTo(usize),
    /// A vInt that is the length of the field behind it, with its limit.
    Length(usize),
    /// An entry version.
    Eight,
    Name,
    Key,
    Value,
    Text,
    /// The name of a statistic.
    Title,
    /// The value of a statistic.
    Decimal,
    /// The byte before an entry and behind the last.
    More,
}

#[derive(Clone, Debug)]
pub struct Field {
    pub kind: Kind,
    pub bytes: Vec<u8>,
}

fn field(kind: Kind, bytes: &[u8]) -> Field {
    Field {
        kind,
        bytes: bytes.to_vec(),
    }
}

fn number(kind: Kind, number: u64) -> Field {
    let mut bytes = Vec::new();
    write_number(number, &mut bytes);
    Field { kind, bytes }
}

/// A length and the bytes themselves.
fn limited(fields: &mut Vec<Field>, kind: Kind, limit: usize, bytes: &[u8]) {
    fields.push(number(Kind::Length(limit), bytes.len() as u64));
    fields.push(field(kind, bytes));
}

/// The fields of a request, whether or not it keeps the rules.
pub fn of_request(request: &Request) -> Vec<Field> {
    let op = request.operation;
    let mut fields = header(request);
    if sends_key(op) {
        limited(&mut fields, Kind::Key, KEY_LIMIT, &request.key);
    }
    if sends_value(op) {
        fields.push(number(Kind::Int, u64::from(request.lifespan)));
        fields.push(number(Kind::Int, u64::from(request.max_idle)));
    }
    if sends_entry_version(op) {
        fields.push(field(Kind::Eight, &request.entry_version.to_be_bytes()));
    }
    if sends_value(op) {
        limited(&mut fields, Kind::Value, VALUE_LIMIT, &request.value);
    }
    if let Some(greatest) = greatest_bulk(op) {
        let kind = Kind::UpTo(greatest as usize);
        fields.push(number(kind, u64::from(request.bulk)));
    }
    fields
}

fn header(request: &Request) -> Vec<Field> {
    let mut fields = vec![
        field(Kind::Byte, &[0xa0]),
        number(Kind::Long, request.id),
        field(Kind::Byte, &[request.version]),
        field(Kind::Byte, &[request.operation]),
    ];
    limited(&mut fields, Kind::Name, NAME_LIMIT, &request.name);
    let greatest = greatest_flags(request.version) as usize;
    fields.push(number(Kind::UpTo(greatest), u64::from(request.flags)));
    fields.push(field(Kind::Byte, &[request.intelligence]));
    fields.push(number(Kind::Int, u64::from(request.topology)));
    // The transaction type.
    if request.version != TWO {
        fields.push(field(Kind::Byte, &[0]));
    }
    fields
}

/// The fields of a reply, whether or not it keeps the rules.
pub fn of_reply(asked: Asked, reply: &Reply) -> Vec<Field> {
    let mut fields = vec![
        field(Kind::Byte, &[0xa1]),
        number(Kind::Long, reply.id),
        field(Kind::Byte, &[reply.operation]),
        field(Kind::Byte, &[reply.status]),
        field(Kind::Byte, &[0]),
    ];
    if reply.operation == ERROR {
        limited(&mut fields, Kind::Text, TEXT_LIMIT, &reply.text);
        return fields;
    }
    match body(asked, reply.status) {
        Body::Nothing => {}
        Body::EmptyValue => limited(&mut fields, Kind::Value, 0, &reply.value),
        Body::Value => limited(&mut fields, Kind::Value, VALUE_LIMIT, &reply.value),
        Body::VersionAndValue => {
            fields.push(field(Kind::Eight, &reply.version.to_be_bytes()));
            limited(&mut fields, Kind::Value, VALUE_LIMIT, &reply.value);
        }
        Body::Statistics => of_statistics(&mut fields, &reply.statistics),
        Body::Entries => of_entries(&mut fields, &reply.entries, true),
        Body::Keys => of_entries(&mut fields, &reply.entries, false),
    }
    fields
}

fn of_statistics(fields: &mut Vec<Field>, numbers: &Statistics) {
    fields.push(number(Kind::Just(numbers.len()), numbers.len() as u64));
    for (name, value) in statistics::NAMES.iter().zip(numbers) {
        limited(fields, Kind::Title, statistics::NAME_LIMIT, name.as_bytes());
        let digits = value.to_string();
        limited(
            fields,
            Kind::Decimal,
            statistics::VALUE_LIMIT,
            digits.as_bytes(),
        );
    }
}

fn of_entries(fields: &mut Vec<Field>, entries: &[Listed], values: bool) {
    for entry in entries {
        fields.push(field(Kind::More, &[1]));
        limited(fields, Kind::Key, KEY_LIMIT, &entry.key);
        if values {
            limited(fields, Kind::Value, VALUE_LIMIT, &entry.value);
        }
    }
    fields.push(field(Kind::More, &[0]));
}

pub fn join(fields: &[Field]) -> Vec<u8> {
    fields
        .iter()
        .flat_map(|field| field.bytes.clone())
        .collect()
}

/// The bytes of all fields.
pub fn length(fields: &[Field]) -> usize {
    fields.iter().map(|field| field.bytes.len()).sum()
}

/// Where the first field of this kind begins, and 0 if there is none.
pub fn place(fields: &[Field], kind: Kind) -> usize {
    let mut at = 0;
    for field in fields {
        if field.kind == kind {
            return at;
        }
        at += field.bytes.len();
    }
    0
}

#[cfg(test)]
mod tests {
    use super::*;
    use crate::chance::Chance;
    use crate::make;
    use reference::serve::BULK_ROOM;
    use reference::{write_reply, write_request};

    #[test]
    fn joined_fields_are_what_the_reference_writes() {
        let mut chance = Chance::new(1);
        for _ in 0..2000 {
            let request = make::request(&mut chance);
            let bytes = join(&of_request(&request));
            let mut out = [0; BULK_ROOM];
            assert_eq!(write_request(&request, &mut out), Ok(bytes.len()));
            assert_eq!(out[..bytes.len()], bytes);
            let (asked, reply) = make::reply(&mut chance);
            let bytes = join(&of_reply(asked, &reply));
            let written = write_reply(asked, &reply, &mut out);
            assert_eq!(written, Ok(bytes.len()));
            assert_eq!(out[..bytes.len()], bytes);
        }
    }
}
