//! Small makers of bytes, requests and tables for the tests.

use reference::hex::{from_digits, to_string};
use reference::operation::{sends_entry_version, sends_key, sends_value, BULK_GET_KEYS};
use reference::{step, write_request, Asked, Entry, History, Reply, Request, Table};

/// The five request lines of the scope paper.
pub const FIVE_REQUESTS: &str = "\
00000000 a0010a170000010000
00000004 a0020a010000010000026231640003496461
00000005 a080010a110000010000026231
00000006 a0030a0d00010100000262310000000000000002
00000007 a1
";

/// The five reply lines to them.
pub const FIVE_REPLIES: &str = "\
a101180000
a102020000
a18001120000000000000000000103496461
a1030e010000
a10050810009626164206d61676963
";

/// The stored table after them.
pub const FIVE_STORED: &str = "\
010000000000000001
0000000000000001000000000000006802623103496461
";

/// Bytes from digits; blanks are left out.
pub fn hex(digits: &str) -> Vec<u8> {
    let plain: Vec<u8> = digits.bytes().filter(|byte| *byte != b' ').collect();
    from_digits(&plain).unwrap()
}

pub fn digits(bytes: &[u8]) -> String {
    to_string(bytes)
}

/// A good request of this operation with empty or zero fields, of the first
/// version that has it.
pub fn bare(operation: u8) -> Request {
    Request {
        id: 1,
        version: if operation == BULK_GET_KEYS { 12 } else { 10 },
        operation,
        intelligence: 1,
        ..Request::default()
    }
}

/// What a reply answers, in version 12.
pub fn asked(op: u8, flag: bool) -> Asked {
    Asked {
        version: 12,
        op,
        flag,
    }
}

/// A good request with a key, and with a value where one is sent.
pub fn request(operation: u8, key: &[u8], value: &[u8]) -> Request {
    let mut request = bare(operation);
    if sends_key(operation) {
        request.key = key.to_vec();
    }
    if sends_value(operation) {
        request.value = value.to_vec();
    }
    request
}

/// The same with the flag for the old value.
pub fn flagged(operation: u8, key: &[u8], value: &[u8]) -> Request {
    Request {
        flags: 1,
        ..request(operation, key, value)
    }
}

/// The same with an entry version, for the IfUnmodified operations.
pub fn versioned(operation: u8, key: &[u8], value: &[u8], version: u64) -> Request {
    assert!(sends_entry_version(operation));
    Request {
        entry_version: version,
        ..flagged(operation, key, value)
    }
}

/// The bytes of a request that must be writable.
pub fn bytes_of(request: &Request) -> Vec<u8> {
    let mut out = vec![0; 1000];
    let length = write_request(request, &mut out).unwrap();
    out.truncate(length);
    out
}

pub fn entry(value: &[u8], version: u64, deadline: u64) -> Entry {
    Entry {
        value: value.to_vec(),
        version,
        deadline,
    }
}

/// A table with this many keys of two bytes, versions 1 and up.
pub fn table_of(count: u16) -> Table {
    let mut table = Table::default();
    for number in 0..count {
        table.last += 1;
        let key = number.to_be_bytes().to_vec();
        table.entries.insert(key, entry(b"v", table.last, 0));
    }
    table
}

/// A table with the one key `k`.
pub fn table_with(value: &[u8], version: u64, last: u64) -> Table {
    let mut table = Table {
        last,
        ..Table::default()
    };
    table
        .entries
        .insert(b"k".to_vec(), entry(value, version, 0));
    table
}

/// The table's entries and its last version, with no call remembered.
pub fn contents(table: &Table) -> Table {
    Table {
        history: History::default(),
        ..table.clone()
    }
}

/// Status and value of a step that must not be refused.
pub fn status_and_value(request: &Request, table: &mut Table) -> (u8, Vec<u8>) {
    let reply: Reply = step(request, 0, table).unwrap();
    (reply.status, reply.value)
}
