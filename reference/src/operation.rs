//! The served versions and operations: their codes, and which fields and
//! statuses each has.

/// The protocol versions 1.0, 1.1, 1.2 and 2.0.
pub const VERSIONS: [u8; 4] = [10, 11, 12, 20];

/// The version whose requests have no transaction type, and whose replies say
/// by their status whether an old value follows.
pub const TWO: u8 = 20;

pub fn is_version(version: u8) -> bool {
    VERSIONS.contains(&version)
}

/// The greatest flags of a request of this version.
pub fn greatest_flags(version: u8) -> u32 {
    match version {
        10 | 11 => 1,
        12 => 7,
        _ => 31,
    }
}

pub const PUT: u8 = 0x01;
pub const GET: u8 = 0x03;
pub const PUT_IF_ABSENT: u8 = 0x05;
pub const REPLACE: u8 = 0x07;
pub const REPLACE_IF_UNMODIFIED: u8 = 0x09;
pub const REMOVE: u8 = 0x0b;
pub const REMOVE_IF_UNMODIFIED: u8 = 0x0d;
pub const CONTAINS_KEY: u8 = 0x0f;
pub const GET_WITH_VERSION: u8 = 0x11;
pub const CLEAR: u8 = 0x13;
pub const STATS: u8 = 0x15;
pub const PING: u8 = 0x17;
pub const BULK_GET: u8 = 0x19;
pub const BULK_GET_KEYS: u8 = 0x1d;

/// The operation code of an error reply.
pub const ERROR: u8 = 0x50;

/// All served operations, as request codes.
pub const SERVED: [u8; 14] = [
    PUT,
    GET,
    PUT_IF_ABSENT,
    REPLACE,
    REPLACE_IF_UNMODIFIED,
    REMOVE,
    REMOVE_IF_UNMODIFIED,
    CONTAINS_KEY,
    GET_WITH_VERSION,
    CLEAR,
    STATS,
    PING,
    BULK_GET,
    BULK_GET_KEYS,
];

pub fn is_served(operation: u8) -> bool {
    SERVED.contains(&operation)
}

/// Whether the operation is served in this protocol version: bulkGetKeys is
/// there from 12 on.
pub fn serves(version: u8, operation: u8) -> bool {
    is_served(operation) && (operation != BULK_GET_KEYS || version >= 12)
}

/// Whether a request of this operation sends a key.
pub fn sends_key(operation: u8) -> bool {
    is_served(operation) && !matches!(operation, CLEAR | STATS | PING | BULK_GET | BULK_GET_KEYS)
}

/// The greatest number that a bulk request of this operation asks with: an
/// entry count is any vInt, a scope is 0, 1 or 2. The others send none.
pub fn greatest_bulk(operation: u8) -> Option<u32> {
    match operation {
        BULK_GET => Some(u32::MAX),
        BULK_GET_KEYS => Some(2),
        _ => None,
    }
}

/// Whether a request of this operation sends lifespan, max idle and value.
pub fn sends_value(operation: u8) -> bool {
    matches!(
        operation,
        PUT | PUT_IF_ABSENT | REPLACE | REPLACE_IF_UNMODIFIED
    )
}

/// Whether a request of this operation sends an entry version.
pub fn sends_entry_version(operation: u8) -> bool {
    matches!(operation, REPLACE_IF_UNMODIFIED | REMOVE_IF_UNMODIFIED)
}

/// What a reply is an answer to: the request's protocol version and operation,
/// and whether it asked for the old value.
#[derive(Clone, Copy, Debug, PartialEq, Eq)]
pub struct Asked {
    pub version: u8,
    pub op: u8,
    pub flag: bool,
}

impl Asked {
    /// The refusal of a reader that is told this: 3 for a version that is not
    /// served, then 4 for an operation that the version does not have.
    pub fn refusal(self) -> Option<u8> {
        if !is_version(self.version) {
            return Some(3);
        }
        (!serves(self.version, self.op)).then_some(4)
    }

    /// Whether the request asks for an old value, by an operation that has one.
    pub fn wants_old_value(self) -> bool {
        self.flag && has_old_value(self.op)
    }

    /// Whether the status says that an old value follows.
    pub fn tells_by_status(self) -> bool {
        self.version == TWO && self.wants_old_value()
    }
}

/// Whether the reply to this operation may have an old value.
pub fn has_old_value(operation: u8) -> bool {
    matches!(
        operation,
        PUT | PUT_IF_ABSENT | REPLACE | REPLACE_IF_UNMODIFIED | REMOVE | REMOVE_IF_UNMODIFIED
    )
}

/// Done, and the old value follows.
pub const DONE_WITH_OLD: u8 = 3;
/// Not done, and the old value follows.
pub const NOT_DONE_WITH_OLD: u8 = 4;

/// Whether a request can be answered with this status.
pub fn may_answer(asked: Asked, status: u8) -> bool {
    if asked.tells_by_status() {
        return may_answer_with_old(asked.op, status);
    }
    may_answer_plainly(asked.op, status)
}

/// The statuses of version 20 where the old value is asked for. Where the key
/// was held 03 stands for 00 and 04 for 01, so that no 00 and no 01 is left to
/// an operation that gives it only to a key that was held.
fn may_answer_with_old(operation: u8, status: u8) -> bool {
    match operation {
        PUT => status == 0 || status == DONE_WITH_OLD,
        PUT_IF_ABSENT => status == 0 || status == NOT_DONE_WITH_OLD,
        REPLACE => status == 1 || status == DONE_WITH_OLD,
        REMOVE => status == 2 || status == DONE_WITH_OLD,
        REPLACE_IF_UNMODIFIED | REMOVE_IF_UNMODIFIED => (2..=4).contains(&status),
        _ => false,
    }
}

/// Whether the reply table lists this status for this operation.
fn may_answer_plainly(operation: u8, status: u8) -> bool {
    match operation {
        PUT | CLEAR | STATS | PING | BULK_GET | BULK_GET_KEYS => status == 0,
        PUT_IF_ABSENT | REPLACE => status == 0 || status == 1,
        REPLACE_IF_UNMODIFIED | REMOVE_IF_UNMODIFIED => status <= 2,
        REMOVE | GET | GET_WITH_VERSION | CONTAINS_KEY => status == 0 || status == 2,
        _ => false,
    }
}

/// What follows the marker in a reply that is no error.
#[derive(Clone, Copy, Debug, PartialEq, Eq)]
pub enum Body {
    Nothing,
    /// A length up to the value limit and so many bytes.
    Value,
    /// A length that must be 0.
    EmptyValue,
    /// An entry version, then a length and so many bytes.
    VersionAndValue,
    /// The nine statistics.
    Statistics,
    /// Keys and values, each entry behind a byte 1, and a byte 0.
    Entries,
    /// The same with keys alone.
    Keys,
}

/// The body of the reply with this status.
pub fn body(asked: Asked, status: u8) -> Body {
    match asked.op {
        GET if status == 0 => Body::Value,
        GET_WITH_VERSION if status == 0 => Body::VersionAndValue,
        STATS if status == 0 => Body::Statistics,
        BULK_GET if status == 0 => Body::Entries,
        BULK_GET_KEYS if status == 0 => Body::Keys,
        _ if asked.tells_by_status() => match status {
            DONE_WITH_OLD | NOT_DONE_WITH_OLD => Body::Value,
            _ => Body::Nothing,
        },
        _ if asked.wants_old_value() => old_value(asked.op, status),
        _ => Body::Nothing,
    }
}

/// In versions 10 to 12 the old value is empty where the status says that the key was absent, and
/// at status 01 of the two IfUnmodified operations.
fn old_value(operation: u8, status: u8) -> Body {
    match (operation, status) {
        (PUT_IF_ABSENT, 0) => Body::EmptyValue,
        (REPLACE, 1) => Body::EmptyValue,
        (REPLACE_IF_UNMODIFIED, 1 | 2) => Body::EmptyValue,
        (REMOVE, 2) => Body::EmptyValue,
        (REMOVE_IF_UNMODIFIED, 1 | 2) => Body::EmptyValue,
        _ => Body::Value,
    }
}
