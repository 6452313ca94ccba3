//! The library's numbers, as include/feyqoolad.h has them. A test below holds
//! them to that file.

/// Bytes of a table.
pub const TABLE_SIZE: usize = 45408;
/// Bytes of a key at most.
pub const KEY_LIMIT: usize = 64;
/// Bytes of a value at most.
pub const VALUE_LIMIT: usize = 256;
/// Bytes of a request at most.
pub const LONGEST_REQUEST: usize = 394;
/// Bytes of a reply at most: those of a reply to bulkGet.
pub const LONGEST_BULK: usize = 41486;
/// The least room for the reply of a call.
pub const REPLY_ROOM: usize = 512;
/// The least room for the reply to bulkGet and bulkGetKeys.
pub const BULK_ROOM: usize = 41600;
/// Keys that a table holds at most.
pub const TABLE_KEYS: usize = 128;
/// Characters of a line of requests at most.
pub const LONGEST_LINE: usize = 1024;
/// Bytes of a stored table at most.
pub const LONGEST_FILE: usize = 86931;
/// Bytes of a listing of keys at most.
pub const LONGEST_KEYS: usize = 8449;

/// Numbers that reading a request tells.
pub const REQUEST_TOLD: usize = 17;
/// Numbers that reading a reply tells.
pub const REPLY_TOLD: usize = 21;
/// Numbers that reading an entry of a bulk reply tells.
pub const ENTRY_TOLD: usize = 6;
/// Numbers that serving a stream tells.
pub const STREAM_TOLD: usize = 3;
/// Numbers that serving many tells of each connection.
pub const SHARE_TOLD: usize = 3;
/// Numbers that writing a request is given.
pub const REQUEST_GIVEN: usize = 10;
/// Numbers that writing a reply is given.
pub const REPLY_GIVEN: usize = 4;

/// Numbers that a stats reply has.
pub const STATISTICS: usize = 9;

/// The code for done; a count of bytes is added to it.
pub const DONE: u64 = 256;
/// The code for replies that have to be taken out first.
pub const REPLY_FULL: u64 = 257;

#[cfg(test)]
mod tests {
    use super::*;

    /// The number that the header gives to a name.
    fn in_header(name: &str) -> Option<u64> {
        let path = concat!(env!("CARGO_MANIFEST_DIR"), "/../include/feyqoolad.h");
        let text = std::fs::read_to_string(path).unwrap();
        let word = format!("#define {name} ");
        let line = text.lines().find_map(|line| line.strip_prefix(&word))?;
        line.split_whitespace().next()?.parse().ok()
    }

    #[test]
    fn numbers_are_those_of_the_header() {
        let numbers = [
            ("FQ_TABLE_SIZE", TABLE_SIZE as u64),
            ("FQ_KEY_LIMIT", KEY_LIMIT as u64),
            ("FQ_VALUE_LIMIT", VALUE_LIMIT as u64),
            ("FQ_LONGEST_REQUEST", LONGEST_REQUEST as u64),
            ("FQ_LONGEST_BULK", LONGEST_BULK as u64),
            ("FQ_REPLY_ROOM", REPLY_ROOM as u64),
            ("FQ_BULK_ROOM", BULK_ROOM as u64),
            ("FQ_TABLE_KEYS", TABLE_KEYS as u64),
            ("FQ_LONGEST_LINE", LONGEST_LINE as u64),
            ("FQ_LONGEST_FILE", LONGEST_FILE as u64),
            ("FQ_LONGEST_KEYS", LONGEST_KEYS as u64),
            ("FQ_REQUEST_TOLD", REQUEST_TOLD as u64),
            ("FQ_REPLY_TOLD", REPLY_TOLD as u64),
            ("FQ_ENTRY_TOLD", ENTRY_TOLD as u64),
            ("FQ_STREAM_TOLD", STREAM_TOLD as u64),
            ("FQ_SHARE_TOLD", SHARE_TOLD as u64),
            ("FQ_REQUEST_GIVEN", REQUEST_GIVEN as u64),
            ("FQ_REPLY_GIVEN", REPLY_GIVEN as u64),
            ("FQ_STATISTICS_GIVEN", STATISTICS as u64),
            ("FQ_DONE", DONE),
            ("FQ_REPLY_FULL", REPLY_FULL),
        ];
        for (name, value) in numbers {
            assert_eq!(in_header(name), Some(value), "{name}");
        }
    }
}
