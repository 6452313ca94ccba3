//! A second Hot Rod cache server for protocol versions 10, 11, 12 and 20.
//!
//! It is written for comparison with another server, so it is kept plain:
//! messages own their bytes, the table is a `BTreeMap`, and every message
//! is built whole before it is copied into the caller's buffer.
//!
//! No function here panics, whatever it is given.

#![forbid(unsafe_code)]

pub mod fields;
pub mod hex;
pub mod history;
pub mod keys;
pub mod lines;
pub mod listing;
pub mod map;
pub mod number;
pub mod operation;
pub mod order;
pub mod reply;
pub mod request;
pub mod serve;
pub mod statistics;
pub mod stored;
pub mod text;

pub use fields::{read_limited, read_limited_text, read_version, Read};
pub use history::History;
pub use keys::{same_key, Compared};
pub use lines::{serve_line, serve_lines, serve_reader};
pub use listing::Listed;
pub use map::{is_table, step, Entry, Table};
pub use number::{read_number, write_number};
pub use operation::Asked;
pub use order::list_keys;
pub use reply::{error_reply, read_reply, write_reply, Reply};
pub use request::{read_request, write_request, Request};
pub use serve::{serve, serve_many, serve_stream, Answer, NotServed, StreamAnswer, Verdict};
pub use statistics::Statistics;
pub use stored::{load, store};
pub use text::is_text;
