//! The worked examples of the papers and the cases at the edges.

mod bulk;
mod chance;
mod expiry;
mod help;
mod keys;
mod lines;
mod many;
mod map;
mod number;
mod order;
mod program;
mod reply;
mod request;
mod serve;
mod stats;
mod stored;
mod stream;
mod text;
mod two;
