//! The host of the proved library: a TCP server, and a client for people.
//!
//! Everything that decides about bytes, tables and replies is in the library.
//! The host moves bytes, keeps time and keeps the table's file.

#![deny(unsafe_code)]

pub mod ask;
pub mod batch;
#[allow(unsafe_code)]
pub mod border;
pub mod buffer;
pub mod client;
pub mod clock;
pub mod command;
pub mod connection;
pub mod counts;
pub mod date;
pub mod failure;
pub mod files;
pub mod haste;
pub mod hex;
pub mod json;
pub mod keeper;
pub mod lifespan;
pub mod limits;
pub mod lines;
pub mod log;
pub mod notify;
pub mod options;
pub mod outage;
pub mod page;
pub mod places;
pub mod refusals;
pub mod saver;
pub mod server;
pub mod show;
pub mod usage;
pub mod words;
