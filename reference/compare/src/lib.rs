//! Compares the proved library with the reference program on inputs made by
//! a seeded generator, and measures both.
//!
//! Everything is written over the trait `Subject` and its two sisters. The
//! library implements them (`ffi`, feature `library`); for the tests of the
//! harness itself `Echo` does, over the reference, and one fault at a time
//! can be put into it.
//!
//! The parts: `messages` (a), `serving` (b), `streams` (c), `tables` (d),
//! `values` (e), `lines` (f), `stored` (g), `edges` (h), `dates` (i),
//! `keys` (j), `statistics` (k), `bulk` (l), `expiry` (m), `versions` (n),
//! `many` (o), `order` (p).
//!
//! `cargo test --offline` tests the harness without the library. With it:
//! `cargo run --release --offline --features library,lines,stored -- quick`;
//! `lines`, `stored` and `order` can be left out while the library lacks them. The
//! environment variable EXPORTS_DIR names the folder of libexports.a; without
//! it that is target/staticlib of the repository.

pub mod bench;
pub mod bulk;
pub mod calls;
pub mod chance;
pub mod damage;
pub mod dates;
pub mod difference;
pub mod echo;
pub mod edges;
pub mod entries;
pub mod expiry;
#[cfg(feature = "library")]
pub mod ffi;
pub mod fields;
pub mod keys;
pub mod lent;
pub mod lines;
pub mod make;
pub mod many;
pub mod memory;
pub mod messages;
pub mod order;
pub mod run;
pub mod serving;
pub mod statistics;
pub mod stored;
pub mod streams;
pub mod subject;
pub mod tables;
pub mod trial;
pub mod values;
pub mod versions;
pub mod writers;
