//! The Rust of docs/src as it was published, and its answers in document 01's terms.
//! One source for two packages: one with 01's stand-in for the search, one with
//! the real petgraph.

mod hall;
mod layout;

pub use hall::Hall;

include!(concat!(env!("OUT_DIR"), "/modules.rs"));
