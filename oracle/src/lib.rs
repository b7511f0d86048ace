//! The published Rust, compiled unchanged, and the components that ask it. `cargo run` records its answers; bench/ links this
//! library, to time the published Rust and to compare with it at scale.

#![allow(dead_code, unused_imports)]

pub mod components;
pub mod core;
pub mod linked;
#[cfg(test)]
mod reached;
pub mod record;
#[cfg(test)]
mod requests;
pub mod utils;
pub mod worker;

// `net`, laid out by build.rs.
include!(concat!(env!("OUT_DIR"), "/tree.rs"));
