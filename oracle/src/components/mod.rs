//! One file for each component: what it is asked, and how the Rust answers.

pub mod acks;
pub mod close_handler;
pub mod header;
pub mod net;
pub mod ordered_bytes;
pub mod packet;
pub mod ring_buffer;
pub mod ring_tests;
pub mod window;
pub mod writer;
