//! The published Rust and this library in one process: what comparing and timing share.

pub mod kept;
pub mod lent;
