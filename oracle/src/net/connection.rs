//! Stands in for `net/connection.rs`, which is not published.

pub struct ConnectionBuffer;

pub struct ConnectionManager;
