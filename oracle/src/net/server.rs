//! Stands in for `net/server.rs`, which is not published.
