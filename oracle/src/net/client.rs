//! Stands in for `net/client.rs`, which is not published.
