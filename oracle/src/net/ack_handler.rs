//! Stands in for `net/ack_handler.rs`, which is not published.

use std::sync::{atomic::AtomicU64, Arc, Mutex};

pub struct AckBuffer;

#[derive(Clone)]
pub struct AckConsumer;

impl AckConsumer {
    pub fn new(_: Arc<Mutex<AckBuffer>>, _: Arc<AtomicU64>) -> Self {
        Self
    }

    pub async fn run(&self) {}
}
