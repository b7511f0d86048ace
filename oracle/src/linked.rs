//! What the published files keep to their own crate, for a program that links this one. Each call is passed on, inlined.

use crate::core::packet::BluefinPacket;
use crate::net::ordered_bytes;
use crate::utils::window;
use bluefin_proto::BluefinResult;
use bytes::Bytes;

pub use crate::worker::writer::probe::{consume_data_into, AckQueue};

/// net/ordered_bytes.rs, on the heap: it is large.
#[derive(Clone)]
pub struct OrderedBytes(Box<ordered_bytes::OrderedBytes>);

/// Packets taken, base number, bytes given.
pub type Read = (usize, u64, u64);

impl OrderedBytes {
    pub fn new(start_packet_number: u64) -> Self {
        Self(Box::new(ordered_bytes::OrderedBytes::new(
            0,
            start_packet_number,
        )))
    }

    #[inline]
    pub fn buffer_in_packet(&mut self, packet: BluefinPacket) -> BluefinResult<()> {
        self.0.buffer_in_packet(packet)
    }

    #[inline]
    pub fn consume(&mut self, len: usize, buf: &mut [u8]) -> BluefinResult<Read> {
        self.0.consume(len, buf).map(read)
    }

    #[inline]
    pub fn consume_bytes(&mut self, out: &mut Vec<Bytes>, limit: usize) -> BluefinResult<Read> {
        self.0.consume_bytes(out, limit).map(read)
    }

    /// Front number, the held payloads by distance from the front, and the carry-over (empty if none).
    pub fn parts(&self) -> (u64, Vec<Option<Bytes>>, Bytes) {
        ordered_bytes::probe::parts(&self.0)
    }

    /// The slot of the front number.
    pub fn front_slot(&self) -> usize {
        ordered_bytes::probe::front_slot(&self.0)
    }
}

#[inline]
fn read(told: ordered_bytes::ConsumeResult) -> Read {
    (
        told.get_num_packets_consumed(),
        told.get_base_packet_number(),
        told.get_bytes_consumed(),
    )
}

/// utils/window.rs.
#[derive(Clone)]
pub struct SlidingWindow(window::SlidingWindow);

impl SlidingWindow {
    #[inline]
    pub fn new(smallest_expected: u64) -> Self {
        Self(window::SlidingWindow::new(smallest_expected))
    }

    #[inline]
    pub fn insert_packet_number(&mut self, number: u64) -> BluefinResult<()> {
        self.0.insert_packet_number(number)
    }

    #[inline]
    pub fn insert_range(&mut self, base: u64, count: u16) -> BluefinResult<()> {
        self.0.insert_range(base, count)
    }

    /// The run's last number and its length.
    #[inline]
    pub fn consume(&mut self) -> Option<(u64, u64)> {
        let run = self.0.consume()?;
        Some((run.largest_packet_number, run.num_acks_consumed))
    }

    /// Room for more numbers. A window that has been in use has it; a copy of one has not.
    pub fn reserve(&mut self, more: usize) {
        window::probe::reserve(&mut self.0, more);
    }

    pub fn expected(&self) -> u64 {
        window::probe::expected(&self.0)
    }

    pub fn held(&self) -> Vec<u64> {
        window::probe::held(&self.0)
    }
}
