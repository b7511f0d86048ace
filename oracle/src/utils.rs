//! utils/: the two published files, each with a child that sees their private fields.

/// `net/mod.rs` imports this name for modules that are not published.
pub fn get_connected_udp_socket() {}

pub mod window {
    include!(concat!(env!("BLUEFIN"), "/utils/window.rs"));

    pub(crate) mod probe {
        use super::*;

        pub(crate) fn expected(w: &SlidingWindow) -> u64 {
            w.smallest_expected_packet_number
        }

        pub(crate) fn held(w: &SlidingWindow) -> Vec<u64> {
            w.ordered_packet_numbers.iter().copied().collect()
        }

        pub(crate) fn reserve(w: &mut SlidingWindow, more: usize) {
            w.ordered_packet_numbers.reserve(more);
        }
    }
}

pub mod ring_buffer {
    include!(concat!(env!("BLUEFIN"), "/utils/ring_buffer.rs"));

    pub(crate) mod probe {
        use super::*;

        /// Head, tail, count, and every cell.
        pub(crate) fn parts<T>(r: &RingBuffer<T>) -> (usize, usize, usize, &[T]) {
            (r.head, r.tail, r.len, &r.buffer)
        }
    }
}
