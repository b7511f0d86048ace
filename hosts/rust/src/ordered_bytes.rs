//! The receive buffer.

use crate::datagram::Index;
use crate::refusal::{NotAccepted, Refusal, RefusedAt};
use crate::sys::{self, Ack};

const MOST_SLOTS: usize = 2_000;
const WIDEST_SLOT: usize = 65_535;

/// Packets held by number until their bytes are read in order. Owns its slots, (N + 1) × W bytes and 5 for each slot.
#[derive(Clone)]
pub struct OrderedBytes {
    state: sys::OrderedBytes,
    marks: Vec<bool>,
    lengths: Vec<u32>,
    store: Vec<u8>,
}

/// What a read gave.
#[derive(Clone, Copy, Debug, PartialEq, Eq)]
pub struct Consumed {
    /// Packets that left their slots; a packet that was split counts.
    pub num_packets_consumed: usize,
    /// The front packet's number before the read, or 0 where none was held.
    pub base_packet_number: u64,
    /// Bytes given.
    pub bytes_consumed: u64,
}

impl OrderedBytes {
    /// An empty buffer of `slots` (1 to 2,000), each `slot_width` bytes wide (1 to 65,535), that starts at a number. Refusal: 12.
    pub fn new(slots: usize, slot_width: usize, start_packet_number: u64) -> Result<Self, Refusal> {
        // Before the memory is asked for.
        if slots > MOST_SLOTS || slot_width > WIDEST_SLOT {
            return Err(Refusal::Malformed);
        }
        let mut marks = vec![false; slots];
        let mut lengths = vec![0; slots];
        let store = vec![0; (slots + 1) * slot_width];
        // SAFETY: each pointer stands beside the length of its vector; no two of them overlap.
        let started = unsafe {
            sys::bluefin_ordered_bytes_new(
                slot_width,
                start_packet_number,
                marks.as_mut_ptr(),
                marks.len(),
                lengths.as_mut_ptr(),
                lengths.len(),
                store.as_ptr(),
                store.len(),
            )
        };
        let state = Refusal::or(started.refusal, started.state)?;
        Ok(OrderedBytes {
            state,
            marks,
            lengths,
            store,
        })
    }

    /// The first number that is expected.
    pub fn front_number(&self) -> u64 {
        self.state.front_number
    }

    /// Starts at another number. Refusal: 13, where a packet is held.
    pub fn set_start_packet_number(&mut self, start_packet_number: u64) -> Result<(), Refusal> {
        // SAFETY: each pointer stands beside the length of its vector; all are only read.
        let started = unsafe {
            sys::bluefin_ordered_bytes_set_start_packet_number(
                self.state,
                start_packet_number,
                self.marks.as_ptr(),
                self.marks.len(),
                self.lengths.as_ptr(),
                self.lengths.len(),
                self.store.as_ptr(),
                self.store.len(),
            )
        };
        self.state = started.state;
        Refusal::or(started.refusal, ())
    }

    /// Accepts the packet of a number; its payload is copied. Refusals: 5, with an ack, 6, 9, 7, 11 (longer than a slot is wide).
    pub fn buffer_in_packet(&mut self, number: u64, payload: &[u8]) -> Result<(), NotAccepted> {
        // SAFETY: each pointer stands beside the length of its slice; what is written is owned here, so nothing overlaps. A `bool`
        // of Rust is 0 or 1.
        let accepted = unsafe {
            sys::bluefin_ordered_bytes_buffer_in_packet(
                self.state,
                number,
                payload.as_ptr(),
                payload.len(),
                self.marks.as_mut_ptr(),
                self.marks.len(),
                self.lengths.as_mut_ptr(),
                self.lengths.len(),
                self.store.as_mut_ptr(),
                self.store.len(),
            )
        };
        Refusal::or(accepted.refusal, ()).map_err(|refusal| NotAccepted {
            refusal,
            ack: (refusal == Refusal::Below).then_some(Ack {
                base_packet_num: accepted.ack_base,
                num_packets_consumed: accepted.ack_count as u32,
            }),
        })
    }

    /// Whether a read would give something. Refusal: 8.
    pub fn peek(&self) -> Result<(), Refusal> {
        // SAFETY: each pointer stands beside the length of its vector; all are only read.
        let refusal = unsafe {
            sys::bluefin_ordered_bytes_peek(
                self.state,
                self.marks.as_ptr(),
                self.marks.len(),
                self.lengths.as_ptr(),
                self.lengths.len(),
                self.store.as_ptr(),
                self.store.len(),
            )
        };
        Refusal::or(refusal, ())
    }

    /// Reads up to `len` bytes to the start of `buf`. Refusals: 10 (`len` above the buffer's), 8, which may have taken empty packets.
    pub fn consume(&mut self, len: usize, buf: &mut [u8]) -> Result<Consumed, Refusal> {
        // SAFETY: as in `buffer_in_packet`; `buf` is lent alone.
        let read = unsafe {
            sys::bluefin_ordered_bytes_consume(
                self.state,
                len,
                buf.as_mut_ptr(),
                buf.len(),
                self.marks.as_mut_ptr(),
                self.marks.len(),
                self.lengths.as_mut_ptr(),
                self.lengths.len(),
                self.store.as_mut_ptr(),
                self.store.len(),
            )
        };
        self.state = read.state;
        let consumed = Consumed {
            num_packets_consumed: read.num_packets_consumed,
            base_packet_number: read.base_packet_number,
            bytes_consumed: read.bytes_consumed,
        };
        Refusal::or(read.refusal, consumed)
    }

    /// Reads whole pieces, the carry-over and up to `limit` pieces in all: their bytes end to end to the start of `buf`, their lengths
    /// to the start of `list`. Answers the read and the number of pieces. Refusals: 10 (`buf` or `list` too short for all of them), 8.
    pub fn consume_bytes(
        &mut self,
        limit: usize,
        buf: &mut [u8],
        list: &mut [u32],
    ) -> Result<(Consumed, usize), Refusal> {
        // SAFETY: as in `buffer_in_packet`; `buf` and `list` are lent alone.
        let read = unsafe {
            sys::bluefin_ordered_bytes_consume_bytes(
                self.state,
                limit,
                buf.as_mut_ptr(),
                buf.len(),
                list.as_mut_ptr(),
                list.len(),
                self.marks.as_mut_ptr(),
                self.marks.len(),
                self.lengths.as_mut_ptr(),
                self.lengths.len(),
                self.store.as_mut_ptr(),
                self.store.len(),
            )
        };
        self.state = read.state;
        let consumed = Consumed {
            num_packets_consumed: read.num_packets_consumed,
            base_packet_number: read.base_packet_number,
            bytes_consumed: read.bytes_consumed,
        };
        Refusal::or(read.refusal, (consumed, read.pieces))
    }

    /// Lists the packets of a datagram as [`Index::from_bytes_into`] does, and accepts each data packet listed, in order; what each
    /// was answered is in [`Index::answers`], and says where an ack is owed (5). Answers the packets listed. Refusals: those of the
    /// listing, with the packets before the refusal listed and accepted all the same.
    pub fn receive(&mut self, datagram: &[u8], index: &mut Index) -> Result<usize, RefusedAt> {
        index.answers.fill(0);
        // SAFETY: as in `buffer_in_packet`; what the index owns is lent alone.
        let parsed = unsafe {
            sys::bluefin_receive(
                self.state,
                datagram.as_ptr(),
                datagram.len(),
                index.cells.as_mut_ptr(),
                index.cells.len(),
                index.answers.as_mut_ptr(),
                index.answers.len(),
                self.marks.as_mut_ptr(),
                self.marks.len(),
                self.lengths.as_mut_ptr(),
                self.lengths.len(),
                self.store.as_mut_ptr(),
                self.store.len(),
            )
        };
        index.keep(parsed)
    }
}

#[cfg(test)]
mod tests {
    use super::*;

    fn refused<T>(refusal: Refusal) -> Result<T, NotAccepted> {
        Err(NotAccepted { refusal, ack: None })
    }

    #[test]
    fn document_01_samples() {
        let mut buffer = OrderedBytes::new(2_000, 1_500, 100).unwrap();
        let mut buf = [9; 8];
        assert_eq!(buffer.buffer_in_packet(2_099, b""), Ok(()));
        assert_eq!(
            buffer.buffer_in_packet(2_100, b""),
            refused(Refusal::Beyond)
        );
        assert_eq!(buffer.buffer_in_packet(100, b"abcde"), Ok(()));
        assert_eq!(buffer.peek(), Ok(()));
        for (len, told) in [(3, (1, 100, 3)), (0, (0, 0, 0)), (2, (0, 0, 2))] {
            let read = buffer.consume(len, &mut buf).unwrap();
            let read = (
                read.num_packets_consumed,
                read.base_packet_number,
                read.bytes_consumed,
            );
            assert_eq!(read, told);
        }
        assert_eq!(&buf, b"dec\x09\x09\x09\x09\x09");
        assert_eq!(buffer.consume(1, &mut buf), Err(Refusal::Empty));
        assert_eq!(buffer.consume(9, &mut buf), Err(Refusal::BufferShort));
        assert_eq!(buffer.front_number(), 101);
        assert_eq!(buffer.set_start_packet_number(5), Err(Refusal::PacketsHeld));
    }

    #[test]
    fn a_packet_that_was_read_is_acked_again() {
        let mut buffer = OrderedBytes::new(2, 4, 100).unwrap();
        assert_eq!(buffer.buffer_in_packet(100, b"abc"), Ok(()));
        assert!(buffer.consume(3, &mut [0; 3]).is_ok());
        let again = buffer.buffer_in_packet(100, b"abc").unwrap_err();
        let ack = Ack {
            base_packet_num: 100,
            num_packets_consumed: 1,
        };
        assert_eq!((again.refusal, again.ack), (Refusal::Below, Some(ack)));
        assert_eq!(again.to_string(), "refusal 5: Below");
        assert_eq!(buffer.peek(), Err(Refusal::Empty));
    }

    #[test]
    fn pieces() {
        let mut buffer = OrderedBytes::new(3, 4, 0).unwrap();
        assert_eq!(
            buffer.buffer_in_packet(0, b"abcde"),
            refused(Refusal::OutOfRange)
        );
        for (number, payload) in [(1, &b""[..]), (0, b"abcd"), (2, b"ef")] {
            assert_eq!(buffer.buffer_in_packet(number, payload), Ok(()));
        }
        let (mut buf, mut list) = ([0; 6], [7; 3]);
        let (read, pieces) = buffer.consume_bytes(3, &mut buf, &mut list).unwrap();
        assert_eq!((read.num_packets_consumed, pieces), (3, 3));
        assert_eq!((&buf, list), (b"abcdef", [4, 0, 2]));
    }

    #[test]
    fn sizes_out_of_range() {
        for (slots, width) in [
            (0, 1),
            (1, 0),
            (2_001, 1),
            (1, 65_536),
            (usize::MAX, usize::MAX),
        ] {
            assert_eq!(
                OrderedBytes::new(slots, width, 0).err(),
                Some(Refusal::Malformed)
            );
        }
    }
}
