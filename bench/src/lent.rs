//! The memory of a receive buffer, lent to each call of the archive.

use bluefin::sys;

/// The slots of the published Rust.
pub const SLOTS: usize = 2_000;

/// What a receive buffer is lent at every call.
#[derive(Clone, PartialEq)]
pub struct Lent {
    pub state: sys::OrderedBytes,
    pub marks: Vec<bool>,
    pub lengths: Vec<u32>,
    pub store: Vec<u8>,
}

/// A call's lent slices, in the order in which every call takes them: each a pointer and a length.
macro_rules! lent {
    ($b:expr) => {
        (
            $b.marks.as_mut_ptr(),
            $b.lengths.as_mut_ptr(),
            $b.store.as_mut_ptr(),
        )
    };
}

/// The number of an accept's refusal, or 0. Its ack, which the published Rust does not have, is held against document 02 §3: with 5 that of
/// the packet's number and count 1, else none.
pub fn refusal_in(number: u64, told: sys::Accepted) -> u8 {
    let ack = if told.refusal == 5 {
        (number, 1)
    } else {
        (0, 0)
    };
    assert_eq!((told.ack_base, told.ack_count), ack, "the ack of {number}");
    told.refusal
}

impl Lent {
    #[inline]
    pub fn new(width: usize, start: u64) -> Self {
        Self::with_slots(SLOTS, width, start)
    }

    pub fn with_slots(slots: usize, width: usize, start: u64) -> Self {
        let mut lent = Lent {
            state: sys::OrderedBytes::default(),
            marks: vec![true; slots],
            lengths: vec![u32::MAX; slots],
            store: vec![9; (slots + 1) * width],
        };
        lent.restart(width, start);
        lent
    }

    #[inline]
    pub fn restart(&mut self, width: usize, start: u64) {
        let (slots, (marks, lengths, store)) = (self.marks.len(), lent!(self));
        // SAFETY: here and below, each pointer stands beside the length of its vector, and no two overlap.
        let started = unsafe {
            let length = self.store.len();
            sys::bluefin_ordered_bytes_new(
                width, start, marks, slots, lengths, slots, store, length,
            )
        };
        assert_eq!(started.refusal, 0);
        self.state = started.state;
    }

    #[inline]
    pub fn set_start(&mut self, start: u64) -> u8 {
        let (slots, (marks, lengths, store)) = (self.marks.len(), lent!(self));
        let length = self.store.len();
        // SAFETY: as in `restart`.
        let started = unsafe {
            sys::bluefin_ordered_bytes_set_start_packet_number(
                self.state, start, marks, slots, lengths, slots, store, length,
            )
        };
        self.state = started.state;
        started.refusal
    }

    #[inline]
    pub fn accept(&mut self, number: u64, payload: &[u8]) -> sys::Accepted {
        let (slots, (marks, lengths, store)) = (self.marks.len(), lent!(self));
        let length = self.store.len();
        // SAFETY: as in `restart`.
        unsafe {
            sys::bluefin_ordered_bytes_buffer_in_packet(
                self.state,
                number,
                payload.as_ptr(),
                payload.len(),
                marks,
                slots,
                lengths,
                slots,
                store,
                length,
            )
        }
    }

    #[inline]
    pub fn peek(&mut self) -> u8 {
        let (slots, (marks, lengths, store)) = (self.marks.len(), lent!(self));
        let length = self.store.len();
        // SAFETY: as in `restart`.
        unsafe {
            sys::bluefin_ordered_bytes_peek(self.state, marks, slots, lengths, slots, store, length)
        }
    }

    #[inline]
    pub fn consume(&mut self, len: usize, buf: &mut [u8]) -> sys::Consumed {
        let (slots, (marks, lengths, store)) = (self.marks.len(), lent!(self));
        let length = self.store.len();
        // SAFETY: as in `restart`.
        let read = unsafe {
            sys::bluefin_ordered_bytes_consume(
                self.state,
                len,
                buf.as_mut_ptr(),
                buf.len(),
                marks,
                slots,
                lengths,
                slots,
                store,
                length,
            )
        };
        self.state = read.state;
        read
    }

    #[inline]
    pub fn consume_bytes(
        &mut self,
        limit: usize,
        buf: &mut [u8],
        list: &mut [u32],
    ) -> sys::ConsumedBytes {
        let (slots, (marks, lengths, store)) = (self.marks.len(), lent!(self));
        let length = self.store.len();
        // SAFETY: as in `restart`.
        let read = unsafe {
            sys::bluefin_ordered_bytes_consume_bytes(
                self.state,
                limit,
                buf.as_mut_ptr(),
                buf.len(),
                list.as_mut_ptr(),
                list.len(),
                marks,
                slots,
                lengths,
                slots,
                store,
                length,
            )
        };
        self.state = read.state;
        read
    }

    #[inline]
    pub fn receive(
        &mut self,
        datagram: &[u8],
        index: &mut [u32],
        answers: &mut [u8],
    ) -> sys::Parsed {
        let (slots, (marks, lengths, store)) = (self.marks.len(), lent!(self));
        let length = self.store.len();
        // SAFETY: as in `restart`.
        unsafe {
            sys::bluefin_receive(
                self.state,
                datagram.as_ptr(),
                datagram.len(),
                index.as_mut_ptr(),
                index.len(),
                answers.as_mut_ptr(),
                answers.len(),
                marks,
                slots,
                lengths,
                slots,
                store,
                length,
            )
        }
    }

    /// The payload held at a distance from the front.
    #[inline]
    pub fn held(&self, distance: usize) -> Option<&[u8]> {
        let slot = (self.state.front_slot + distance) % self.marks.len();
        let start = slot * self.state.slot_width;
        self.marks[slot].then(|| &self.store[start..start + self.lengths[slot] as usize])
    }

    #[inline]
    pub fn carried(&self) -> &[u8] {
        let start = self.marks.len() * self.state.slot_width;
        &self.store[start..start + self.state.carry_len]
    }
}
