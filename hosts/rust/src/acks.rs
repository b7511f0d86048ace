//! The queue of acks to send, and packing them.

use crate::refusal::Refusal;
use crate::sys::{self, Ack};

/// A ring of acks. Owns a record of 16 bytes for each ack that it has room for.
#[derive(Clone)]
pub struct AckRing {
    ring: sys::Ring,
    records: Vec<Ack>,
}

/// What packing acks did.
#[derive(Clone, Copy, Debug, PartialEq, Eq)]
pub struct AcksPacked {
    /// Acks popped and written, 20 bytes each.
    pub acks: usize,
    /// Whether the queue held an ack and the datagram is not empty.
    pub to_send: bool,
}

impl AckRing {
    /// An empty ring with room for so many acks.
    pub fn new(capacity: usize) -> Self {
        AckRing {
            // SAFETY: the call takes nothing and answers numbers.
            ring: unsafe { sys::bluefin_ring_new() },
            records: vec![Ack::default(); capacity],
        }
    }

    pub fn len(&self) -> usize {
        self.ring.len
    }

    pub fn is_empty(&self) -> bool {
        self.ring.len == 0
    }

    /// Queues an ack behind the others; gives it back where the ring is full.
    pub fn push_back(&mut self, ack: Ack) -> Result<(), Ack> {
        // SAFETY: the pointer and the length are those of one vector, owned here.
        let pushed = unsafe {
            sys::bluefin_ring_push_back(
                self.ring,
                self.records.as_mut_ptr(),
                self.records.len(),
                ack,
            )
        };
        self.pushed(pushed)
    }

    /// Queues an ack before the others; gives it back where the ring is full.
    pub fn push_front(&mut self, ack: Ack) -> Result<(), Ack> {
        // SAFETY: as in `push_back`.
        let pushed = unsafe {
            sys::bluefin_ring_push_front(
                self.ring,
                self.records.as_mut_ptr(),
                self.records.len(),
                ack,
            )
        };
        self.pushed(pushed)
    }

    fn pushed(&mut self, pushed: sys::Pushed) -> Result<(), Ack> {
        self.ring = pushed.ring;
        if pushed.full {
            return Err(pushed.given_back);
        }
        Ok(())
    }

    /// Takes the first ack. Refusal: 8.
    pub fn pop_front(&mut self) -> Result<Ack, Refusal> {
        // SAFETY: as in `push_back`.
        let popped = unsafe {
            sys::bluefin_ring_pop_front(self.ring, self.records.as_mut_ptr(), self.records.len())
        };
        self.ring = popped.ring;
        Refusal::or(popped.refusal, popped.ack)
    }

    /// The first ack, which stays. Refusal: 8.
    pub fn front(&self) -> Result<Ack, Refusal> {
        // SAFETY: the pointer and the length are those of one vector, which is only read.
        let found = unsafe {
            sys::bluefin_ring_front(self.ring, self.records.as_ptr(), self.records.len())
        };
        Refusal::or(found.refusal, found.ack)
    }

    /// Drops every ack.
    pub fn clear(&mut self) {
        // SAFETY: as in `push_back`.
        let cleared = unsafe {
            sys::bluefin_ring_clear(self.ring, self.records.as_mut_ptr(), self.records.len())
        };
        self.ring = cleared.ring;
    }

    /// Pops as many acks as still fit 15,200 bytes, and writes their headers to `out` from `used` on. Refusals: 12 (`used` above the
    /// output's length), 11 (a count above 65,535), 10; nothing is popped then.
    pub fn consume_acks_into(
        &mut self,
        used: usize,
        src_conn_id: u32,
        dst_conn_id: u32,
        out: &mut [u8],
    ) -> Result<AcksPacked, Refusal> {
        // SAFETY: each pointer stands beside the length of its slice; the records are owned here, and `out` is lent alone.
        let packed = unsafe {
            sys::bluefin_consume_acks_into(
                self.ring,
                self.records.as_mut_ptr(),
                self.records.len(),
                used,
                src_conn_id,
                dst_conn_id,
                out.as_mut_ptr(),
                out.len(),
            )
        };
        self.ring = packed.ring;
        let told = AcksPacked {
            acks: packed.acks,
            to_send: packed.to_send,
        };
        Refusal::or(packed.refusal, told)
    }
}

#[cfg(test)]
mod tests {
    use super::*;

    fn ack(base_packet_num: u64, num_packets_consumed: u32) -> Ack {
        Ack {
            base_packet_num,
            num_packets_consumed,
        }
    }

    #[test]
    fn pushed_and_popped() {
        let mut ring = AckRing::new(2);
        assert_eq!(ring.front(), Err(Refusal::Empty));
        assert_eq!(ring.push_back(ack(7, 1)), Ok(()));
        assert_eq!(ring.push_front(ack(5, 2)), Ok(()));
        assert_eq!(ring.push_back(ack(9, 1)), Err(ack(9, 1)));
        assert_eq!(ring.front(), Ok(ack(5, 2)));
        assert_eq!(ring.pop_front(), Ok(ack(5, 2)));
        ring.clear();
        assert!(ring.is_empty());
        assert_eq!(ring.pop_front(), Err(Refusal::Empty));
        assert_eq!(AckRing::new(0).push_back(ack(1, 1)), Err(ack(1, 1)));
    }

    #[test]
    fn packed_where_they_fit() {
        let mut ring = AckRing::new(3);
        let mut out = vec![9; 15_200];
        let packed = |acks, to_send| Ok(AcksPacked { acks, to_send });
        assert_eq!(ring.consume_acks_into(0, 1, 2, &mut out), packed(0, false));
        ring.push_back(ack(7, 3)).unwrap();
        ring.push_back(ack(10, 65_536)).unwrap();
        assert_eq!(
            ring.consume_acks_into(15_181, 1, 2, &mut out),
            packed(0, true)
        );
        assert_eq!(
            ring.consume_acks_into(15_180, 1, 2, &mut out),
            packed(1, true)
        );
        assert_eq!(out[15_180..15_183], [4, 0, 3]);
        assert_eq!(
            ring.consume_acks_into(0, 1, 2, &mut out),
            Err(Refusal::OutOfRange)
        );
        assert_eq!(ring.len(), 1);
        assert_eq!(
            ring.consume_acks_into(15_201, 1, 2, &mut out),
            Err(Refusal::Malformed)
        );
    }
}
