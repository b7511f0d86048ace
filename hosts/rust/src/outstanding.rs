//! The packets kept to be sent again.

use crate::refusal::Refusal;
use crate::sys;

/// The most packets that are kept.
pub const PLACES: usize = 64;

/// The most bytes that they have, each its header and up to 1,500 of payload: a listing has room in so many.
pub const PLACES_BYTES: usize = PLACES * 1_520;

/// The packets that [`consume_data_into`](crate::consume_data_into) made and that are not yet answered, each whole. Owns 97,280 bytes for
/// them, and 12 for each one's number and length. It belongs to one sender's counter: who starts the counter again starts a new store.
#[derive(Clone)]
pub struct Outstanding {
    pub(crate) state: sys::Outstanding,
    pub(crate) numbers: Vec<u64>,
    pub(crate) lengths: Vec<u32>,
    pub(crate) packets: Vec<u8>,
}

impl Outstanding {
    /// An empty store.
    pub fn new() -> Self {
        Outstanding {
            // SAFETY: the call takes nothing and answers a number.
            state: unsafe { sys::bluefin_outstanding_new() },
            numbers: vec![0; PLACES],
            lengths: vec![0; PLACES],
            packets: vec![0; PLACES_BYTES],
        }
    }

    pub fn len(&self) -> usize {
        self.state.count
    }

    pub fn is_empty(&self) -> bool {
        self.state.count == 0
    }

    /// The numbers of the packets kept, rising.
    pub fn numbers(&self) -> &[u64] {
        &self.numbers[..self.state.count]
    }

    /// The lengths of their payloads: a packet is 20 bytes longer.
    pub fn payload_lengths(&self) -> &[u32] {
        &self.lengths[..self.state.count]
    }

    /// Writes the packets kept, by rising number, whole and end to end, to the start of `out`, and answers how many they are;
    /// [`PLACES_BYTES`] are never too few. They may be more than one datagram has room for. Refusal: 10.
    pub fn list_into(&self, out: &mut [u8]) -> Result<usize, Refusal> {
        // SAFETY: each pointer stands beside the length of its slice; `out` is lent alone, the others are only read.
        let listed = unsafe {
            sys::bluefin_outstanding_list_into(
                self.state,
                out.as_mut_ptr(),
                out.len(),
                self.numbers.as_ptr(),
                self.numbers.len(),
                self.lengths.as_ptr(),
                self.lengths.len(),
                self.packets.as_ptr(),
                self.packets.len(),
            )
        };
        Refusal::or(listed.refusal, listed.packets)
    }

    /// Drops each packet up to the number `last`, the last one of a [`Run`](crate::Run) that the window answered.
    pub fn drop_answered(&mut self, last: u64) {
        // SAFETY: each pointer stands beside the length of its vector, owned here apart from the others.
        let dropped = unsafe {
            sys::bluefin_outstanding_drop_answered(
                self.state,
                last,
                self.numbers.as_mut_ptr(),
                self.numbers.len(),
                self.lengths.as_mut_ptr(),
                self.lengths.len(),
                self.packets.as_mut_ptr(),
                self.packets.len(),
            )
        };
        // Refusal 12, the only one, leaves the state as it was, and the store that is owned here is never malformed.
        self.state = dropped.outstanding;
    }
}

impl Default for Outstanding {
    fn default() -> Self {
        Self::new()
    }
}

#[cfg(test)]
mod tests {
    use super::*;
    use crate::{consume_data_into, DataPacked, Index, SlidingWindow, PACKED_DATAGRAM};

    fn pack(kept: &mut Outstanding, bytes: usize, next: u64) -> Result<DataPacked, Refusal> {
        let queue = vec![5; bytes];
        let mut out = vec![0; PACKED_DATAGRAM];
        consume_data_into(kept, &queue, &[bytes as u32], next, 1, 2, &mut out)
    }

    fn listed(kept: &Outstanding) -> Vec<u8> {
        let size = |&length: &u32| 20 + length as usize;
        let mut out = vec![0; kept.payload_lengths().iter().map(size).sum()];
        assert_eq!(kept.list_into(&mut out), Ok(kept.len()));
        out
    }

    #[test]
    fn no_more_packets_than_free_places() {
        let mut kept = Outstanding::new();
        let mut next = 100;
        for packets in [10, 10, 10, 10, 10, 10, 4] {
            let packed = pack(&mut kept, 20_000, next).unwrap();
            assert_eq!(
                (packed.packets, packed.bytes_cut),
                (packets, packets * 1_500)
            );
            next = packed.next_packet_num;
        }
        assert_eq!((kept.len(), next), (PLACES, 164));
        for bytes in [1, 0] {
            assert_eq!(pack(&mut kept, bytes, next), Err(Refusal::NoPlace));
        }
        assert_eq!(listed(&kept).len(), PLACES_BYTES);
        kept.drop_answered(100);
        assert_eq!(pack(&mut kept, 20_000, next).unwrap().packets, 1);
        assert_eq!(kept.numbers(), (101..=164).collect::<Vec<_>>());
    }

    #[test]
    fn listed_as_packed() {
        let mut kept = Outstanding::default();
        assert_eq!(kept.list_into(&mut []), Ok(0));
        let (queue, mut out) = (vec![5; 1_507], [0; 1_547]);
        consume_data_into(&mut kept, &queue, &[1_507], 7, 1, 2, &mut out).unwrap();
        assert_eq!(
            (kept.numbers(), kept.payload_lengths()),
            (&[7, 8][..], &[1_500, 7][..])
        );
        assert_eq!(listed(&kept), out);
        let mut longer = [9; 1_548];
        assert_eq!(
            kept.list_into(&mut longer[..1_546]),
            Err(Refusal::BufferShort)
        );
        assert!(longer.iter().all(|&byte| byte == 9));
        assert_eq!(kept.list_into(&mut longer), Ok(2));
        assert_eq!((&longer[..1_547], longer[1_547]), (&out[..], 9));
        assert_eq!(Index::new().from_bytes(&longer[..1_547]), Ok(2));
    }

    #[test]
    fn dropped_as_the_window_answers() {
        let mut kept = Outstanding::new();
        let mut window = SlidingWindow::new(7, PLACES);
        pack(&mut kept, 3_007, 7).unwrap();
        window.insert_range(7, 2).unwrap();
        kept.drop_answered(window.consume().unwrap().last);
        assert_eq!(
            (kept.numbers(), kept.payload_lengths()),
            (&[9][..], &[7][..])
        );
        assert_eq!(listed(&kept)[..3], [3, 0, 7]);
        kept.drop_answered(8);
        assert_eq!(kept.len(), 1);
        kept.drop_answered(u64::MAX);
        assert!(kept.is_empty());
    }

    #[test]
    fn a_counter_that_starts_again_needs_a_new_store() {
        let mut kept = Outstanding::new();
        pack(&mut kept, 1, 7).unwrap();
        assert_eq!(pack(&mut kept, 1, 7), Err(Refusal::Malformed));
        assert_eq!(kept.numbers(), [7]);
        assert!(pack(&mut kept, 1, 8).is_ok());
        assert!(pack(&mut Outstanding::new(), 1, 7).is_ok());
    }
}
