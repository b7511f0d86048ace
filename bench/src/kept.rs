//! The memory of a store of packets kept to be sent again, lent to each call of the archive that takes it.

use bluefin::sys;

pub use bluefin::{PLACES, PLACES_BYTES};

/// What such a store is lent at every call.
#[derive(Clone, PartialEq)]
pub struct Kept {
    pub state: sys::Outstanding,
    pub numbers: Vec<u64>,
    pub lengths: Vec<u32>,
    pub packets: Vec<u8>,
}

/// A queue's bytes end to end, and the lengths of its entries.
#[derive(Clone, Copy)]
pub struct Queue<'a> {
    pub bytes: &'a [u8],
    pub lengths: &'a [u32],
}

impl Kept {
    /// An empty store; what it is lent holds anything.
    pub fn new() -> Self {
        Kept {
            // SAFETY: the call takes nothing and answers a number.
            state: unsafe { sys::bluefin_outstanding_new() },
            numbers: vec![u64::MAX; PLACES],
            lengths: vec![u32::MAX; PLACES],
            packets: vec![9; PLACES_BYTES],
        }
    }

    /// Packs a queue from a number on, with source and destination.
    #[inline]
    pub fn pack(
        &mut self,
        queue: Queue,
        next: u64,
        ids: [u32; 2],
        out: &mut [u8],
    ) -> sys::DataPacked {
        // SAFETY: here and below, each pointer stands beside the length of its slice, and no two overlap.
        let told = unsafe {
            sys::bluefin_consume_data_into(
                self.state,
                queue.bytes.as_ptr(),
                queue.bytes.len(),
                queue.lengths.as_ptr(),
                queue.lengths.len(),
                next,
                ids[0],
                ids[1],
                out.as_mut_ptr(),
                out.len(),
                self.numbers.as_mut_ptr(),
                self.numbers.len(),
                self.lengths.as_mut_ptr(),
                self.lengths.len(),
                self.packets.as_mut_ptr(),
                self.packets.len(),
            )
        };
        self.state = told.outstanding;
        told
    }

    #[inline]
    pub fn list(&self, out: &mut [u8]) -> sys::Listed {
        // SAFETY: as in `pack`.
        unsafe {
            sys::bluefin_outstanding_list_into(
                self.state,
                out.as_mut_ptr(),
                out.len(),
                self.numbers.as_ptr(),
                self.numbers.len(),
                self.lengths.as_ptr(),
                self.lengths.len(),
                self.packets.as_ptr(),
                self.packets.len(),
            )
        }
    }

    #[inline]
    pub fn drop_answered(&mut self, last: u64) -> sys::Dropped {
        // SAFETY: as in `pack`.
        let told = unsafe {
            sys::bluefin_outstanding_drop_answered(
                self.state,
                last,
                self.numbers.as_mut_ptr(),
                self.numbers.len(),
                self.lengths.as_mut_ptr(),
                self.lengths.len(),
                self.packets.as_mut_ptr(),
                self.packets.len(),
            )
        };
        self.state = told.outstanding;
        told
    }
}

impl Default for Kept {
    fn default() -> Self {
        Self::new()
    }
}
