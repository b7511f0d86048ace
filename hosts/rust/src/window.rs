//! The window of acked numbers.

use crate::datagram::Index;
use crate::refusal::{Refusal, RefusedAt};
use crate::sys;

/// The numbers that were acked, in order, until the run from the smallest expected one on is dropped. Owns a cell of 8 bytes for each
/// number that it has room for.
#[derive(Clone)]
pub struct SlidingWindow {
    window: sys::Window,
    cells: Vec<u64>,
}

/// An unbroken run of numbers that left the window.
#[derive(Clone, Copy, Debug, PartialEq, Eq)]
pub struct Run {
    pub last: u64,
    pub length: u64,
}

impl SlidingWindow {
    /// An empty window from a number on, with room for so many numbers; 40,000 are never too few.
    pub fn new(smallest_expected: u64, room: usize) -> Self {
        SlidingWindow {
            // SAFETY: the call takes and answers numbers.
            window: unsafe { sys::bluefin_window_new(smallest_expected) },
            cells: vec![0; room],
        }
    }

    /// The smallest number expected.
    pub fn smallest_expected(&self) -> u64 {
        self.window.smallest_expected
    }

    /// The numbers held, rising.
    pub fn held(&self) -> &[u64] {
        &self.cells[..self.window.count]
    }

    /// Enters a number. Refusals: 5, 6, 9, 7, 10.
    pub fn insert_packet_number(&mut self, number: u64) -> Result<(), Refusal> {
        // SAFETY: the pointer and the length are those of one vector, owned here.
        let inserted = unsafe {
            sys::bluefin_window_insert_packet_number(
                self.window,
                self.cells.as_mut_ptr(),
                self.cells.len(),
                number,
            )
        };
        self.window = inserted.window;
        Refusal::or(inserted.refusal, ())
    }

    /// Enters `count` numbers from `base` on. Refusals: 5, 9, 6, 10, 7, which has entered the numbers before the first held one.
    /// A count of 0 is accepted unchecked.
    pub fn insert_range(&mut self, base: u64, count: u16) -> Result<(), Refusal> {
        // SAFETY: as in `insert_packet_number`.
        let inserted = unsafe {
            sys::bluefin_window_insert_range(
                self.window,
                self.cells.as_mut_ptr(),
                self.cells.len(),
                base,
                count,
            )
        };
        self.window = inserted.window;
        Refusal::or(inserted.refusal, ())
    }

    /// Drops the unbroken run from the smallest expected number on; none where that number is absent.
    pub fn consume(&mut self) -> Option<Run> {
        // SAFETY: as in `insert_packet_number`.
        let run = unsafe {
            sys::bluefin_window_consume(self.window, self.cells.as_mut_ptr(), self.cells.len())
        };
        self.window = run.window;
        // Refusal 12, the only one, comes with length 0, and the window that is owned here is never malformed.
        (run.length > 0).then_some(Run {
            last: run.last,
            length: run.length,
        })
    }

    /// Lists the packets of a datagram as [`Index::from_bytes_into`] does, and enters each ack listed, base and count, in order; what
    /// each was answered is in [`Index::answers`]. Answers the packets listed. Refusals: those of the listing, with the acks before
    /// the refusal entered all the same.
    pub fn receive_acks(&mut self, datagram: &[u8], index: &mut Index) -> Result<usize, RefusedAt> {
        index.answers.fill(0);
        // SAFETY: each pointer stands beside the length of its slice; cells, index and answers are owned apart from each other.
        let received = unsafe {
            sys::bluefin_receive_acks(
                self.window,
                self.cells.as_mut_ptr(),
                self.cells.len(),
                datagram.as_ptr(),
                datagram.len(),
                index.cells.as_mut_ptr(),
                index.cells.len(),
                index.answers.as_mut_ptr(),
                index.answers.len(),
            )
        };
        self.window = received.window;
        index.keep(sys::Parsed {
            packets: received.packets,
            cursor: received.cursor,
            refusal: received.refusal,
        })
    }
}

#[cfg(test)]
mod tests {
    use super::*;

    #[test]
    fn document_01_samples() {
        let mut window = SlidingWindow::new(10, 4);
        assert_eq!(window.insert_packet_number(12), Ok(()));
        assert_eq!(window.insert_range(10, 5), Err(Refusal::AlreadyHeld));
        assert_eq!(window.held(), [10, 11, 12]);
        assert_eq!(window.insert_packet_number(40_010), Err(Refusal::Beyond));
        assert_eq!(window.insert_packet_number(40_009), Ok(()));
        assert_eq!(window.insert_packet_number(14), Err(Refusal::BufferShort));
        assert_eq!(
            window.consume(),
            Some(Run {
                last: 12,
                length: 3
            })
        );
        assert_eq!(
            (window.smallest_expected(), window.held()),
            (13, &[40_009][..])
        );
        assert_eq!(window.consume(), None);
    }
}
