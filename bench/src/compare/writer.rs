//! Queued data packed into datagrams, and the payload bytes of a datagram counted.

use crate::tally::Ours;
use bench::kept::{Kept, Queue, PLACES};
use bluefin::sys;
use oracle::components::writer::{self, queued};
use oracle::record::{sum, Question};

const PACK: u64 = 1;

/// What output bytes hold before a packing.
const BEFORE: u8 = 9;

/// The packets of a datagram at most: with so many places free a packing is the Rust's, which keeps no packet.
const PACKETS: usize = 10;

#[derive(Default)]
pub struct Writer {
    kept: Kept,
}

impl Writer {
    /// Starts the store again where it has too few places, or keeps a number that is not below the next one.
    fn make_room(&mut self, next: u64) {
        let kept = &self.kept.numbers[..self.kept.state.count];
        let is_below = kept.last().map_or(true, |&last| last < next);
        if !is_below || PLACES - kept.len() < PACKETS {
            self.kept.state.count = 0;
        }
    }

    fn packed(&mut self, words: &[u64]) -> Vec<u64> {
        let [next, src, dst, room, total, _, lengths @ ..] = words else {
            unreachable!("a packing has six words and its lengths")
        };
        let bytes = queued(*total);
        let lengths: Vec<u32> = lengths.iter().map(|&length| length as u32).collect();
        let mut out = vec![BEFORE; *room as usize];
        let queue = Queue {
            bytes: &bytes,
            lengths: &lengths,
        };
        self.make_room(*next);
        let told = self
            .kept
            .pack(queue, *next, [*src as u32, *dst as u32], &mut out);
        if told.refusal != 0 {
            return vec![told.refusal.into()];
        }
        vec![
            0,
            told.bytes as u64,
            told.packets as u64,
            told.next_packet_num,
            told.entries_removed as u64,
            told.bytes_cut as u64,
            sum(&out),
        ]
    }
}

impl Ours for Writer {
    type Theirs = writer::Writer;

    fn answer(&mut self, question: &Question) -> Vec<u64> {
        if question.op == PACK {
            return self.packed(&question.words);
        }
        let bytes = question.bytes();
        // SAFETY: the pointer and the length are those of one slice, which is only read.
        let counted =
            unsafe { sys::bluefin_payload_bytes_in_datagram(bytes.as_ptr(), bytes.len()) };
        vec![0, counted as u64]
    }
}
