//! utils/ring_buffer.rs: the calls that touch no record, at every ring that pushes and pops can leave.

use crate::record::{ask, Component, Question, Xorshift};
use crate::utils::ring_buffer::{probe, RingBuffer};

const TESTS: u64 = 6;

/// The largest capacity asked about.
const LARGEST: u64 = 8;

/// A ring that `head` records went through, with `len` records in it.
fn reached(capacity: u64, head: u64, len: u64) -> RingBuffer<u8> {
    let mut ring = RingBuffer::new(capacity as usize);
    for _ in 0..head {
        ring.push_back(0);
        ring.pop_front();
    }
    for _ in 0..len {
        ring.push_back(0);
    }
    ring
}

/// Capacity, head, tail, count.
fn positions(ring: &RingBuffer<u8>) -> [u64; 4] {
    let (head, tail, len, cells) = probe::parts(ring);
    [cells.len(), head, tail, len].map(|n| n as u64)
}

#[derive(Default)]
pub struct RingTests;

impl Component for RingTests {
    const NAME: &'static str = "ring_buffer";
    const RANDOM: usize = 0;

    fn cases() -> Vec<Question> {
        let mut cases = Vec::new();
        for capacity in 0..=LARGEST {
            for head in 0..capacity.max(1) {
                for len in 0..=capacity {
                    cases.push(ask(TESTS, &positions(&reached(capacity, head, len))));
                }
            }
        }
        cases
    }

    fn random(&self, _rng: &mut Xorshift) -> Question {
        unreachable!("every ring is among the cases")
    }

    fn answer(&mut self, question: &Question) -> Option<Vec<u64>> {
        let words = &question.words;
        let ring = reached(words[0], words[1], words[3]);
        assert_eq!(positions(&ring)[..], words[..]);
        Some(vec![
            0,
            ring.len() as u64,
            ring.is_empty().into(),
            ring.is_full().into(),
        ])
    }
}
