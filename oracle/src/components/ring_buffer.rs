//! utils/ring_buffer.rs: records pushed at either end and popped at the front.

use crate::record::{ask, Component, Question, Xorshift};
use crate::utils::ring_buffer::{probe, RingBuffer};

const NEW: u64 = 0;
const PUSH_BACK: u64 = 1;
const PUSH_FRONT: u64 = 2;
const POP_FRONT: u64 = 3;
const FRONT: u64 = 4;
const CLEAR: u64 = 5;
const TESTS: u64 = 6;

type Record = (u64, u32);

pub struct Ring(RingBuffer<Record>);

impl Default for Ring {
    fn default() -> Self {
        Ring(RingBuffer::new(0))
    }
}

/// Head, tail, count and every cell.
fn state(ring: &RingBuffer<Record>) -> Vec<u64> {
    let (head, tail, len, cells) = probe::parts(ring);
    let mut state = vec![head as u64, tail as u64, len as u64];
    for &(base, count) in cells {
        state.extend([base, count.into()]);
    }
    state
}

/// 0, or 1 and the record given back.
fn pushed(back: Option<Record>) -> Vec<u64> {
    match back {
        None => vec![0],
        Some((base, count)) => vec![1, base, count.into()],
    }
}

/// 0 and the record, or refusal 8.
fn found(record: Option<Record>) -> Vec<u64> {
    match record {
        Some((base, count)) => vec![0, base, count.into()],
        None => vec![8],
    }
}

impl Component for Ring {
    const NAME: &'static str = "ring_buffer";
    const FOLDER: &'static str = "hosts/replay/";
    const RANDOM: usize = 1500;

    /// Every list of four changes, at each capacity from 0 to 3, and each test after it.
    fn cases() -> Vec<Question> {
        let changes = [PUSH_BACK, PUSH_FRONT, POP_FRONT, CLEAR];
        let mut cases = Vec::new();
        for capacity in 0..4 {
            for list in 0..256 {
                cases.push(ask(NEW, &[capacity]));
                for turn in 0..4 {
                    let op = changes[(list >> (2 * turn)) % 4];
                    let record = [100 + turn as u64, 10 + turn as u64];
                    cases.push(ask(op, if op <= PUSH_FRONT { &record } else { &[] }));
                }
                cases.push(ask(FRONT, &[]));
                cases.push(ask(TESTS, &[]));
            }
        }
        cases
    }

    fn start(rng: &mut Xorshift) -> Option<Question> {
        Some(ask(NEW, &[rng.below(7)]))
    }

    fn random(&self, rng: &mut Xorshift) -> Question {
        let record = [rng.next(), rng.next() >> 32];
        match rng.below(40) {
            0 => ask(CLEAR, &[]),
            1..=4 => ask(FRONT, &[]),
            5..=8 => ask(TESTS, &[]),
            9..=20 => ask(POP_FRONT, &[]),
            21..=32 => ask(PUSH_BACK, &record),
            _ => ask(PUSH_FRONT, &record),
        }
    }

    fn answer(&mut self, question: &Question) -> Option<Vec<u64>> {
        let words = &question.words;
        let ring = &mut self.0;
        let mut answer = match question.op {
            NEW => {
                *ring = RingBuffer::new(words[0] as usize);
                vec![0]
            }
            PUSH_BACK => pushed(ring.push_back((words[0], words[1] as u32))),
            PUSH_FRONT => pushed(ring.push_front((words[0], words[1] as u32))),
            POP_FRONT => found(ring.pop_front()),
            FRONT => found(ring.front().copied()),
            CLEAR => {
                ring.clear();
                vec![0]
            }
            TESTS => vec![
                0,
                ring.len() as u64,
                ring.is_empty().into(),
                ring.is_full().into(),
            ],
            _ => unreachable!("no such command"),
        };
        answer.extend(state(ring));
        Some(answer)
    }
}
