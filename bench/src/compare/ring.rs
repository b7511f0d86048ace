//! The ring of acks: records pushed at either end and popped at the front.

use crate::tally::Ours;
use bluefin::sys::{self, Ack};
use oracle::components::ring_buffer;
use oracle::record::Question;

const NEW: u64 = 0;
const PUSH_BACK: u64 = 1;
const PUSH_FRONT: u64 = 2;
const POP_FRONT: u64 = 3;
const FRONT: u64 = 4;
const CLEAR: u64 = 5;

#[derive(Default)]
pub struct Ring {
    ring: sys::Ring,
    records: Vec<Ack>,
}

fn words(ack: Ack) -> [u64; 2] {
    [ack.base_packet_num, ack.num_packets_consumed.into()]
}

impl Ring {
    /// 0, or 1 and the record given back.
    fn pushed(&mut self, told: sys::Pushed) -> Vec<u64> {
        self.ring = told.ring;
        match (told.refusal, told.full) {
            (0, false) if told.given_back == Ack::default() => vec![0],
            (0, true) => [&[1], &words(told.given_back)[..]].concat(),
            _ => vec![u64::MAX, told.refusal.into()],
        }
    }

    /// 0 and the record, or the refusal.
    fn found(&mut self, told: sys::Popped) -> Vec<u64> {
        self.ring = told.ring;
        match told.refusal {
            0 => [&[0], &words(told.ack)[..]].concat(),
            refusal => vec![refusal.into()],
        }
    }
}

impl Ours for Ring {
    type Theirs = ring_buffer::Ring;

    fn answer(&mut self, question: &Question) -> Vec<u64> {
        let w = &question.words;
        let (ring, records, room) = (self.ring, self.records.as_mut_ptr(), self.records.len());
        let record = || Ack {
            base_packet_num: w[0],
            num_packets_consumed: w[1] as u32,
        };
        // SAFETY: the pointer and the length are those of one vector.
        let mut answer = unsafe {
            match question.op {
                NEW => {
                    self.ring = sys::bluefin_ring_new();
                    self.records = vec![Ack::default(); w[0] as usize];
                    vec![0]
                }
                PUSH_BACK => {
                    self.pushed(sys::bluefin_ring_push_back(ring, records, room, record()))
                }
                PUSH_FRONT => {
                    self.pushed(sys::bluefin_ring_push_front(ring, records, room, record()))
                }
                POP_FRONT => self.found(sys::bluefin_ring_pop_front(ring, records, room)),
                FRONT => self.found(sys::bluefin_ring_front(ring, records, room)),
                CLEAR => {
                    let told = sys::bluefin_ring_clear(ring, records, room);
                    self.ring = told.ring;
                    vec![told.refusal.into()]
                }
                _ => vec![
                    0,
                    ring.len as u64,
                    (ring.len == 0).into(),
                    (ring.len == room).into(),
                ],
            }
        };
        let sys::Ring { head, tail, len } = self.ring;
        answer.extend([head as u64, tail as u64, len as u64]);
        answer.extend(self.records.iter().copied().flat_map(words));
        answer
    }
}
