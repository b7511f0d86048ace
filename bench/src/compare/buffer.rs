//! The receive buffer at the Rust's 2,000 slots: packets accepted, and read by length and by packets.

use crate::tally::Ours;
use bench::lent::{refusal_in, Lent, SLOTS};
use oracle::components::ordered_bytes::{self, payload, WIDTH};
use oracle::record::{sum, Question};

const NEW: u64 = 0;
const SET_START: u64 = 1;
const ACCEPT: u64 = 2;
const ACCEPT_RUN: u64 = 3;
const PEEK: u64 = 4;
const CONSUME: u64 = 5;
const CONSUME_BYTES: u64 = 6;

/// What output bytes hold before a read.
const BEFORE: u8 = 9;

pub struct Buffer {
    lent: Lent,
    /// Room for all that `consume_bytes` can give.
    buf: Vec<u8>,
    list: Vec<u32>,
}

impl Default for Buffer {
    fn default() -> Self {
        Buffer {
            lent: Lent::new(WIDTH as usize, 0),
            buf: vec![BEFORE; (SLOTS + 1) * WIDTH as usize],
            list: vec![0; SLOTS + 1],
        }
    }
}

impl Buffer {
    fn accept(&mut self, number: u64, length: u64) -> u64 {
        let told = self.lent.accept(number, &payload(number, length));
        refusal_in(number, told).into()
    }

    fn accept_run(&mut self, first: u64, count: u64, length: u64) -> Vec<u64> {
        for i in 0..count {
            let refused = self.accept(first + i, length);
            if refused != 0 {
                return vec![refused, i];
            }
        }
        vec![0, count]
    }

    /// What the read answers, and the sum of the output, which is as long as the length.
    fn consume(&mut self, length: usize) -> Vec<u64> {
        let mut buf = vec![BEFORE; length];
        let read = self.lent.consume(length, &mut buf);
        let mut answer = vec![read.refusal.into()];
        if read.refusal == 0 {
            answer.extend([
                read.num_packets_consumed as u64,
                read.base_packet_number,
                read.bytes_consumed,
            ]);
        }
        answer.push(sum(&buf));
        answer
    }

    /// What the read answers, the pieces' count and lengths, and the sum of their bytes.
    fn consume_bytes(&mut self, limit: usize) -> Vec<u64> {
        let read = self
            .lent
            .consume_bytes(limit, &mut self.buf, &mut self.list);
        let mut answer = vec![read.refusal.into()];
        if read.refusal == 0 {
            answer.extend([
                read.num_packets_consumed as u64,
                read.base_packet_number,
                read.bytes_consumed,
            ]);
        }
        answer.push(read.pieces as u64);
        answer.extend(self.list[..read.pieces].iter().map(|&n| u64::from(n)));
        let given = &mut self.buf[..read.bytes_consumed as usize];
        answer.push(sum(given));
        given.fill(BEFORE);
        // Bytes past those given stay.
        if self
            .buf
            .iter()
            .take(4 * WIDTH as usize)
            .any(|&b| b != BEFORE)
        {
            answer.push(u64::MAX);
        }
        answer
    }

    /// The sum of all that are held, with their distances and lengths, and the sum of the carry-over.
    fn all_held(&self) -> Vec<u64> {
        let mut all = Vec::new();
        for distance in 0..SLOTS {
            if let Some(payload) = self.lent.held(distance) {
                all.extend((distance as u16).to_be_bytes());
                all.extend((payload.len() as u16).to_be_bytes());
                all.extend(payload);
            }
        }
        vec![0, sum(&all), sum(self.lent.carried())]
    }
}

impl Ours for Buffer {
    type Theirs = ordered_bytes::Buffer;

    fn answer(&mut self, question: &Question) -> Vec<u64> {
        let words = &question.words;
        let mut answer = match question.op {
            NEW => {
                self.lent.restart(WIDTH as usize, words[0]);
                vec![0]
            }
            SET_START => vec![self.lent.set_start(words[0]).into()],
            ACCEPT => vec![self.accept(words[0], words[1])],
            ACCEPT_RUN => self.accept_run(words[0], words[1], words[2]),
            PEEK => vec![self.lent.peek().into()],
            CONSUME => self.consume(words[0] as usize),
            CONSUME_BYTES => self.consume_bytes(words[0] as usize),
            _ => self.all_held(),
        };
        let state = self.lent.state;
        answer.extend([
            state.front_number,
            state.front_slot as u64,
            state.carry_len as u64,
        ]);
        answer
    }

    /// A run that meets the last number would have accepted those before it: it is not asked.
    fn refuses(&mut self, question: &Question) -> bool {
        question.op == ACCEPT_RUN || crate::tally::not_compared(self.answer(question)[0])
    }
}
