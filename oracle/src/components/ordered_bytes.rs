//! net/ordered_bytes.rs: packets accepted, and read by length and by packets.

use crate::core::header::{BluefinHeader, BluefinSecurityFields, PacketType};
use crate::core::packet::BluefinPacket;
use crate::net::ordered_bytes::{probe, ConsumeResult, OrderedBytes, MAX_BUFFER_SIZE};
use crate::record::{ask, sum, Component, Question, Xorshift};
use bluefin_proto::error::BluefinError;
use bytes::Bytes;

const NEW: u64 = 0;
const SET_START: u64 = 1;
const ACCEPT: u64 = 2;
const ACCEPT_RUN: u64 = 3;
const PEEK: u64 = 4;
const CONSUME: u64 = 5;
const CONSUME_BYTES: u64 = 6;
const HELD: u64 = 7;

const SLOTS: u64 = MAX_BUFFER_SIZE as u64;

/// The longest payload that is compared: the width of the replay's slots.
pub const WIDTH: u64 = 64;

/// What output bytes hold before a read.
const BEFORE: u8 = 9;

pub struct Buffer(Box<OrderedBytes>);

impl Default for Buffer {
    fn default() -> Self {
        Buffer(Box::new(OrderedBytes::new(0, 0)))
    }
}

pub fn class(error: BluefinError) -> u64 {
    match error {
        BluefinError::UnexpectedPacketNumberError => 5,
        BluefinError::BufferFullError(_) => 6,
        BluefinError::Unexpected(_) => 7,
        BluefinError::BufferEmptyError => 8,
        other => unreachable!("{other:?}"),
    }
}

/// The payload of a packet follows from its number and its length.
pub fn payload(number: u64, length: u64) -> Bytes {
    (0..length)
        .map(|i| (number % 256 * 101 + i) as u8)
        .collect()
}

fn packet(number: u64, length: u64) -> BluefinPacket {
    let mut header = BluefinHeader::new(
        1,
        2,
        PacketType::UnencryptedData,
        length as u16,
        BluefinSecurityFields::new(false, 0),
    );
    header.with_packet_number(number);
    BluefinPacket {
        header,
        payload: payload(number, length),
    }
}

/// 0, the packets taken, the base and the bytes given; or 8 alone.
fn given(told: &Result<ConsumeResult, BluefinError>) -> Vec<u64> {
    match told {
        Ok(read) => vec![
            0,
            read.get_num_packets_consumed() as u64,
            read.get_base_packet_number(),
            read.get_bytes_consumed(),
        ],
        Err(BluefinError::BufferEmptyError) => vec![8],
        Err(other) => unreachable!("{other:?}"),
    }
}

impl Buffer {
    fn front(&self) -> u64 {
        probe::front(&self.0)
    }

    fn held(&self) -> usize {
        probe::held(&self.0)
    }

    /// Whether accepting these numbers meets 2^64 - 1 in the slots' reach: refusal 9. The Rust stores it, and overflows where
    /// it is read.
    fn exhausted(&self, first: u64, count: u64) -> bool {
        let reached = first.checked_add(count - 1).map_or(true, |last| last == u64::MAX);
        reached && u64::MAX - self.front() < SLOTS
    }

    fn accept(&mut self, number: u64, length: u64) -> u64 {
        self.0
            .buffer_in_packet(packet(number, length))
            .map_or_else(class, |()| 0)
    }

    /// Accepts packets of one length in the numbers' order up to the first refusal: its class, and how many were accepted.
    fn accept_run(&mut self, first: u64, count: u64, length: u64) -> Vec<u64> {
        for i in 0..count {
            let refused = self.accept(first + i, length);
            if refused != 0 {
                return vec![refused, i];
            }
        }
        vec![0, count]
    }

    /// What the read answers, and the sum of the output, which is as long as the length.
    fn consume(&mut self, length: usize) -> Vec<u64> {
        let mut buf = vec![BEFORE; length];
        let mut answer = given(&self.0.consume(length, &mut buf));
        answer.push(sum(&buf));
        answer
    }

    /// What the read answers, the pieces' count and lengths, and the sum of their bytes.
    fn consume_bytes(&mut self, limit: usize) -> Vec<u64> {
        let mut pieces = Vec::new();
        let mut answer = given(&self.0.consume_bytes(&mut pieces, limit));
        answer.push(pieces.len() as u64);
        answer.extend(pieces.iter().map(|piece| piece.len() as u64));
        answer.push(sum(&pieces.concat()));
        answer
    }

    /// The sum of all that are held, with their distances and lengths, and the sum of the carry-over.
    fn all_held(&self) -> Vec<u64> {
        let (_, held, carried) = probe::parts(&self.0);
        let mut all = Vec::new();
        for (distance, payload) in held.iter().enumerate() {
            if let Some(payload) = payload {
                all.extend((distance as u16).to_be_bytes());
                all.extend((payload.len() as u16).to_be_bytes());
                all.extend(payload);
            }
        }
        vec![0, sum(&all), sum(&carried)]
    }

    /// The front number, its slot, and the length of the carry-over.
    fn state(&self) -> [u64; 3] {
        [
            self.front(),
            probe::front_slot(&self.0) as u64,
            probe::carried(&self.0) as u64,
        ]
    }
}

impl Component for Buffer {
    const NAME: &'static str = "ordered_bytes";
    const RANDOM: usize = 5000;

    fn cases() -> Vec<Question> {
        let mut cases = Vec::new();
        let mut list = |start: u64, commands: &[&[u64]]| {
            cases.push(ask(NEW, &[start]));
            for command in commands {
                cases.push(ask(command[0], &command[1..]));
            }
            cases.push(ask(HELD, &[]));
        };
        // Nothing held.
        list(
            0,
            &[
                &[PEEK],
                &[CONSUME, 0],
                &[CONSUME, 5],
                &[CONSUME_BYTES, 0],
                &[CONSUME_BYTES, 5],
            ],
        );
        // The numbers' order, both ends of the slots, and what is held already.
        list(
            100,
            &[
                &[ACCEPT, 99, 1],
                &[ACCEPT, 0, 1],
                &[ACCEPT, 2100, 1],
                &[ACCEPT, u64::MAX, 1],
                &[ACCEPT, 2099, 5],
                &[ACCEPT, 2099, 6],
                &[PEEK],
                &[CONSUME, 5],
                &[CONSUME_BYTES, 5],
                &[ACCEPT, 100, 5],
                &[ACCEPT, 100, 0],
                &[HELD],
                &[PEEK],
                &[CONSUME, 9],
                &[ACCEPT, 100, 5],
                &[ACCEPT, 2100, 3],
                &[ACCEPT, 2101, 3],
                &[CONSUME, 9],
            ],
        );
        // A split, and the carry-over read at each length about its own; a packet behind it held, absent, and behind a gap.
        for behind in [0, 101, 102] {
            for length in 0..=4 {
                list(
                    100,
                    &[
                        &[ACCEPT, 100, 5],
                        &[CONSUME, 2],
                        &[ACCEPT, behind, 4],
                        &[PEEK],
                        &[HELD],
                        &[CONSUME, length],
                        &[HELD],
                        &[CONSUME, 0],
                        &[CONSUME, 1],
                        &[PEEK],
                        &[CONSUME, 64],
                        &[PEEK],
                        &[CONSUME, 1],
                    ],
                );
            }
        }
        // Document 01's sample, and the slot and the number of a packet that was split.
        list(
            100,
            &[
                &[ACCEPT, 100, 5],
                &[CONSUME, 3],
                &[ACCEPT, 100, 5],
                &[ACCEPT, 2100, 5],
                &[ACCEPT, 2101, 5],
                &[CONSUME, 0],
                &[CONSUME, 2],
                &[PEEK],
            ],
        );
        // The carry-over as a piece at each limit, with a packet held behind it and without.
        for behind in [0, 101] {
            for limit in [0, 1, 2, 3, u64::MAX] {
                list(
                    100,
                    &[
                        &[ACCEPT, 100, 5],
                        &[ACCEPT, behind, 4],
                        &[ACCEPT, 102, 64],
                        &[CONSUME, 2],
                        &[CONSUME, 1],
                        &[CONSUME_BYTES, limit],
                        &[PEEK],
                        &[CONSUME_BYTES, 0],
                        &[CONSUME, 70],
                    ],
                );
            }
        }
        // Empty packets: alone, before others and between them, at lengths that stop before and behind them.
        for length in [0, 1, 3, 4, 7, 8] {
            list(
                10,
                &[
                    &[ACCEPT, 10, 0],
                    &[PEEK],
                    &[CONSUME, length],
                    &[PEEK],
                    &[ACCEPT, 10, 0],
                    &[ACCEPT, 11, 0],
                    &[ACCEPT, 12, 3],
                    &[ACCEPT, 13, 0],
                    &[ACCEPT, 14, 4],
                    &[ACCEPT, 16, 1],
                    &[CONSUME, length],
                    &[PEEK],
                    &[CONSUME, 1],
                    &[CONSUME, 64],
                    &[PEEK],
                ],
            );
        }
        for limit in 0..=5 {
            list(
                10,
                &[
                    &[ACCEPT, 10, 0],
                    &[ACCEPT, 11, 0],
                    &[ACCEPT, 12, 3],
                    &[ACCEPT, 14, 4],
                    &[CONSUME_BYTES, limit],
                    &[PEEK],
                    &[CONSUME_BYTES, limit],
                    &[CONSUME_BYTES, 1],
                    &[ACCEPT, 13, 1],
                    &[CONSUME_BYTES, 9],
                ],
            );
        }
        // All slots held, read whole, one byte short, and by packets at each limit about their number.
        for (command, amount) in [
            (CONSUME, 2000 * 64),
            (CONSUME, 2000 * 64 - 1),
            (CONSUME, 2000 * 64 + 8),
            (CONSUME_BYTES, 1999),
            (CONSUME_BYTES, 2000),
            (CONSUME_BYTES, 2001),
        ] {
            list(
                5,
                &[
                    &[ACCEPT_RUN, 5, 2000, 64],
                    &[ACCEPT, 2005, 1],
                    &[ACCEPT, 2004, 1],
                    &[command, amount],
                    &[PEEK],
                    &[HELD],
                    &[ACCEPT, 4004, 2],
                    &[ACCEPT, 4005, 2],
                    &[CONSUME_BYTES, 9],
                ],
            );
        }
        // All slots held by empty packets.
        list(5, &[&[ACCEPT_RUN, 5, 2001, 0], &[CONSUME, 1], &[PEEK], &[ACCEPT_RUN, 2005, 3, 1]]);
        // Round the end of the slots, with the front three before it.
        for (command, amount) in [
            (CONSUME, 3),
            (CONSUME, 4),
            (CONSUME, 7),
            (CONSUME, 9),
            (CONSUME, 64),
            (CONSUME_BYTES, 3),
            (CONSUME_BYTES, 4),
            (CONSUME_BYTES, 5),
        ] {
            list(
                0,
                &[
                    &[ACCEPT_RUN, 0, 1997, 1],
                    &[CONSUME, 1997],
                    &[ACCEPT, 3997, 2],
                    &[ACCEPT, 3996, 2],
                    &[ACCEPT_RUN, 1997, 2, 2],
                    &[ACCEPT, 2000, 0],
                    &[ACCEPT, 1999, 5],
                    &[ACCEPT, 2002, 3],
                    &[HELD],
                    &[command, amount],
                    &[HELD],
                    &[ACCEPT, 2001, 3],
                    &[ACCEPT, 1999, 5],
                    &[CONSUME_BYTES, 2],
                    &[CONSUME, 1],
                    &[CONSUME, 10],
                ],
            );
        }
        // The start set anew with nothing held, before any packet, behind some and over a carry-over.
        list(
            7,
            &[
                &[SET_START, 100],
                &[ACCEPT, 7, 1],
                &[ACCEPT, 99, 1],
                &[ACCEPT, 100, 5],
                &[SET_START, 3],
                &[CONSUME, 3],
                &[SET_START, 3],
                &[PEEK],
                &[ACCEPT, 3, 4],
                &[CONSUME, 4],
                &[CONSUME, 64],
                &[SET_START, u64::MAX],
                &[PEEK],
            ],
        );
        // The last numbers of 64 bits.
        let end = u64::MAX;
        list(
            end - 5,
            &[
                &[ACCEPT, end, 1],
                &[ACCEPT, end - 1, 3],
                &[ACCEPT, end - 6, 1],
                &[ACCEPT_RUN, end - 5, 5, 2],
                &[ACCEPT_RUN, end - 5, 4, 2],
                &[CONSUME, 10],
                &[CONSUME, 1],
                &[ACCEPT, end - 1, 3],
                &[ACCEPT, end, 1],
                &[CONSUME_BYTES, 1],
                &[SET_START, end],
                &[PEEK],
            ],
        );
        list(end - 1999, &[&[ACCEPT, end, 1], &[ACCEPT, end - 1, 1]]);
        list(end - 2000, &[&[ACCEPT, end, 1], &[ACCEPT, end - 1, 1]]);
        cases
    }

    fn start(rng: &mut Xorshift) -> Option<Question> {
        Some(ask(NEW, &[rng.start_number(2100)]))
    }

    fn random(&self, rng: &mut Xorshift) -> Question {
        let (front, held) = (self.front(), self.held() as u64);
        // Fresh slots are filled at times, and many held ones read, so that the front goes round.
        if held == 0 && rng.one_in(12) {
            let count = 1980 + rng.below(24);
            return ask(ACCEPT_RUN, &[front, count, rng.below(3)]);
        }
        if held > 100 && rng.one_in(3) {
            return match rng.below(2) {
                0 => ask(CONSUME, &[rng.below(6000)]),
                _ => ask(CONSUME_BYTES, &[rng.below(2010)]),
            };
        }
        let distance = match rng.below(24) {
            0 => SLOTS - 6 + rng.below(12),
            1 => rng.below(100),
            _ => rng.below(8),
        };
        let number = if rng.one_in(12) {
            front.saturating_sub(1 + rng.below(3))
        } else {
            front.saturating_add(distance)
        };
        let length = match rng.below(6) {
            0 => 0,
            1 => WIDTH - rng.below(3),
            2 => rng.below(WIDTH + 1),
            _ => 1 + rng.below(8),
        };
        match rng.below(40) {
            0 => ask(HELD, &[]),
            1 => ask(SET_START, &[rng.start_number(2100)]),
            2 | 3 => ask(PEEK, &[]),
            4..=6 => ask(ACCEPT_RUN, &[number, 1 + rng.below(6), length]),
            7..=13 => ask(CONSUME, &[rng.below(12)]),
            14 => ask(CONSUME, &[rng.below(200)]),
            15..=18 => ask(CONSUME_BYTES, &[rng.below(4)]),
            _ => ask(ACCEPT, &[number, length]),
        }
    }

    fn answer(&mut self, question: &Question) -> Option<Vec<u64>> {
        let words = &question.words;
        let mut answer = match question.op {
            NEW => {
                *self.0 = OrderedBytes::new(0, words[0]);
                vec![0]
            }
            // Refusal 13: the Rust sets it.
            SET_START if self.held() > 0 => return None,
            SET_START => {
                self.0.set_start_packet_number(words[0]);
                vec![0]
            }
            ACCEPT if self.exhausted(words[0], 1) => return None,
            ACCEPT => vec![self.accept(words[0], words[1])],
            ACCEPT_RUN if self.exhausted(words[0], words[1]) => return None,
            ACCEPT_RUN => self.accept_run(words[0], words[1], words[2]),
            PEEK => vec![self.0.peek().map_or_else(class, |()| 0)],
            CONSUME => self.consume(words[0] as usize),
            CONSUME_BYTES => self.consume_bytes(words[0] as usize),
            HELD => self.all_held(),
            _ => unreachable!("no such command"),
        };
        answer.extend(self.state());
        Some(answer)
    }
}
