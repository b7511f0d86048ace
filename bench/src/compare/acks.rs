//! Queued acks packed into a datagram that is already used in part.

use crate::tally::Ours;
use bluefin::sys::{self, Ack};
use oracle::components::acks;
use oracle::record::{sum, Question};

/// What output bytes hold before a packing.
const BEFORE: u8 = 9;

/// What cells outside the ring hold.
const OUTSIDE: Ack = Ack {
    base_packet_num: 77,
    num_packets_consumed: 7,
};

#[derive(Default)]
pub struct Acks;

/// The pattern over and over, each base as many numbers from its own end of the 64 bits as there are records before it.
fn record(pattern: &[u64], at: usize) -> Ack {
    let i = at % (pattern.len() / 2);
    let base = pattern[2 * i];
    let base_packet_num = if base >> 63 == 0 {
        base + at as u64
    } else {
        base - at as u64
    };
    Ack {
        base_packet_num,
        num_packets_consumed: pattern[2 * i + 1] as u32,
    }
}

/// What stands for the records left: each of them, and where it stands, counts.
fn sum_of_records(records: impl Iterator<Item = Ack>) -> u64 {
    records.fold(0, |sum, ack| {
        let sum = sum % 1_000_000_007 * 257 + ack.base_packet_num % 1_000_000_007;
        sum % 1_000_000_007 * 257 + u64::from(ack.num_packets_consumed) + 1
    })
}

impl Ours for Acks {
    type Theirs = acks::Acks;

    fn answer(&mut self, question: &Question) -> Vec<u64> {
        let [src, dst, used, room, cells, head, queued, _, pattern @ ..] = &question.words[..]
        else {
            unreachable!("a packing has eight words and its pattern")
        };
        let [cells, head, queued] = [cells, head, queued].map(|&word| word as usize);
        let cell = |i: usize| (head + i) % cells;
        let mut records = vec![OUTSIDE; cells];
        for i in 0..queued {
            records[cell(i)] = record(pattern, i);
        }
        let ring = sys::Ring {
            head,
            tail: if cells == 0 { 0 } else { cell(queued) },
            len: queued,
        };
        let mut out = vec![BEFORE; *room as usize];
        // SAFETY: each pointer stands beside the length of its vector, and the two do not overlap.
        let told = unsafe {
            sys::bluefin_consume_acks_into(
                ring,
                records.as_mut_ptr(),
                cells,
                *used as usize,
                *src as u32,
                *dst as u32,
                out.as_mut_ptr(),
                out.len(),
            )
        };
        if told.refusal != 0 {
            return vec![told.refusal.into()];
        }
        // The ring moved by what it answers; popped cells are blank, and cells outside it stay.
        let moved = told.ring.len + told.acks == queued
            && told.ring.tail == ring.tail
            && (cells == 0 || told.ring.head == cell(told.acks))
            && (0..told.acks).all(|i| records[cell(i)] == Ack::default())
            && (queued..cells).all(|i| records[cell(i)] == OUTSIDE);
        let left = (told.acks..queued).map(|i| records[cell(i)]);
        vec![
            u64::from(!moved),
            told.acks as u64,
            told.to_send.into(),
            used + 20 * told.acks as u64,
            sum(&out),
            told.ring.len as u64,
            sum_of_records(left),
        ]
    }
}
