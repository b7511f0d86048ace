//! worker/writer.rs: queued data packed into datagrams, and the payload bytes of a datagram counted.

use super::header::{header_of, random_fields};
use crate::core::Serialisable;
use crate::record::{ask, ask_with, sum, Component, Question, Xorshift};
use crate::worker::writer::probe;
use bytes::Bytes;
use std::collections::VecDeque;

const PACK: u64 = 1;
const COUNT: u64 = 2;

/// The most payload bytes that one call packs, and the bytes of each packet but the last.
const LIMIT: u64 = 15_000;
const PAYLOAD: u64 = 1500;

/// What output bytes hold before a packing.
const BEFORE: u8 = 9;

/// The queue's bytes end to end follow from their places.
pub fn queued(total: u64) -> Vec<u8> {
    (0..total).map(|at| (at * 31 + at / 256) as u8).collect()
}

/// The bytes that the packets of a queue take in the output.
fn needed(lengths: &[u64]) -> u64 {
    let taken = LIMIT.min(lengths.iter().sum());
    taken + (taken + PAYLOAD - 1) / PAYLOAD * 20
}

/// Next number, ids, length of the output, total, and the entries: their count and their lengths.
fn pack(next: u64, ids: [u64; 2], spare: u64, lengths: &[u64]) -> Question {
    let words = [
        next,
        ids[0],
        ids[1],
        needed(lengths) + spare,
        lengths.iter().sum(),
        lengths.len() as u64,
    ];
    ask(PACK, &[&words, lengths].concat())
}

/// Entries removed and bytes cut from the first one left, by the queue of before and the one of after; nothing where the one
/// of after is not the end of the other.
fn removed(before: &VecDeque<Bytes>, after: &VecDeque<Bytes>) -> Option<[u64; 2]> {
    let entries = before.len().checked_sub(after.len())?;
    let mut left = before.iter().skip(entries).zip(after);
    let mut cut = 0;
    if let Some((old, new)) = left.next() {
        cut = old.len().checked_sub(new.len())?;
        if old[cut..] != new[..] {
            return None;
        }
    }
    left.all(|(old, new)| old == new)
        .then_some([entries as u64, cut as u64])
}

/// Bytes taken, packets, next number, entries removed, bytes cut, and the sum of the output.
fn packed(words: &[u64]) -> Vec<u64> {
    let [next, src, dst, room, total, _, lengths @ ..] = words else {
        unreachable!("a packing has six words and its lengths")
    };
    let mut bytes = Bytes::from(queued(*total));
    let before: VecDeque<_> = lengths
        .iter()
        .map(|&length| bytes.split_to(length as usize))
        .collect();
    let mut queue = before.clone();
    let (mut number, mut out) = (*next, Vec::new());
    let (src, dst) = (*src as u32, *dst as u32);
    let taken = probe::consume_data_into(&mut queue, &mut number, src, dst, &mut out);
    let [entries, cut] = removed(&before, &queue).unwrap_or([u64::MAX; 2]);
    assert!(out.len() as u64 <= *room);
    out.resize(*room as usize, BEFORE);
    vec![0, taken as u64, number - next, number, entries, cut, sum(&out)]
}

/// A queue about a multiple of the packets' payload, with the limit among them, cut at random places; at times with more
/// behind it.
fn random_lengths(rng: &mut Xorshift) -> Vec<u64> {
    let mut lengths = Vec::new();
    if rng.one_in(3) {
        for _ in 0..rng.below(10) {
            let longest = rng.pick(&[1, 40, 1500, 4000]);
            lengths.push(rng.below(longest + 1));
        }
    } else {
        let multiple = rng.pick(&[1, 2, 3, 9, 10, 10, 10, 11]);
        let mut left = multiple * PAYLOAD + rng.below(3) - 1;
        while left > 0 && lengths.len() < 20 {
            let length = match rng.below(4) {
                0 => PAYLOAD - 1 + rng.below(3),
                1 => rng.below(4000),
                2 => rng.below(40),
                _ => left,
            };
            lengths.push(length.min(left));
            left -= length.min(left);
        }
        for _ in 0..rng.below(4) {
            lengths.push(rng.pick(&[0, 0, 1, 1500]));
        }
    }
    for _ in 0..rng.below(3) {
        let at = rng.below(lengths.len() as u64 + 1) as usize;
        lengths.insert(at, 0);
    }
    lengths
}

/// Packets end to end, of any type with a field of its own, often with one fault.
fn random_datagram(rng: &mut Xorshift) -> Vec<u8> {
    let mut datagram = Vec::new();
    for _ in 0..rng.below(5) {
        let mut fields = random_fields(rng);
        let payload = rng.below(30);
        if !rng.one_in(6) {
            fields[2] = payload;
        }
        datagram.extend(header_of(&fields).expect("fields within their bits").serialise());
        datagram.extend(rng.bytes(payload));
    }
    let length = datagram.len() as u64;
    match rng.below(6) {
        0 => datagram.truncate(rng.below(length + 1) as usize),
        1 => {
            let more = 1 + rng.below(22);
            datagram.extend(rng.bytes(more));
        }
        2 if length > 0 => datagram[rng.below(length) as usize] ^= 1 << rng.below(8),
        3 if length > 0 => datagram[2] = datagram[2].wrapping_add(rng.pick(&[1, 255])),
        _ => {}
    }
    datagram
}

#[derive(Default)]
pub struct Writer;

impl Component for Writer {
    const NAME: &'static str = "writer";
    const RANDOM: usize = 4000;

    fn cases() -> Vec<Question> {
        let mut cases = Vec::new();
        let ids = [0x0102_0304, 0xfffe_fdfc];
        // No entry, empty entries, and one entry about each multiple of a payload.
        for lengths in [&[][..], &[0], &[0, 0, 0]] {
            cases.push(pack(7, ids, 5, lengths));
        }
        for multiple in 0..=11 {
            for length in [multiple * PAYLOAD, multiple * PAYLOAD + 1, (multiple + 1) * PAYLOAD - 1] {
                cases.push(pack(7, ids, 0, &[length]));
                cases.push(pack(7, ids, 3, &[length, 0]));
                cases.push(pack(7, ids, 0, &[0, length, 0, 1, 0]));
            }
        }
        // Totals one below the limit, at it and above it, cut at each kind of place, with empty entries about the last byte.
        for total in [LIMIT - 1, LIMIT, LIMIT + 1] {
            for first in [1, 1499, 1500, 1501, 7500, 13_499, 13_500, 13_501, 14_998, 14_999] {
                cases.push(pack(7, ids, 0, &[first, total - first]));
                cases.push(pack(7, ids, 0, &[0, first, 0, 0, total - first, 0, 0]));
                cases.push(pack(7, ids, 0, &[first, 0, total - first, 0, 5, 0]));
            }
            for each in [300, 750, 1000, 1500, 3000] {
                let mut lengths = vec![each; (LIMIT / each) as usize - 1];
                lengths.extend([total + each - LIMIT, 0, 0]);
                cases.push(pack(7, ids, 0, &lengths));
                lengths.push(1500);
                cases.push(pack(7, ids, 0, &lengths));
            }
        }
        // Document 01's samples, and the last numbers of 64 bits.
        for lengths in [&[1499, 2][..], &[15_001]] {
            for next in [7, u64::MAX - 10, u64::MAX - 2, u64::MAX - 1, u64::MAX] {
                cases.push(pack(next, ids, 0, lengths));
            }
        }
        // Datagrams: none, headers cut, fields that end before, at and behind the end, and an ack's field, which counts too.
        let head = |kind: u8, field: u8| [&[kind, 0, field][..], &[0; 17]].concat();
        for length in [0, 1, 19] {
            cases.push(ask_with(COUNT, &[], &vec![1; length]));
        }
        for kind in [3, 4, 0x07, 0xff] {
            for rest in [0, 1, 4, 5, 6, 24, 25, 26, 45] {
                let datagram = [head(kind, 5), head(kind, 0), head(3, 1), vec![0; 5]].concat();
                cases.push(ask_with(COUNT, &[], &datagram[..20 + rest]));
            }
        }
        for field in [[0, 255], [1, 0], [255, 255]] {
            let mut datagram = head(3, 0);
            datagram[1..3].copy_from_slice(&field);
            datagram.resize(20 + 256, 0);
            cases.push(ask_with(COUNT, &[], &datagram));
        }
        cases
    }

    fn random(&self, rng: &mut Xorshift) -> Question {
        if rng.one_in(3) {
            return ask_with(COUNT, &[], &random_datagram(rng));
        }
        let next = rng.start_number(24);
        let ids = [rng.next() >> 32, rng.next() >> 32];
        let spare = rng.pick(&[0, 0, 1, 50]);
        pack(next, ids, spare, &random_lengths(rng))
    }

    fn answer(&mut self, question: &Question) -> Option<Vec<u64>> {
        Some(match question.op {
            PACK => packed(&question.words),
            COUNT => vec![0, probe::payload_bytes_in_datagram(question.bytes()) as u64],
            _ => unreachable!("no such command"),
        })
    }
}
