//! worker/writer.rs: queued acks packed into a datagram that is already used in part.

use crate::record::{ask, sum, Component, Question, Xorshift};
use crate::worker::writer::probe;
use std::collections::VecDeque;

const PACK: u64 = 1;

/// The bytes of a datagram, and how many acks an unused one takes.
const LIMIT: u64 = 15_200;
const MOST: u64 = 760;

/// The most cells of the ring that stands for the queue.
const CELLS: u64 = 800;

/// The largest count that an ack's field holds.
const LARGEST: u64 = 65_535;

/// What output bytes hold before a packing.
const BEFORE: u8 = 9;

type Record = (u64, u64);

/// A ring of so many cells, whose first record is in the cell `head`.
#[derive(Clone, Copy)]
struct Ring {
    cells: u64,
    head: u64,
}

/// How many of the queued acks fit behind the bytes used.
fn due(queued: u64, used: u64) -> u64 {
    queued.min(LIMIT.saturating_sub(used) / 20)
}

/// Ids, bytes used, length of the output, the ring, how many records are queued, and the pattern: its length and its records.
fn pack(
    ids: [u64; 2],
    used: u64,
    spare: u64,
    ring: Ring,
    queued: u64,
    pattern: &[Record],
) -> Question {
    let room = used + 20 * due(queued, used) + spare;
    let mut words = vec![ids[0], ids[1], used, room, ring.cells, ring.head, queued];
    words.push(pattern.len() as u64);
    for &(base, count) in pattern {
        words.extend([base, count]);
    }
    ask(PACK, &words)
}

/// The pattern over and over, each base as many numbers from its own end of the 64 bits as there are records before it.
fn records(queued: u64, pattern: &[u64]) -> VecDeque<(u64, usize)> {
    let mut pattern = pattern.chunks(2).cycle();
    let mut record = |at| {
        let of = pattern.next().expect("a pattern has a record");
        let base = if of[0] >> 63 == 0 {
            of[0] + at
        } else {
            of[0] - at
        };
        (base, of[1] as usize)
    };
    (0..queued).map(&mut record).collect()
}

/// What stands for the records left: each of them, and where it stands, counts.
fn sum_of_records(records: &VecDeque<(u64, usize)>) -> u64 {
    records.iter().fold(0, |sum, &(base, count)| {
        let sum = sum % 1_000_000_007 * 257 + base % 1_000_000_007;
        sum % 1_000_000_007 * 257 + count as u64 + 1
    })
}

/// Acks packed, yes or no, bytes used, sum of the output, records left and their sum. Nothing where a count was cut (11).
fn packed(words: &[u64]) -> Option<Vec<u64>> {
    let [src, dst, used, room, _, _, queued, _, pattern @ ..] = words else {
        unreachable!("a packing has eight words and its pattern")
    };
    let before = records(*queued, pattern);
    let mut queue = before.clone();
    let mut out = vec![BEFORE; *used as usize];
    let to_send = probe::consume_acks_into(&mut queue, *src as u32, *dst as u32, &mut out);
    let acks = before.len() - queue.len();
    if before
        .iter()
        .take(acks)
        .any(|&(_, count)| count as u64 > LARGEST)
    {
        return None;
    }
    let in_use = out.len() as u64;
    assert!(in_use <= *room);
    out.resize(*room as usize, BEFORE);
    let left = [queue.len() as u64, sum_of_records(&queue)];
    Some(
        [
            &[0, acks as u64, to_send.into(), in_use, sum(&out)][..],
            &left,
        ]
        .concat(),
    )
}

#[derive(Default)]
pub struct Acks;

impl Component for Acks {
    const NAME: &'static str = "acks";
    const FOLDER: &'static str = "hosts/replay/";
    const RANDOM: usize = 500;

    fn cases() -> Vec<Question> {
        let mut cases = Vec::new();
        let ids = [0x0102_0304, 0xfffe_fdfc];
        let ends = [
            (0, 0),
            (u64::MAX, LARGEST),
            (1 << 63, 1),
            ((1 << 63) - CELLS, 256),
        ];
        // Queues of none, of one and about a whole datagram, where 760, 2, 1 or no ack is let through, a byte less or more used.
        for used in [
            0, 1, 20, 15_160, 15_161, 15_179, 15_180, 15_181, 15_199, 15_200, 15_201, 15_220,
        ] {
            for queued in [0, 1, 2, 3, MOST - 1, MOST, MOST + 1, CELLS] {
                for ring in [
                    Ring {
                        cells: queued,
                        head: 0,
                    },
                    Ring {
                        cells: CELLS,
                        head: CELLS - 1,
                    },
                ] {
                    cases.push(pack(ids, used, used % 3, ring, queued, &ends));
                }
            }
        }
        // Each count and each base alone; counts above the largest, among the acks packed and behind them.
        let ring = Ring { cells: 3, head: 2 };
        for count in [
            0,
            1,
            255,
            256,
            32_768,
            LARGEST - 1,
            LARGEST,
            LARGEST + 1,
            (1 << 32) - 1,
        ] {
            for base in [0, 1, 0x0102_0304_0506_0708, u64::MAX - 1, u64::MAX] {
                cases.push(pack(ids, 0, 0, ring, 1, &[(base, count)]));
                cases.push(pack(ids, 15_180, 1, ring, 2, &[(base, 3), (base, count)]));
            }
        }
        for ids in [[0, 0], [0, u32::MAX.into()], [u32::MAX.into(), 0]] {
            cases.push(pack(ids, 7, 2, ring, 3, &[(9, 3)]));
        }
        cases
    }

    fn random(&self, rng: &mut Xorshift) -> Question {
        let used = match rng.below(4) {
            0 => 0,
            1 => rng.below(LIMIT + 40),
            _ => LIMIT + 40 - rng.below(400),
        };
        let fitting = due(CELLS, used);
        let queued = match rng.below(4) {
            0 => rng.below(CELLS + 1),
            1 => rng.below(24),
            _ => (fitting + rng.below(3)).saturating_sub(1),
        };
        let cells = rng.pick(&[queued, queued + 1, CELLS]).min(CELLS).max(1);
        let ring = Ring {
            cells,
            head: rng.below(cells),
        };
        let mut pattern = Vec::new();
        for _ in 0..=rng.below(5) {
            let count = if rng.one_in(40) {
                rng.next() >> 32
            } else {
                rng.next() >> 48
            };
            pattern.push((rng.start_number(24), count));
        }
        let ids = [rng.next() >> 32, rng.next() >> 32];
        pack(ids, used, rng.pick(&[0, 0, 1, 50]), ring, queued, &pattern)
    }

    fn answer(&mut self, question: &Question) -> Option<Vec<u64>> {
        packed(&question.words)
    }
}
