//! Data and acks packed.

use crate::inputs::{bytes, PAYLOAD, START};
use crate::table::{timed, Row, Table};
use bench::kept::{Kept, Queue};
use bluefin::sys::{self, Ack};
use bytes::Bytes;
use oracle::linked::{consume_data_into, AckQueue};
use std::collections::VecDeque;
use std::hint::black_box;

const DATA: usize = 15_000;
const ACKS: usize = 760;
const DATAGRAM: usize = 15_200;

/// The ids of a connection. The published Rust is inlined here, and must not see that they are always the same.
const IDS: [u32; 2] = [1, 2];

/// Datagrams packed in a round.
const DATAGRAMS: usize = 4;

/// The store is empty at each packing: its count goes by value.
fn data(table: &mut Table, entries: usize, goal: Option<f64>) {
    let queued = bytes(DATA);
    let lengths = vec![(DATA / entries) as u32; entries];
    let mut theirs = [(); DATAGRAMS].map(|()| Vec::with_capacity(DATAGRAM));
    let (mut ours, mut kept) = (vec![0; DATAGRAM], Kept::new());
    let empty = kept.state;
    table.row(Row {
        name: format!("pack {DATA} bytes of {entries} entries, here with the store"),
        units: DATAGRAMS,
        theirs: Box::new(|| {
            let entries = || queued.chunks(DATA / entries).map(Bytes::copy_from_slice);
            let mut queues = [(); DATAGRAMS].map(|()| entries().collect::<VecDeque<Bytes>>());
            for out in &mut theirs {
                out.clear();
            }
            timed(|| {
                for (queue, out) in queues.iter_mut().zip(&mut theirs) {
                    let (mut next, [src, dst]) = black_box((START, IDS));
                    black_box(consume_data_into(queue, &mut next, src, dst, out));
                }
            })
        }),
        ours: Box::new(|| {
            timed(|| {
                for _ in 0..DATAGRAMS {
                    let queue = black_box(Queue {
                        bytes: &queued,
                        lengths: &lengths,
                    });
                    kept.state = empty;
                    black_box(kept.pack(queue, START, IDS, &mut ours));
                }
            })
        }),
        goal,
    });
    assert!(theirs.iter().all(|out| *out == ours));
    assert_eq!(kept.state.count, DATA / PAYLOAD);
    assert!(kept.packets.starts_with(&ours));
}

/// What keeping cannot do without: one copy of the datagram.
fn floor(table: &mut Table) {
    let datagram = bytes(DATAGRAM);
    let mut kept = Kept::new();
    let copy = || {
        timed(|| {
            for _ in 0..DATAGRAMS {
                let to = black_box(&mut kept.packets[..DATAGRAM]);
                to.copy_from_slice(black_box(&datagram));
            }
        })
    };
    table.alone("the copy of 15,200 bytes alone", DATAGRAMS, Box::new(copy));
}

fn acks(table: &mut Table) {
    let mut queue = AckQueue::default();
    let mut records = Vec::new();
    for i in 0..ACKS as u64 {
        queue.push_back(START + i, 1);
        records.push(Ack {
            base_packet_num: START + i,
            num_packets_consumed: 1,
        });
    }
    let full = sys::Ring {
        head: 0,
        tail: 0,
        len: ACKS,
    };
    let (mut theirs, mut ours) = (Vec::with_capacity(DATAGRAM), vec![0; DATAGRAM]);
    table.row(Row {
        name: "pack 760 acks".into(),
        units: 1,
        theirs: Box::new(|| {
            let mut queue = queue.clone();
            theirs.clear();
            let [src, dst] = black_box(IDS);
            timed(|| queue.consume_acks_into(src, dst, &mut theirs))
        }),
        ours: Box::new(|| {
            let mut records = records.clone();
            timed(|| {
                // SAFETY: each pointer stands beside the length of its vector, and the two do not overlap.
                unsafe {
                    sys::bluefin_consume_acks_into(
                        full,
                        records.as_mut_ptr(),
                        records.len(),
                        0,
                        IDS[0],
                        IDS[1],
                        ours.as_mut_ptr(),
                        ours.len(),
                    )
                }
            })
        }),
        goal: Some(0.5),
    });
    assert_eq!(theirs, ours);
}

pub fn rows(table: &mut Table) {
    table.group("pack a datagram");
    for (entries, goal) in [(1, None), (10, Some(0.55)), (100, None), (1_000, None)] {
        data(table, entries, goal);
    }
    floor(table);
    acks(table);
}
