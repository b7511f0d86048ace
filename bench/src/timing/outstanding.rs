//! The packets kept to be sent again, listed and dropped. The published Rust keeps none: a row is held against the copy that it cannot do
//! without.

use crate::inputs::{data_datagram, PAYLOAD, START};
use crate::table::{timed, Row, Table};
use bench::kept::{Kept, PLACES, PLACES_BYTES};
use std::cell::RefCell;
use std::hint::black_box;

/// Calls in a round, where a call leaves what the next one finds.
const CALLS: usize = 8;

/// A store of 64 packets of 1,500 bytes.
fn full() -> Kept {
    let mut kept = Kept::new();
    kept.state.count = PLACES;
    kept.numbers = (START..).take(PLACES).collect();
    kept.lengths = vec![PAYLOAD as u32; PLACES];
    kept.packets = data_datagram(START, PLACES as u64);
    assert_eq!(kept.packets.len(), PLACES_BYTES);
    kept
}

/// Both write to one output: where memory lies counts for more than what is measured.
fn listing(table: &mut Table) {
    let kept = full();
    let out = RefCell::new(vec![0; PLACES_BYTES]);
    table.over_floor(
        Row {
            name: "list all".into(),
            units: CALLS,
            theirs: Box::new(|| {
                let out = &mut out.borrow_mut()[..];
                timed(|| {
                    for _ in 0..CALLS {
                        black_box(&mut *out).copy_from_slice(black_box(&kept.packets));
                    }
                })
            }),
            ours: Box::new(|| {
                let out = &mut out.borrow_mut()[..];
                timed(|| {
                    for _ in 0..CALLS {
                        black_box(black_box(&kept).list(&mut *out));
                    }
                })
            }),
            goal: Some(1.1),
        },
        "the copy of 97,280 bytes alone",
    );
    let mut out = vec![0; PLACES_BYTES];
    assert_eq!(kept.list(&mut out).packets, PLACES);
    assert_eq!(out, kept.packets);
}

/// The usual case: nothing is left, so that nothing moves.
fn dropping_all(table: &mut Table) {
    let mut kept = full();
    let all = kept.state;
    let round = || {
        timed(|| {
            for _ in 0..CALLS {
                kept.state = black_box(all);
                black_box(kept.drop_answered(START + PLACES as u64 - 1));
            }
        })
    };
    table.alone("drop all", CALLS, Box::new(round));
    assert_eq!(kept.state.count, 0);
}

/// The numbers are laid out again before each call, off the clock.
fn dropping_half(table: &mut Table) {
    let (mut kept, before) = (full(), full());
    let mut moved = before.packets.clone();
    table.over_floor(
        Row {
            name: "drop the first 32".into(),
            units: 1,
            theirs: Box::new(|| timed(|| black_box(&mut moved).copy_within(PLACES_BYTES / 2.., 0))),
            ours: Box::new(|| {
                kept.state = before.state;
                kept.numbers.copy_from_slice(&before.numbers);
                timed(|| kept.drop_answered(START + PLACES as u64 / 2 - 1))
            }),
            goal: None,
        },
        "the move of 48,640 bytes alone",
    );
    assert_eq!(kept.state.count, PLACES / 2);
    assert_eq!(kept.numbers[0], START + PLACES as u64 / 2);
    assert_eq!(kept.packets, moved);
}

pub fn rows(table: &mut Table) {
    table.group("64 packets of 1,500 kept to be sent again");
    listing(table);
    dropping_all(table);
    dropping_half(table);
}
