//! Datagrams parsed.

use crate::inputs::{ack_datagram, data_datagram, START};
use crate::table::{timed, Row, Table};
use bluefin::sys;
use bytes::Bytes;
use oracle::core::packet::BluefinPacket;
use std::hint::black_box;

/// Datagrams parsed in a round.
const DATAGRAMS: usize = 8;

type Parser = unsafe extern "C" fn(*const u8, usize, *mut u32, usize) -> sys::Parsed;

fn parse(parser: Parser, datagram: &[u8], index: &mut [u32]) -> sys::Parsed {
    let datagram = black_box(datagram);
    // SAFETY: each pointer stands beside the length of its slice, and the two do not overlap.
    unsafe {
        parser(
            datagram.as_ptr(),
            datagram.len(),
            index.as_mut_ptr(),
            index.len(),
        )
    }
}

/// Lists the packets, then reads the header of each.
fn parse_and_read(datagram: &[u8], index: &mut [u32]) {
    let parsed = parse(sys::bluefin_from_bytes_into, datagram, index);
    for cell in index.chunks_exact(2).take(parsed.packets) {
        let header = &datagram[cell[0] as usize..cell[0] as usize + 20];
        // SAFETY: the pointer and the length are those of one slice, which is only read.
        black_box(unsafe { sys::bluefin_header_deserialise(header.as_ptr(), 20) });
    }
}

fn rows_on(table: &mut Table, what: &str, datagram: Vec<u8>, goal: f64) {
    let packets = BluefinPacket::from_bytes(&datagram).expect("packets").len();
    let mut index = vec![0; 2 * packets + 2];
    let shared = Bytes::from(datagram.clone());
    let mut into: Vec<Vec<BluefinPacket>> = Vec::new();
    into.resize_with(DATAGRAMS, || Vec::with_capacity(packets));
    assert_eq!(
        parse(sys::bluefin_from_bytes, &datagram, &mut index).packets,
        packets
    );
    table.row(Row {
        name: format!("`from_bytes` of {what}"),
        units: DATAGRAMS,
        theirs: Box::new(|| {
            timed(|| {
                let parse = || BluefinPacket::from_bytes(black_box(&datagram));
                [(); DATAGRAMS].map(|()| parse())
            })
        }),
        ours: Box::new(|| {
            timed(|| {
                for _ in 0..DATAGRAMS {
                    black_box(parse(sys::bluefin_from_bytes, &datagram, &mut index));
                }
            })
        }),
        goal: Some(goal),
    });
    table.row(Row {
        name: format!("`from_bytes_into` of {what}"),
        units: DATAGRAMS,
        theirs: Box::new(|| into_vectors(&shared, &mut into)),
        ours: Box::new(|| {
            timed(|| {
                for _ in 0..DATAGRAMS {
                    black_box(parse(sys::bluefin_from_bytes_into, &datagram, &mut index));
                }
            })
        }),
        goal: Some(goal),
    });
    table.row(Row {
        name: format!("`from_bytes_into` of {what}, each header read too"),
        units: DATAGRAMS,
        theirs: Box::new(|| into_vectors(&shared, &mut into)),
        ours: Box::new(|| {
            timed(|| {
                for _ in 0..DATAGRAMS {
                    parse_and_read(&datagram, &mut index);
                }
            })
        }),
        goal: None,
    });
}

/// The published Rust fills vectors that have room; they are emptied before.
fn into_vectors(shared: &Bytes, into: &mut [Vec<BluefinPacket>]) -> std::time::Duration {
    for packets in into.iter_mut() {
        packets.clear();
    }
    timed(|| {
        for packets in into {
            let _ = black_box(BluefinPacket::from_bytes_into(shared.clone(), packets));
        }
    })
}

pub fn rows(table: &mut Table) {
    table.group("parse a datagram");
    rows_on(table, "10 × 1,500", data_datagram(START, 10), 0.2);
    rows_on(table, "760 acks", ack_datagram(START, 760, 1), 0.3);
}
