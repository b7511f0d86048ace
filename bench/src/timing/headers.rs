//! The header, written and read.

use crate::inputs::header;
use crate::table::{timed, Row, Table};
use bluefin::sys;
use bluefin_proto::BluefinResult;
use oracle::core::header::{BluefinHeader, PacketType};
use oracle::core::Serialisable;
use std::hint::black_box;

const HEADERS: usize = 256;

fn flat(h: &BluefinHeader) -> sys::Header {
    sys::Header {
        packet_number: h.packet_number,
        source_connection_id: h.source_connection_id,
        destination_connection_id: h.destination_connection_id,
        type_specific_payload: h.type_specific_payload,
        version: h.version,
        type_field: h.type_field as u8,
        header_protection_mask: h.security_fields.mask(),
        header_encrypted: h.security_fields.encrypted(),
    }
}

/// The published Rust behind a call, as this library always is.
#[inline(never)]
fn called_serialise_into(header: &BluefinHeader, buf: &mut [u8]) -> usize {
    header.serialise_into(buf)
}

#[inline(never)]
fn called_deserialise(bytes: &[u8]) -> BluefinResult<BluefinHeader> {
    BluefinHeader::deserialise(bytes)
}

fn writes(table: &mut Table, headers: &[BluefinHeader], bytes: &mut [u8]) {
    let flat: Vec<sys::Header> = headers.iter().map(flat).collect();
    let mut buffers = bytes.to_vec();
    let mut ours = || {
        timed(|| {
            for (header, buf) in flat.iter().zip(buffers.chunks_exact_mut(20)) {
                // SAFETY: the pointer and the length are those of one slice.
                black_box(unsafe {
                    sys::bluefin_header_serialise_into(
                        *black_box(header),
                        buf.as_mut_ptr(),
                        buf.len(),
                    )
                });
            }
        })
    };
    table.row(Row {
        name: "header write".into(),
        units: HEADERS,
        theirs: Box::new(|| {
            timed(|| {
                for (header, buf) in headers.iter().zip(bytes.chunks_exact_mut(20)) {
                    black_box(black_box(header).serialise_into(buf));
                }
            })
        }),
        ours: Box::new(&mut ours),
        goal: Some(1.0),
    });
    table.row(Row {
        name: "header write, the original not inlined".into(),
        units: HEADERS,
        theirs: Box::new(|| {
            timed(|| {
                for (header, buf) in headers.iter().zip(bytes.chunks_exact_mut(20)) {
                    black_box(called_serialise_into(black_box(header), buf));
                }
            })
        }),
        ours: Box::new(&mut ours),
        goal: None,
    });
    assert_eq!(bytes, buffers);
}

fn reads(table: &mut Table, bytes: &[u8]) {
    let ours = || {
        timed(|| {
            for bytes in bytes.chunks_exact(20) {
                let bytes = black_box(bytes);
                // SAFETY: the pointer and the length are those of one slice, which is only read.
                black_box(unsafe { sys::bluefin_header_deserialise(bytes.as_ptr(), bytes.len()) });
            }
        })
    };
    table.row(Row {
        name: "header read".into(),
        units: HEADERS,
        theirs: Box::new(|| {
            timed(|| {
                for bytes in bytes.chunks_exact(20) {
                    let _ = black_box(BluefinHeader::deserialise(black_box(bytes)));
                }
            })
        }),
        ours: Box::new(ours),
        goal: None,
    });
    table.row(Row {
        name: "header read, the original not inlined".into(),
        units: HEADERS,
        theirs: Box::new(|| {
            timed(|| {
                for bytes in bytes.chunks_exact(20) {
                    let _ = black_box(called_deserialise(black_box(bytes)));
                }
            })
        }),
        ours: Box::new(ours),
        goal: None,
    });
}

pub fn rows(table: &mut Table) {
    table.group("header");
    let make = |i| header(PacketType::UnencryptedData, i as u16, i as u64);
    let headers: Vec<BluefinHeader> = (0..HEADERS).map(make).collect();
    let mut bytes = vec![0; 20 * HEADERS];
    writes(table, &headers, &mut bytes);
    reads(table, &bytes);
}
