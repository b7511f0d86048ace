//! The header, written and read.

use crate::tally::Ours;
use bluefin::sys;
use oracle::components::header::{self, BEFORE};
use oracle::record::Question;

const SERIALISE_INTO: u64 = 3;
const DESERIALISE: u64 = 4;

/// The header of the oracle's eight words.
pub fn header_of(w: &[u64]) -> sys::Header {
    sys::Header {
        version: w[0] as u8,
        type_field: w[1] as u8,
        type_specific_payload: w[2] as u16,
        header_encrypted: w[3] != 0,
        header_protection_mask: w[4] as u8,
        source_connection_id: w[5] as u32,
        destination_connection_id: w[6] as u32,
        packet_number: w[7],
    }
}

pub fn fields_of(h: sys::Header) -> [u64; 8] {
    [
        h.version.into(),
        h.type_field.into(),
        h.type_specific_payload.into(),
        h.header_encrypted.into(),
        h.header_protection_mask.into(),
        h.source_connection_id.into(),
        h.destination_connection_id.into(),
        h.packet_number,
    ]
}

/// 0 and the bytes written, or the refusal; then the whole buffer.
pub fn written(told: sys::Written, buf: &[u8]) -> Vec<u64> {
    let mut answer = vec![told.refusal.into()];
    if told.refusal == 0 {
        answer.push(told.bytes as u64);
    }
    answer.extend(buf.iter().map(|&b| u64::from(b)));
    answer
}

#[derive(Default)]
pub struct Header;

impl Ours for Header {
    type Theirs = header::Header;

    fn has(question: &Question) -> bool {
        [SERIALISE_INTO, DESERIALISE].contains(&question.op)
    }

    fn answer(&mut self, question: &Question) -> Vec<u64> {
        if question.op == SERIALISE_INTO {
            let mut buf = vec![BEFORE; question.words[8] as usize];
            let header = header_of(&question.words);
            // SAFETY: the pointer and the length are those of one vector.
            let told =
                unsafe { sys::bluefin_header_serialise_into(header, buf.as_mut_ptr(), buf.len()) };
            return written(told, &buf);
        }
        let bytes = question.bytes();
        // SAFETY: the pointer and the length are those of one slice, which is only read.
        let read = unsafe { sys::bluefin_header_deserialise(bytes.as_ptr(), bytes.len()) };
        match read.refusal {
            0 => [&[0], &fields_of(read.header)[..]].concat(),
            refusal => vec![refusal.into()],
        }
    }
}
