//! Datagrams parsed by both parsers, and packets written and read alone.

use crate::header::{fields_of, header_of, written};
use crate::tally::{not_compared, Ours};
use bluefin::sys;
use oracle::components::header::BEFORE;
use oracle::components::packet;
use oracle::record::Question;

const PARSE: u64 = 1;
const SERIALISE_INTO: u64 = 2;

/// What the index holds before a call: no cell has it.
const BLANK: u32 = u32::MAX;

type Parser = unsafe extern "C" fn(*const u8, usize, *mut u32, usize) -> sys::Parsed;

/// A blank index with room for the packets of a datagram, and for two more.
pub fn index_for(datagram: &[u8]) -> Vec<u32> {
    vec![BLANK; 2 * (datagram.len() / 20 + 2)]
}

/// The cells of the packets counted; where others are written, a number follows that no index holds.
pub fn cells(index: &[u32], packets: usize) -> Vec<u64> {
    let (cells, rest) = index.split_at(index.len().min(2 * packets));
    let mut cells: Vec<u64> = cells.iter().map(|&cell| cell.into()).collect();
    if rest.iter().any(|&cell| cell != BLANK) {
        cells.push(u64::MAX);
    }
    cells
}

/// Kind, count or cursor, and the cells of the packets that the answer counts, refused or not.
fn parsed(datagram: &[u8], parser: Parser) -> Vec<u64> {
    let mut index = index_for(datagram);
    // SAFETY: each pointer stands beside the length of its slice, and the two do not overlap.
    let told = unsafe {
        parser(
            datagram.as_ptr(),
            datagram.len(),
            index.as_mut_ptr(),
            index.len(),
        )
    };
    let at = match told.refusal {
        0 => told.packets,
        _ => told.cursor,
    };
    let cells = cells(&index, told.packets);
    [&[told.refusal.into(), at as u64], &cells[..]].concat()
}

#[derive(Default)]
pub struct Packet;

impl Ours for Packet {
    type Theirs = packet::Packet;

    fn answer(&mut self, question: &Question) -> Vec<u64> {
        let bytes = question.bytes();
        match question.op {
            PARSE => [
                parsed(bytes, sys::bluefin_from_bytes),
                parsed(bytes, sys::bluefin_from_bytes_into),
            ]
            .concat(),
            SERIALISE_INTO => {
                let mut buf = vec![BEFORE; question.words[8] as usize];
                // SAFETY: each pointer stands beside the length of its slice, and the two do not overlap.
                let told = unsafe {
                    sys::bluefin_packet_serialise_into(
                        header_of(&question.words),
                        bytes.as_ptr(),
                        bytes.len(),
                        buf.as_mut_ptr(),
                        buf.len(),
                    )
                };
                written(told, &buf)
            }
            _ => {
                // SAFETY: the pointer and the length are those of one slice, which is only read.
                let read = unsafe { sys::bluefin_packet_deserialise(bytes.as_ptr(), bytes.len()) };
                if read.refusal != 0 {
                    return vec![read.refusal.into()];
                }
                let mut answer = vec![0];
                answer.extend(fields_of(read.header));
                answer.push(bytes.len() as u64 - 20);
                answer.extend(bytes[20..].iter().map(|&b| u64::from(b)));
                answer
            }
        }
    }

    /// Of a datagram above the reading limit both parsers say 11, and nothing is listed.
    fn refuses(&mut self, question: &Question) -> bool {
        let answer = self.answer(question);
        match question.op {
            PARSE if question.bytes().len() > packet::READING_LIMIT => answer == [11, 0, 11, 0],
            _ => not_compared(answer[0]),
        }
    }
}
