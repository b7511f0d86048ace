//! Random datagrams, written byte by byte, and how both sides take them apart.

use crate::packet::{cells, index_for};
use bluefin::sys;
use bluefin_proto::error::BluefinError;
use bytes::Bytes;
use oracle::components::packet::READING_LIMIT;
use oracle::core::packet::BluefinPacket;
use oracle::record::Xorshift;

pub const DATA: u8 = 3;
pub const ACK: u8 = 4;

/// What answers hold before a call; packets of other types keep it.
pub const UNASKED: u8 = 99;

pub fn push_packet(datagram: &mut Vec<u8>, kind: u8, field: u16, number: u64, payload: &[u8]) {
    datagram.push(kind);
    datagram.extend(field.to_be_bytes());
    datagram.extend([0, 0, 0, 0, 1, 0, 0, 0, 2]);
    datagram.extend(number.to_be_bytes());
    datagram.extend(payload);
}

/// At times cuts the datagram, adds a tail, flips a bit of a header, lets a field run too far, or fills it with empty hellos to about the
/// reading limit.
pub fn spoil(datagram: &mut Vec<u8>, rng: &mut Xorshift) {
    let length = datagram.len() as u64;
    match rng.below(12) {
        0 => datagram.truncate(rng.below(length + 1) as usize),
        1 => {
            let more = 1 + rng.below(22);
            datagram.extend(rng.bytes(more));
        }
        2 => datagram[rng.below(length.min(40)) as usize] ^= 1 << rng.below(8),
        3 if rng.one_in(100) => datagram.resize(READING_LIMIT - 20 + rng.below(41) as usize, 0),
        _ => {}
    }
}

/// What a listing and the packets listed were answered. `packets` stand in the index, refused or not.
#[derive(PartialEq, Debug)]
pub struct Told {
    pub refusal: u8,
    pub cursor: usize,
    pub packets: usize,
    pub index: Vec<u32>,
    pub answers: Vec<u8>,
}

/// An index and answers for a datagram; at times either is too short.
pub fn room_for(datagram: &[u8], rng: &mut Xorshift) -> Told {
    let mut index = index_for(datagram);
    if rng.one_in(40) {
        index.truncate(rng.below(12) as usize);
    }
    let mut answers = vec![UNASKED; index.len() / 2 + rng.below(3) as usize];
    if rng.one_in(60) {
        answers.truncate(rng.below(6) as usize);
    }
    Told {
        refusal: 0,
        cursor: 0,
        packets: 0,
        index,
        answers,
    }
}

/// Many calls: lists the packets, and asks `call` about the number, the field and the payload of each of one kind. One call refuses
/// fewer answers than the index has room for with 10, before anything else.
pub fn by_many_calls(
    datagram: &[u8],
    mut room: Told,
    kind: u8,
    mut call: impl FnMut(u64, u16, &[u8]) -> u8,
) -> Told {
    if room.answers.len() < room.index.len() / 2 {
        room.refusal = 10;
        return room;
    }
    // SAFETY: each pointer stands beside the length of its slice, and the two do not overlap.
    let parsed = unsafe {
        sys::bluefin_from_bytes_into(
            datagram.as_ptr(),
            datagram.len(),
            room.index.as_mut_ptr(),
            room.index.len(),
        )
    };
    let listed = room.index.chunks_exact(2).take(parsed.packets);
    for (cell, answer) in listed.zip(&mut room.answers) {
        let packet = &datagram[cell[0] as usize..];
        if packet[0] % 16 == kind {
            let field = u16::from_be_bytes([packet[1], packet[2]]);
            let number = u64::from_be_bytes(packet[12..20].try_into().expect("8 bytes"));
            *answer = call(number, field, &packet[20..20 + cell[1] as usize]);
        }
    }
    room.refusal = parsed.refusal;
    room.cursor = parsed.cursor;
    room.packets = parsed.packets;
    room
}

/// The published Rust's way: the packets listed, each asked about, and the class of each answer; then the listing's own. It is not asked
/// above the reading limit, where document 02 says 11.
pub fn by_the_rust(
    datagram: &[u8],
    mut call: impl FnMut(BluefinPacket) -> Option<u64>,
) -> (Vec<u64>, Vec<u64>, u64) {
    if datagram.len() > READING_LIMIT {
        return (Vec::new(), Vec::new(), 11);
    }
    let mut packets = Vec::new();
    let told = BluefinPacket::from_bytes_into(Bytes::copy_from_slice(datagram), &mut packets);
    let refusal = match told {
        Ok(count) => {
            assert_eq!(count, packets.len());
            0
        }
        Err(BluefinError::ReadError("Array must be at least 20 bytes")) => 1,
        Err(BluefinError::ReadError("Cannot read all bytes specified by header")) => 2,
        Err(_) => 3,
    };
    let mut index = Vec::new();
    let mut at = 0;
    for packet in &packets {
        index.extend([at, packet.payload.len() as u64]);
        at += packet.len() as u64;
    }
    let unasked = u64::from(UNASKED);
    let answers = packets
        .into_iter()
        .map(|packet| call(packet).unwrap_or(unasked))
        .collect();
    (index, answers, refusal)
}

impl Told {
    /// Whether a refusal of 4 or 9 to 13 is among the answers.
    pub fn not_compared(&self) -> bool {
        let mut all = self.answers.iter().chain([&self.refusal]);
        all.any(|&refusal| crate::tally::not_compared(refusal.into()))
    }

    /// The same in the words of `by_the_rust`, with the refusals that the Rust does not tell apart merged.
    pub fn in_its_words(&self, class: impl Fn(u8) -> u64) -> (Vec<u64>, Vec<u64>, u64) {
        let index = cells(&self.index, self.packets);
        let listed = &self.answers[..self.packets];
        let answers = listed.iter().map(|&answer| class(answer)).collect();
        (index, answers, self.refusal.into())
    }
}
