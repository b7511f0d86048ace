//! core/header.rs: the security byte and the header, written and read.

use crate::core::header::{BluefinHeader, BluefinSecurityFields, PacketType};
use crate::core::Serialisable;
use crate::record::{ask, ask_with, Component, Question, Xorshift};

pub const TYPES: [PacketType; 7] = [
    PacketType::UnencryptedClientHello,
    PacketType::UnencryptedServerHello,
    PacketType::ClientAck,
    PacketType::UnencryptedData,
    PacketType::Ack,
    PacketType::Fin,
    PacketType::FinAck,
];

/// What a lent buffer holds before a call, so that bytes which stay are seen to.
pub const BEFORE: u8 = 9;

const SECURITY_SERIALISE: u64 = 1;
const SECURITY_DESERIALISE: u64 = 2;
const SERIALISE_INTO: u64 = 3;
const DESERIALISE: u64 = 4;

/// A header as eight words.
pub type Fields = [u64; 8];

/// The header of eight words: version, type, field, encrypted, mask, source, destination, number. Nothing where writing is
/// refused with 11, as the Rust cuts the version off, and where `BluefinSecurityFields::new` panics.
pub fn header_of(w: &[u64]) -> Option<BluefinHeader> {
    if w[0] > 15 {
        return None;
    }
    let security = BluefinSecurityFields::new(w[3] != 0, w[4] as u8);
    let mut header = BluefinHeader::new(
        w[5] as u32,
        w[6] as u32,
        TYPES[w[1] as usize],
        w[2] as u16,
        security,
    );
    header.with_packet_number(w[7]);
    header.version = w[0] as u8;
    Some(header)
}

pub fn fields_of(h: &BluefinHeader) -> Fields {
    [
        h.version.into(),
        h.type_field as u64,
        h.type_specific_payload.into(),
        h.security_fields.encrypted().into(),
        h.security_fields.mask().into(),
        h.source_connection_id.into(),
        h.destination_connection_id.into(),
        h.packet_number,
    ]
}

/// Numbers of `bits` bits: the ends, one bit or one byte alone, or any.
fn number(rng: &mut Xorshift, bits: u32) -> u64 {
    let most = u64::MAX >> (64 - bits);
    match rng.below(5) {
        0 => 0,
        1 => most,
        2 => 1 << rng.below(bits.into()),
        3 => (0xff << (8 * rng.below(8))) & most,
        _ => rng.next() & most,
    }
}

pub fn random_fields(rng: &mut Xorshift) -> Fields {
    [
        number(rng, 4),
        rng.below(7),
        number(rng, 16),
        rng.below(2),
        number(rng, 7),
        number(rng, 32),
        number(rng, 32),
        number(rng, 64),
    ]
}

#[derive(Default)]
pub struct Header;

impl Component for Header {
    const NAME: &'static str = "header";
    const RANDOM: usize = 2000;

    fn cases() -> Vec<Question> {
        let mut cases = Vec::new();
        for mask in [0, 1, 64, 126, 127] {
            for encrypted in [0, 1] {
                cases.push(ask(SECURITY_SERIALISE, &[encrypted, mask]));
            }
        }
        cases.push(ask_with(SECURITY_DESERIALISE, &[], &[]));
        cases.push(ask_with(SECURITY_DESERIALISE, &[], &[0x81, 0x7f]));
        for byte in 0..=255 {
            cases.push(ask_with(SECURITY_DESERIALISE, &[], &[byte]));
        }
        let sample = [0, 3, 5, 0, 0, 1, 2, 7];
        for room in [20, 21, 32] {
            cases.push(ask(SERIALISE_INTO, &[&sample[..], &[room]].concat()));
        }
        // Each field alone, at the values that show its place, its width and its order of bytes.
        for (field, values) in [
            (0, vec![1, 8, 15]),
            (1, (0..7).collect()),
            (2, vec![1, 255, 256, 0x1234, 65535]),
            (3, vec![1]),
            (4, vec![1, 127]),
            (5, vec![1, 0x01020304, 0xffff_ffff]),
            (6, vec![1, 0x05060708, 0xffff_ffff]),
            (7, vec![1, 0x0102030405060708, u64::MAX - 1, u64::MAX]),
        ] {
            for value in values {
                let mut words = [0; 9];
                words[field] = value;
                words[8] = 20;
                cases.push(ask(SERIALISE_INTO, &words));
            }
        }
        for length in [0, 1, 19, 20, 21, 40] {
            cases.push(ask_with(DESERIALISE, &[], &vec![3; length]));
        }
        for first in 0..=255 {
            let mut bytes = [0; 20];
            bytes[0] = first;
            cases.push(ask_with(DESERIALISE, &[], &bytes));
        }
        for at in 1..20 {
            let mut bytes = [0; 20];
            bytes[at] = 0xa5;
            cases.push(ask_with(DESERIALISE, &[], &bytes));
        }
        cases
    }

    fn random(&self, rng: &mut Xorshift) -> Question {
        if rng.one_in(2) {
            let fields = random_fields(rng);
            let room = 20 + rng.below(13);
            return ask(SERIALISE_INTO, &[&fields[..], &[room]].concat());
        }
        let length = if rng.one_in(10) { rng.below(40) } else { 20 };
        let mut bytes = rng.bytes(length);
        if let Some(first) = bytes.first_mut() {
            *first = *first / 16 * 16 + rng.below(7) as u8;
        }
        ask_with(DESERIALISE, &[], &bytes)
    }

    fn answer(&mut self, question: &Question) -> Option<Vec<u64>> {
        let words = &question.words;
        Some(match question.op {
            SECURITY_SERIALISE => {
                let fields = BluefinSecurityFields::new(words[0] != 0, words[1] as u8);
                vec![0, fields.serialise()[0].into()]
            }
            SECURITY_DESERIALISE => match BluefinSecurityFields::deserialise(question.bytes()) {
                Ok(fields) => vec![0, fields.encrypted().into(), fields.mask().into()],
                Err(_) => vec![1],
            },
            SERIALISE_INTO => {
                let mut buf = vec![BEFORE; words[8] as usize];
                let written = header_of(words)?.serialise_into(&mut buf);
                let mut answer = vec![0, written as u64];
                answer.extend(buf.iter().map(|&b| u64::from(b)));
                answer
            }
            DESERIALISE => match BluefinHeader::deserialise(question.bytes()) {
                Ok(header) => [&[0], &fields_of(&header)[..]].concat(),
                Err(_) => vec![1],
            },
            _ => unreachable!("no such command"),
        })
    }
}
