//! core/packet.rs: datagrams parsed by both parsers, and packets written and read alone.

use super::header::{fields_of, header_of, random_fields, BEFORE};
use crate::core::packet::BluefinPacket;
use crate::core::Serialisable;
use crate::record::{ask_with, Component, Question, Xorshift};
use bluefin_proto::error::BluefinError;
use bytes::Bytes;

const PARSE: u64 = 1;
const SERIALISE_INTO: u64 = 2;
const DESERIALISE: u64 = 3;

/// Above this a datagram is refused with 11 (document 02 §1); the Rust has no limit.
pub const READING_LIMIT: usize = 65_507;

/// The Rust tells refusals 1, 2 and 3 apart by their messages only.
fn refusal(error: BluefinError) -> u64 {
    match error {
        BluefinError::ReadError("Array must be at least 20 bytes") => 1,
        BluefinError::ReadError("Cannot read all bytes specified by header") => 2,
        BluefinError::ReadError("Was not able to read all bytes into bluefin packets") => 3,
        other => unreachable!("{other:?}"),
    }
}

/// The packets as index cells, and where the next one would stand. A packet whose bytes are not those of the datagram from
/// there on gives a cell that no index holds.
fn cells(packets: &[BluefinPacket], datagram: &[u8]) -> (Vec<u64>, usize) {
    let mut cells = Vec::new();
    let mut at = 0;
    for packet in packets {
        let bytes = packet.serialise();
        let same = datagram[at..].starts_with(&bytes);
        cells.push(if same { at as u64 } else { u64::MAX });
        cells.push(packet.payload.len() as u64);
        at += bytes.len();
    }
    (cells, at)
}

/// Kind, count or cursor, and the cells written, of `from_bytes` and then of `from_bytes_into`. Of a refusal the Rust gives no
/// cursor: it is where the packets end that `from_bytes_into` kept.
fn parse(datagram: &[u8]) -> Vec<u64> {
    let mut kept = Vec::new();
    let into = BluefinPacket::from_bytes_into(Bytes::copy_from_slice(datagram), &mut kept);
    let (written, cursor) = cells(&kept, datagram);
    let mut answer = match BluefinPacket::from_bytes(datagram) {
        Ok(packets) => [&[0, packets.len() as u64], &cells(&packets, datagram).0[..]].concat(),
        Err(error) => vec![refusal(error), cursor as u64],
    };
    answer.extend(match into {
        Ok(count) => [0, count as u64],
        Err(error) => [refusal(error), cursor as u64],
    });
    answer.extend(written);
    answer
}

fn packet(type_number: u8, field: u16, payload: &[u8]) -> Vec<u8> {
    let mut bytes = vec![type_number];
    bytes.extend(field.to_be_bytes());
    bytes.extend([0, 0, 0, 0, 1, 0, 0, 0, 2, 0, 0, 0, 0, 0, 0, 0, 7]);
    bytes.extend(payload);
    bytes
}

fn data(field: u16) -> Vec<u8> {
    packet(3, field, &vec![0xee; field.into()])
}

/// Packets end to end, and often one fault.
fn random_datagram(rng: &mut Xorshift) -> Vec<u8> {
    if rng.one_in(20) {
        let length = rng.below(60);
        return rng.bytes(length);
    }
    let mut datagram = Vec::new();
    for _ in 0..1 + rng.below(6) {
        let mut fields = random_fields(rng);
        if rng.one_in(2) {
            fields[1] = 3;
        }
        let payload = if fields[1] == 3 { rng.below(24) } else { 0 };
        if fields[1] == 3 {
            fields[2] = payload;
        }
        datagram.extend(
            header_of(&fields)
                .expect("fields within their bits")
                .serialise(),
        );
        datagram.extend(rng.bytes(payload));
    }
    let length = datagram.len() as u64;
    let at = rng.below(length) as usize;
    match rng.below(6) {
        0 => datagram.truncate(at),
        1 => {
            let more = 1 + rng.below(22);
            datagram.extend(rng.bytes(more));
        }
        2 => datagram[at] ^= 1 << rng.below(8),
        3 => datagram[2] = datagram[2].wrapping_add(rng.pick(&[1, 255])),
        _ => {}
    }
    datagram
}

#[derive(Default)]
pub struct Packet;

impl Component for Packet {
    const NAME: &'static str = "packet";
    const RANDOM: usize = 3000;

    fn cases() -> Vec<Question> {
        let mut datagrams: Vec<Vec<u8>> = Vec::new();
        // Lengths about the header's, and each type alone, with a field that is not its length.
        datagrams.extend([0, 1, 19].map(|length| vec![4; length]));
        for type_number in 0..7 {
            datagrams.extend([0, 1, 5].map(|field| packet(type_number, field, b"")));
        }
        // A payload that is one short, whole, and one byte too many; the same before an ack; tails of 1 to 20 bytes.
        for field in [0, 1, 2, 1500] {
            let whole = data(field);
            datagrams.push(whole[..whole.len() - 1].to_vec());
            datagrams.push(whole.clone());
            datagrams.push([&whole[..], &[0]].concat());
            datagrams.push([&whole[..], &packet(4, 3, b"")].concat());
            datagrams.push([&packet(4, 3, b"")[..], &whole[..]].concat());
        }
        for tail in 1..=20 {
            datagrams.push([&packet(4, 65535, b"")[..], &vec![4; tail]].concat());
        }
        // An empty data packet last, between others, and with one byte after it.
        for rest in [vec![], vec![0], packet(4, 3, b""), data(1)] {
            datagrams.push([&data(3)[..], &data(0), &rest].concat());
        }
        // The longest datagrams: one payload, and acks alone. Then those that the Rust alone reads: a byte more, an ack more, and as many as UDP's
        // length allows.
        datagrams.push(data(65_487));
        datagrams.push(packet(4, 1, b"").repeat(3275));
        datagrams.push(data(65_488));
        datagrams.push(packet(4, 1, b"").repeat(3276));
        datagrams.push(data(65_507));
        let mut cases: Vec<_> = datagrams
            .iter()
            .map(|datagram| ask_with(PARSE, &[], datagram))
            .collect();
        let sample = [0, 3, 5, 1, 127, 1, 2, 7];
        for (payload, room) in [(&b""[..], 20), (b"", 21), (b"hello", 25), (b"hi", 30)] {
            cases.push(ask_with(
                SERIALISE_INTO,
                &[&sample[..], &[room]].concat(),
                payload,
            ));
        }
        for length in [0, 1, 19, 20, 21, 45] {
            cases.push(ask_with(DESERIALISE, &[], &vec![3; length]));
        }
        cases
    }

    fn random(&self, rng: &mut Xorshift) -> Question {
        match rng.below(8) {
            0 => {
                let fields = random_fields(rng);
                let length = rng.below(24);
                let room = 20 + length + rng.below(6);
                ask_with(
                    SERIALISE_INTO,
                    &[&fields[..], &[room]].concat(),
                    &rng.bytes(length),
                )
            }
            1 => {
                let length = 17 + rng.below(20);
                let mut bytes = rng.bytes(length);
                bytes[0] = bytes[0] / 16 * 16 + rng.below(7) as u8;
                ask_with(DESERIALISE, &[], &bytes)
            }
            _ => ask_with(PARSE, &[], &random_datagram(rng)),
        }
    }

    fn answer(&mut self, question: &Question) -> Option<Vec<u64>> {
        let bytes = question.bytes();
        Some(match question.op {
            PARSE if bytes.len() > READING_LIMIT => return None,
            PARSE => parse(bytes),
            SERIALISE_INTO => {
                let packet = BluefinPacket {
                    header: header_of(&question.words)?,
                    payload: Bytes::copy_from_slice(bytes),
                };
                let mut buf = vec![BEFORE; question.words[8] as usize];
                let written = packet.serialise_into(&mut buf);
                assert_eq!(written, packet.len());
                let mut answer = vec![0, written as u64];
                answer.extend(buf.iter().map(|&b| u64::from(b)));
                answer
            }
            DESERIALISE => match BluefinPacket::deserialise(bytes) {
                Ok(packet) => {
                    let mut answer = vec![0];
                    answer.extend(fields_of(&packet.header));
                    answer.push(packet.payload.len() as u64);
                    answer.extend(packet.payload.iter().map(|&b| u64::from(b)));
                    answer
                }
                Err(_) => vec![1],
            },
            _ => unreachable!("no such command"),
        })
    }
}
