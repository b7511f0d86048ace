//! The inputs that both sides get.

use bytes::Bytes;
use oracle::core::header::{BluefinHeader, BluefinSecurityFields, PacketType};

pub const PAYLOAD: usize = 1_500;

/// The number of the first packet.
pub const START: u64 = 100;

pub fn header(kind: PacketType, field: u16, number: u64) -> BluefinHeader {
    let security = BluefinSecurityFields::new(false, 0);
    let mut header = BluefinHeader::new(1, 2, kind, field, security);
    header.with_packet_number(number);
    header
}

/// Bytes that differ from each other.
pub fn bytes(length: usize) -> Vec<u8> {
    (0..length).map(|at| (at * 31 + at / 256) as u8).collect()
}

/// Data packets from a number on, each with 1,500 bytes.
pub fn data_datagram(first: u64, packets: u64) -> Vec<u8> {
    let mut datagram = Vec::new();
    for number in first..first + packets {
        let mut head = [0; 20];
        header(PacketType::UnencryptedData, PAYLOAD as u16, number).serialise_into(&mut head);
        datagram.extend(head);
        datagram.extend(bytes(PAYLOAD));
    }
    datagram
}

/// Acks of `count` numbers each, one behind the other.
pub fn ack_datagram(first: u64, acks: u64, count: u16) -> Vec<u8> {
    let mut datagram = Vec::new();
    for i in 0..acks {
        let mut head = [0; 20];
        header(PacketType::Ack, count, first + i * u64::from(count)).serialise_into(&mut head);
        datagram.extend(head);
    }
    datagram
}

/// 1,000 packets of 1,500 bytes in 100 datagrams, as the published Rust receives them.
pub fn hundred_datagrams() -> Vec<Bytes> {
    let datagram = |i: u64| Bytes::from(data_datagram(START + 10 * i, 10));
    (0..100).map(datagram).collect()
}
