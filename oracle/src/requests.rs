//! `cargo test`: what the Rust answers where a request of document 02 says otherwise, at the smallest inputs of docs/DIFFERENCES.md.

use crate::core::packet::BluefinPacket;
use crate::net::ordered_bytes::{probe, OrderedBytes};
use crate::reached::data;
use crate::worker::writer::probe::consume_data_into;
use bluefin_proto::BluefinResult;
use bytes::Bytes;
use std::collections::VecDeque;

/// §1 refuses it with 11: one data packet of 65,508 bytes.
#[test]
fn a_byte_more_than_the_reading_limit_is_read() {
    let mut datagram = vec![0; 65_508];
    datagram[..3].copy_from_slice(&[3, 0xff, 0xd0]);
    let packets = BluefinPacket::from_bytes(&datagram).unwrap();
    let mut kept = Vec::new();
    let count = BluefinPacket::from_bytes_into(Bytes::from(datagram), &mut kept).unwrap();
    assert_eq!((packets.len(), count), (1, 1));
    assert_eq!(
        [packets[0].payload.len(), kept[0].payload.len()],
        [65_488; 2]
    );
}

/// §3 packs 13,500 of them where nine places are free: the Rust keeps no packet, and has no places.
#[test]
fn a_byte_more_than_nine_packets_is_packed() {
    let mut queue = VecDeque::from([Bytes::from(vec![5; 13_501])]);
    let (mut next, mut out) = (7, Vec::new());
    let taken = consume_data_into(&mut queue, &mut next, 1, 2, &mut out);
    assert_eq!((taken, next, out.len()), (13_501, 17, 13_701));
    assert!(queue.is_empty());
}

/// §3 gives an ack of its number with the refusal: the Rust gives an error, which has none.
#[test]
fn a_packet_below_the_front_is_an_error_without_an_ack() {
    let mut buffer = OrderedBytes::new(0, 100);
    let told: BluefinResult<()> = buffer.buffer_in_packet(data(99, b""));
    assert!(told.is_err());
    assert_eq!((probe::front(&buffer), probe::held(&buffer)), (100, 0));
}
