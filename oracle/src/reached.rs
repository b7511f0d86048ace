//! `cargo test`: each of the eight files is compiled, and a call of it answers.

use crate::core::header::{BluefinHeader, BluefinSecurityFields, PacketType};
use crate::core::packet::BluefinPacket;
use crate::net::{build_empty_encrypted_packet, close_handler, ordered_bytes};
use crate::utils::{ring_buffer, window};
use crate::worker::writer;
use bytes::Bytes;
use std::collections::VecDeque;
use std::sync::{atomic::AtomicBool, Arc};

pub(crate) fn data(number: u64, payload: &'static [u8]) -> BluefinPacket {
    let mut header = BluefinHeader::new(
        1,
        2,
        PacketType::UnencryptedData,
        payload.len() as u16,
        BluefinSecurityFields::new(false, 0),
    );
    header.with_packet_number(number);
    BluefinPacket::builder()
        .header(header)
        .payload(payload)
        .build()
}

#[test]
fn header_and_packet() {
    let mut buf = [0; 25];
    assert_eq!(data(7, b"hello").serialise_into(&mut buf), 25);
    assert_eq!(buf[..3], [3, 0, 5]);
    assert_eq!(BluefinPacket::from_bytes(&buf).unwrap().len(), 1);
}

#[test]
fn ring() {
    let mut ring = ring_buffer::RingBuffer::new(2);
    assert_eq!(ring.push_back(5), None);
    assert_eq!(ring_buffer::probe::parts(&ring), (0, 1, 1, &[5, 0][..]));
}

#[test]
fn window() {
    let mut w = window::SlidingWindow::new(10);
    assert!(w.insert_range(11, 2).is_ok());
    assert_eq!(window::probe::expected(&w), 10);
    assert_eq!(window::probe::held(&w), [11, 12]);
}

#[test]
fn ordered_bytes() {
    let mut buffer = ordered_bytes::OrderedBytes::new(0, 100);
    assert!(buffer.buffer_in_packet(data(101, b"abc")).is_ok());
    let (front, held, carried) = ordered_bytes::probe::parts(&buffer);
    assert_eq!((front, carried.len()), (100, 0));
    assert_eq!(held[1].as_deref(), Some(&b"abc"[..]));
}

#[test]
fn close() {
    let mut close = close_handler::CloseBuffer::new(Arc::new(AtomicBool::new(false)));
    close.buffer_in_fin(&build_empty_encrypted_packet(1, 2, 4, PacketType::Fin));
    assert_eq!(close.pending_fin_ack_send(), Some(4));
}

#[test]
fn packing() {
    let mut queue = VecDeque::from([Bytes::from_static(b"hello")]);
    let (mut next, mut out) = (7, Vec::new());
    assert_eq!(
        writer::probe::consume_data_into(&mut queue, &mut next, 1, 2, &mut out),
        5
    );
    assert_eq!((next, out.len()), (8, 25));
    assert_eq!(writer::probe::payload_bytes_in_datagram(&out), 5);
    let mut acks = VecDeque::from([(9, 3)]);
    assert!(writer::probe::consume_acks_into(&mut acks, 1, 2, &mut out));
    assert_eq!((acks.len(), out.len()), (0, 45));
}
