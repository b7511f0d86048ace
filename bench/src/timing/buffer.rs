//! The receive buffer: packets accepted and read.

use crate::inputs::{bytes, header, hundred_datagrams, PAYLOAD, START};
use crate::table::{timed, Round, Row, Table};
use bench::lent::{Lent, SLOTS};
use bytes::Bytes;
use oracle::core::header::PacketType;
use oracle::core::packet::BluefinPacket;
use oracle::linked::OrderedBytes;
use std::hint::black_box;
use std::time::Duration;

const PACKETS: usize = 1_000;

/// The longest read.
const LONG: usize = 65_536;

/// Slots enough where what has arrived is read before more comes: they and their store stay in the first caches.
const FEW: usize = 64;

/// Packets accepted in a round where accepting alone is timed.
const ACCEPTED: usize = 32;

/// How often a packet that is held is offered here in a round.
const REPEATED: u32 = 1_000;

/// What both sides get: 1,000 packets of 100 datagrams.
struct Arrivals {
    datagrams: Vec<Bytes>,
    packets: Vec<BluefinPacket>,
}

impl Arrivals {
    fn new() -> Self {
        let datagrams = hundred_datagrams();
        let mut packets = Vec::new();
        for datagram in &datagrams {
            BluefinPacket::from_bytes_into(datagram.clone(), &mut packets).expect("packets");
        }
        assert_eq!(packets.len(), PACKETS);
        Arrivals { datagrams, packets }
    }
}

fn their_accepts(buffer: &mut OrderedBytes, packets: Vec<BluefinPacket>) {
    for packet in packets {
        let _ = black_box(buffer.buffer_in_packet(packet));
    }
}

fn our_accepts(buffer: &mut Lent, packets: &[BluefinPacket]) {
    for packet in packets {
        black_box(buffer.accept(packet.header.packet_number, &packet.payload));
    }
}

/// Reads by so many bytes until nothing is left.
fn their_reads(buffer: &mut OrderedBytes, length: usize, buf: &mut [u8]) {
    while buffer.consume(length, buf).is_ok() {
        black_box(&mut *buf);
    }
}

fn our_reads(buffer: &mut Lent, length: usize, buf: &mut [u8]) {
    while buffer.consume(length, buf).refusal == 0 {
        black_box(&mut *buf);
    }
}

/// The published Rust's arrival: each datagram parsed into a vector, each packet of it accepted.
fn their_arrivals(
    buffer: &mut OrderedBytes,
    datagrams: impl IntoIterator<Item = Bytes>,
    into: &mut Vec<BluefinPacket>,
) {
    for datagram in datagrams {
        let _ = black_box(BluefinPacket::from_bytes_into(datagram, into));
        for packet in into.drain(..) {
            let _ = black_box(buffer.buffer_in_packet(packet));
        }
    }
}

/// The index has room for the ten packets of a datagram.
fn our_arrivals(buffer: &mut Lent, datagrams: &[Bytes]) {
    let (mut index, mut answers) = ([0; 20], [0; 10]);
    for datagram in datagrams {
        black_box(buffer.receive(datagram, &mut index, &mut answers));
    }
}

/// A row over a fresh buffer on each side. What the published Rust takes by value is made before the clock starts.
fn fresh<T>(
    table: &mut Table,
    name: &str,
    goal: Option<f64>,
    input: impl Fn() -> T,
    theirs: impl FnMut(&mut OrderedBytes, T),
    ours: impl FnMut(&mut Lent),
) {
    over_slots(SLOTS, table, name, goal, input, theirs, ours);
}

/// The same where this library has another number of slots than the published Rust.
fn over_slots<T>(
    slots: usize,
    table: &mut Table,
    name: &str,
    goal: Option<f64>,
    input: impl Fn() -> T,
    mut theirs: impl FnMut(&mut OrderedBytes, T),
    mut ours: impl FnMut(&mut Lent),
) {
    let mut lent = Lent::with_slots(slots, PAYLOAD, START);
    table.row(Row {
        name: name.into(),
        units: PACKETS,
        theirs: Box::new(|| {
            let (mut buffer, input) = (OrderedBytes::new(START), input());
            timed(|| theirs(&mut buffer, input))
        }),
        ours: Box::new(|| {
            lent.restart(PAYLOAD, START);
            timed(|| ours(&mut lent))
        }),
        goal,
    });
    let all_read = lent.state.front_number == START + PACKETS as u64;
    let all_held = lent.held(PACKETS - 1).is_some();
    assert!(all_read || all_held);
}

/// What has arrived is read before more comes.
fn in_turn(table: &mut Table, arrivals: &Arrivals) {
    let mut buf = vec![0; LONG];
    let mut out = buf.clone();
    let mut into = Vec::with_capacity(16);
    fresh(
        table,
        "each packet accepted, then read",
        None,
        || arrivals.packets.clone(),
        |buffer, packets| {
            for packet in packets {
                let _ = black_box(buffer.buffer_in_packet(packet));
                let _ = black_box(buffer.consume(PAYLOAD, &mut buf));
            }
        },
        |lent| {
            for packet in &arrivals.packets {
                black_box(lent.accept(packet.header.packet_number, &packet.payload));
                black_box(lent.consume(PAYLOAD, &mut out));
            }
        },
    );
    for (slots, name) in [
        (
            SLOTS,
            "each datagram parsed and accepted, then read; here by `receive`",
        ),
        (FEW, "the same, here over 64 slots"),
    ] {
        over_slots(
            slots,
            table,
            name,
            Some(1.0),
            || arrivals.datagrams.clone(),
            |buffer, datagrams| {
                for datagram in datagrams {
                    their_arrivals(buffer, [datagram], &mut into);
                    let _ = black_box(buffer.consume(LONG, &mut buf));
                }
            },
            |lent| {
                for datagram in &arrivals.datagrams {
                    our_arrivals(lent, std::slice::from_ref(datagram));
                    black_box(lent.consume(LONG, &mut out));
                }
            },
        );
    }
}

/// All arrive before any is read.
fn all_at_once(table: &mut Table, arrivals: &Arrivals) {
    let mut buf = vec![0; LONG];
    let mut out = buf.clone();
    let mut into = Vec::with_capacity(16);
    fresh(
        table,
        "all accepted one by one, then read by 65,536",
        None,
        || arrivals.packets.clone(),
        |buffer, packets| {
            their_accepts(buffer, packets);
            their_reads(buffer, LONG, &mut buf);
        },
        |lent| {
            our_accepts(lent, &arrivals.packets);
            our_reads(lent, LONG, &mut out);
        },
    );
    fresh(
        table,
        "all parsed and accepted, then read by 65,536; here by `receive`",
        Some(1.0),
        || arrivals.datagrams.clone(),
        |buffer, datagrams| {
            their_arrivals(buffer, datagrams, &mut into);
            their_reads(buffer, LONG, &mut buf);
        },
        |lent| {
            our_arrivals(lent, &arrivals.datagrams);
            our_reads(lent, LONG, &mut out);
        },
    );
    fresh(
        table,
        "the same, with the original's parsing left out",
        None,
        || arrivals.packets.clone(),
        |buffer, packets| {
            their_accepts(buffer, packets);
            their_reads(buffer, LONG, &mut buf);
        },
        |lent| {
            our_arrivals(lent, &arrivals.datagrams);
            our_reads(lent, LONG, &mut out);
        },
    );
    fresh(
        table,
        "all parsed and accepted, not read; here by `receive`",
        None,
        || arrivals.datagrams.clone(),
        |buffer, datagrams| their_arrivals(buffer, datagrams, &mut into),
        |lent| our_arrivals(lent, &arrivals.datagrams),
    );
}

fn reads(table: &mut Table, arrivals: &Arrivals) {
    for length in [1_024, LONG] {
        let mut buf = vec![0; length];
        let mut out = buf.clone();
        let mut ours = Lent::new(PAYLOAD, START);
        table.row(Row {
            name: format!("read alone, by {length}"),
            units: PACKETS,
            theirs: Box::new(|| {
                let mut theirs = OrderedBytes::new(START);
                their_accepts(&mut theirs, arrivals.packets.clone());
                timed(|| their_reads(&mut theirs, length, &mut buf))
            }),
            ours: Box::new(|| {
                ours.restart(PAYLOAD, START);
                our_accepts(&mut ours, &arrivals.packets);
                timed(|| our_reads(&mut ours, length, &mut out))
            }),
            goal: None,
        });
    }
}

/// The packet so many numbers behind the front's.
fn packet_at(distance: usize) -> BluefinPacket {
    BluefinPacket {
        header: header(
            PacketType::UnencryptedData,
            PAYLOAD as u16,
            START + distance as u64,
        ),
        payload: Bytes::from(bytes(PAYLOAD)),
    }
}

/// Both buffers, with so many packets held behind a hole at the front.
fn holding(held: usize) -> (OrderedBytes, Lent) {
    let packets: Vec<_> = (1..=held).map(packet_at).collect();
    let (mut theirs, mut ours) = (OrderedBytes::new(START), Lent::new(PAYLOAD, START));
    our_accepts(&mut ours, &packets);
    their_accepts(&mut theirs, packets);
    (theirs, ours)
}

/// Accepting alone, where so many packets are held. All slots but those needed are the most.
fn accepts(table: &mut Table, held: usize) {
    let next: Vec<_> = (held + 1..).take(ACCEPTED).map(packet_at).collect();
    let (theirs, mut ours) = holding(held);
    let (marks, lengths) = (ours.marks.clone(), ours.lengths.clone());
    table.row(Row {
        name: format!("accept alone, {held} held"),
        units: ACCEPTED,
        theirs: Box::new(|| {
            let mut theirs = theirs.clone();
            let packets = next.clone();
            timed(|| their_accepts(&mut theirs, packets))
        }),
        ours: Box::new(|| {
            ours.marks.copy_from_slice(&marks);
            ours.lengths.copy_from_slice(&lengths);
            timed(|| our_accepts(&mut ours, &next))
        }),
        goal: Some(8.0),
    });
    assert_eq!(
        ours.held(held + ACCEPTED),
        Some(&next[ACCEPTED - 1].payload[..])
    );
}

/// A packet that is held already, and refused: the state stays. The published Rust writes every byte that it holds into the error, so
/// that a round has one packet there.
fn repeats(table: &mut Table, held: usize) {
    let packet = packet_at(held);
    let (mut theirs, mut ours) = holding(held);
    let before = ours.clone();
    assert!(theirs.buffer_in_packet(packet.clone()).is_err());
    table.row(Row {
        name: format!("accept a packet that is held already, {held} held"),
        units: 1,
        theirs: Box::new(|| {
            let packet = packet.clone();
            timed(|| theirs.buffer_in_packet(packet))
        }),
        ours: Box::new(|| {
            let took = timed(|| {
                for _ in 0..REPEATED {
                    black_box(ours.accept(packet.header.packet_number, &packet.payload));
                }
            });
            took / REPEATED
        }),
        goal: None,
    });
    let again = ours.accept(packet.header.packet_number, &packet.payload);
    assert_eq!(again.refusal, 7);
    assert!(ours == before);
}

/// What accepting cannot do without here: the test of refusal 12, which `peek` has and little else, and the copy.
fn floor(table: &mut Table, arrivals: &Arrivals) {
    let mut ours = Lent::new(PAYLOAD, START);
    our_accepts(&mut ours, &arrivals.packets);
    let test: Round = Box::new(|| {
        timed(|| {
            for _ in 0..ACCEPTED {
                black_box(black_box(&mut ours).peek());
            }
        })
    });
    table.alone("the test of refusal 12 alone (`peek`)", ACCEPTED, test);
    let mut store = vec![0; ACCEPTED * PAYLOAD];
    let copy: Round = Box::new(|| -> Duration {
        timed(|| {
            for (to, packet) in store.chunks_exact_mut(PAYLOAD).zip(&arrivals.packets) {
                black_box(to).copy_from_slice(black_box(&packet.payload));
            }
        })
    });
    table.alone("the copy of 1,500 bytes alone", ACCEPTED, copy);
}

pub fn rows(table: &mut Table) {
    let arrivals = Arrivals::new();
    table.group("receive 1,000 × 1,500, per packet");
    in_turn(table, &arrivals);
    all_at_once(table, &arrivals);
    reads(table, &arrivals);
    table.group("accept, as packets held grow");
    for held in [10, 100, 1_000, SLOTS - 1 - ACCEPTED] {
        accepts(table, held);
    }
    for held in [10, SLOTS - 1] {
        repeats(table, held);
    }
    floor(table, &arrivals);
}
