//! A sender and a receiver in one program: packs a queue, parses the datagram, accepts its packets out of order, reads until nothing
//! is left, sends acks back, consumes the window and drops what is answered; then packs a longer queue into datagrams that are lost,
//! sends again what was kept, and receives it by one call for a datagram; then how long to wait after two round trips, and a FIN in a
//! datagram of its own. It checks each answer, prints what it saw, and panics where anything is off. hosts/c/main.c is the same program;
//! hosts/expected is what both print.

use bluefin::{
    consume_data_into, header_deserialise, is_client_ack_packet, is_hello_packet,
    payload_bytes_in_datagram, reserve_close_packet_num, write_fin, write_fin_ack, Ack, AckRing,
    CloseRecord, CloseState, DataPacked, Header, Host, Index, OrderedBytes, Outstanding, Packet,
    PacketType, Refusal, RttEstimator, SlidingWindow, LARGEST_DATAGRAM, PACKED_DATAGRAM, PLACES,
    PLACES_BYTES,
};
use std::time::Duration;

// As many slots and cells as there are places: no packet that is kept is beyond the receiver, and no ack of one finds no cell.
const SLOTS: usize = PLACES;
const CELLS: usize = PLACES;
const WIDTH: usize = 1500;
/// The lines of the first packing, and of all those that are lost: 64 packets of 1,500 bytes.
const FEW: usize = 70;
const LINES: usize = 2000;
const LINE: usize = 48;
const START: u64 = 100;
const ACKS: usize = 4;
const SENDER: u32 = 1;
const RECEIVER: u32 = 2;

/// The next number, the packets kept, and the window of what is acked of them.
struct Sender {
    next: u64,
    kept: Outstanding,
    window: SlidingWindow,
}

impl Sender {
    /// Packs into one datagram, and keeps its packets.
    fn pack(&mut self, queue: &[u8], lengths: &[u32]) -> Result<(DataPacked, Vec<u8>), Refusal> {
        let mut out = vec![0; PACKED_DATAGRAM];
        let (next, kept) = (self.next, &mut self.kept);
        let data = consume_data_into(kept, queue, lengths, next, SENDER, RECEIVER, &mut out)?;
        self.next = data.next_packet_num;
        out.truncate(data.bytes + 20 * data.packets);
        Ok((data, out))
    }

    /// Packs the first lines, which one datagram has room for.
    fn send_few(&mut self, queue: &[u8], lengths: &[u32]) -> Vec<u8> {
        let (data, datagram) = self.pack(queue, lengths).unwrap();
        let removed = (data.bytes, data.entries_removed, data.bytes_cut);
        assert_eq!(removed, (queue.len(), FEW, 0));
        println!(
            "packed {} bytes of {FEW} entries into {} packets, next number {}, {} kept",
            data.bytes,
            data.packets,
            self.next,
            self.kept.len()
        );
        assert_eq!(payload_bytes_in_datagram(&datagram), queue.len());
        datagram
    }

    /// Packs all lines into datagrams that never arrive, until no place is free.
    fn send_all_lost(&mut self, queue: &[u8], lengths: &[u32]) {
        let mut lengths = lengths.to_vec();
        let (mut bytes, mut entries, mut lost) = (0, 0, 0);
        let refusal = loop {
            let data = match self.pack(&queue[bytes..], &lengths[entries..]) {
                Ok((data, _)) => data,
                Err(refusal) => break refusal,
            };
            bytes += data.bytes;
            entries += data.entries_removed;
            if let Some(first) = lengths.get_mut(entries) {
                *first -= data.bytes_cut as u32;
            }
            lost += 1;
        };
        let all = (Refusal::NoPlace, queue.len(), LINES);
        assert_eq!((refusal, bytes, entries), all);
        println!(
            "packed {bytes} bytes into {lost} datagrams, which are lost; {} packets kept, then refused {}",
            self.kept.len(),
            refusal.number()
        );
    }

    /// Lists the packets kept, and sends them again in datagrams of whole packets: they may be more than one has room for.
    fn send_again(&self, buffer: &mut OrderedBytes) {
        let mut listing = vec![0; PLACES_BYTES];
        let listed = self.kept.list_into(&mut listing);
        assert_eq!(listed, Ok(self.kept.len()));
        let (mut start, mut end) = (0, 0);
        for &length in self.kept.payload_lengths() {
            let packet = 20 + length as usize;
            if end + packet - start > LARGEST_DATAGRAM {
                receive_again(buffer, &listing[start..end]);
                start = end;
            }
            end += packet;
        }
        receive_again(buffer, &listing[start..end]);
    }

    /// Packs the queued acks, enters them into the window, consumes it, and drops the packets that are answered.
    fn acknowledge(&mut self, mut ring: AckRing) {
        let mut acks = [0; 20 * ACKS];
        let packed = ring
            .consume_acks_into(0, RECEIVER, SENDER, &mut acks)
            .unwrap();
        assert!(packed.to_send && ring.is_empty());
        for ack in acks.chunks_exact(20).take(packed.acks) {
            let header = from(RECEIVER, SENDER, header_deserialise(ack).unwrap());
            assert_eq!(header.packet_type, PacketType::Ack);
        }

        let mut index = Index::with_room_for(ACKS);
        let acks = &acks[..20 * packed.acks];
        let received = self.window.receive_acks(acks, &mut index);
        assert_eq!(received, Ok(packed.acks));
        assert!(index.answers().iter().all(|&answer| answer == 0));

        let expected = self.window.smallest_expected();
        let again = self.window.insert_range(expected, 1);
        assert_eq!(again, Err(Refusal::AlreadyHeld));
        let run = self.window.consume().unwrap();
        self.kept.drop_answered(run.last);
        println!(
            "{} acks: numbers to {} are acknowledged, {} of them; {} kept",
            packed.acks,
            run.last,
            run.length,
            self.kept.len()
        );
    }
}

/// A header that arrived from one end at the other; what the library does not look at is looked at here.
fn from(source: u32, destination: u32, header: Header) -> Header {
    let ids = (
        header.source_connection_id,
        header.destination_connection_id,
    );
    assert_eq!(ids, (source, destination));
    let security = (header.header_encrypted, header.header_protection_mask);
    assert_eq!((header.version, security), (0, (false, 0)));
    header
}

/// A packet that was read is refused with 5. Its ack may be lost, so it is given once more, to be queued like a read's.
fn accept_again(buffer: &mut OrderedBytes, packet: Packet) {
    let again = buffer
        .buffer_in_packet(packet.header.packet_number, packet.payload)
        .unwrap_err();
    assert_eq!(again.refusal, Refusal::Below);
    let ack = again.ack.unwrap();
    println!(
        "given again: refused {}, to be acked from {}, {} packets",
        again.refusal.number(),
        ack.base_packet_num,
        ack.num_packets_consumed
    );
}

/// A datagram that is sent again: its headers are looked at, then it is received by one call.
fn receive_again(buffer: &mut OrderedBytes, datagram: &[u8]) {
    let mut index = Index::with_room_for(SLOTS);
    let packets = index.from_bytes(datagram).unwrap();
    for packet in index.packets(datagram) {
        let header = from(SENDER, RECEIVER, packet.header);
        assert_eq!(header.packet_type, PacketType::Data);
    }
    assert_eq!(buffer.receive(datagram, &mut index), Ok(packets));
    assert!(index.answers().iter().all(|&answer| answer == 0));
    println!(
        "sent again {} bytes: {packets} packets received by one call",
        datagram.len()
    );
}

/// Reads by so many bytes until refusal 8, holds what was read against what was queued, and queues an ack for each read that took
/// packets.
fn read_all(buffer: &mut OrderedBytes, by: usize, queue: &[u8]) -> AckRing {
    let mut all: Vec<u8> = Vec::new();
    let mut ring = AckRing::new(ACKS);
    loop {
        let mut piece = vec![0; by];
        let read = match buffer.consume(by, &mut piece) {
            Ok(read) => read,
            Err(refusal) => {
                assert_eq!(refusal, Refusal::Empty);
                break;
            }
        };
        let start = String::from_utf8_lossy(&piece[..7]).into_owned();
        println!(
            "read {} bytes, {} packets from {}: {start}",
            read.bytes_consumed, read.num_packets_consumed, read.base_packet_number
        );
        all.extend_from_slice(&piece[..read.bytes_consumed as usize]);
        if read.num_packets_consumed > 0 {
            let ack = Ack {
                base_packet_num: read.base_packet_number,
                num_packets_consumed: read.num_packets_consumed as u32,
            };
            assert_eq!(ring.push_back(ack), Ok(()));
        }
    }
    assert!(all == queue);
    println!(
        "read {} bytes in all, the bytes that were queued",
        all.len()
    );
    ring
}

/// How long the sender waits for an ack before it sends again: before any trip, and after two.
fn measure() {
    let mut trips = RttEstimator::new();
    let before = trips.wait_time().as_micros();
    let took = [900_000, 700_000];
    for micros in took {
        assert_eq!(trips.sample(Duration::from_micros(micros)), Ok(()));
    }
    println!(
        "wait {before} microseconds, and {} after trips of {} and {}",
        trips.wait_time().as_micros(),
        took[0],
        took[1]
    );
}

/// The FIN takes the number after the data's, and goes alone in its datagram: the "own-datagram rule" of worker/writer.rs.
fn send_fin(next_packet_num: u64) -> (CloseRecord, [u8; 20]) {
    let (number, _) = reserve_close_packet_num(next_packet_num).unwrap();
    assert_eq!(number, next_packet_num);
    let mut fin = [0; 20];
    assert_eq!(write_fin(SENDER, RECEIVER, number, &mut fin), Ok(20));
    let mut local = CloseRecord::new(false);
    local.record_local_fin_sent(number);
    (local, fin)
}

/// The FIN is due where the front number is its own. It is answered by a FIN-ACK of its number, alone too; each end keeps its close
/// record.
fn close_both(mut local: CloseRecord, fin: [u8; 20], front_number: u64) {
    let header = from(SENDER, RECEIVER, header_deserialise(&fin).unwrap());
    let number = header.packet_number;
    assert_eq!(
        (header.packet_type, number),
        (PacketType::Fin, front_number)
    );

    let mut receiver = CloseRecord::new(false);
    receiver.buffer_in_fin(number);
    assert_eq!(receiver.state(), CloseState::PeerFinReceived(number));
    assert!(receiver.peer_fin_observed());
    let owed = receiver.take_pending_fin_ack_send().unwrap();
    assert_eq!(receiver.pending_fin_ack_send(), None);

    let mut answer = [0; 20];
    assert_eq!(write_fin_ack(RECEIVER, SENDER, owed, &mut answer), Ok(20));
    let header = from(RECEIVER, SENDER, header_deserialise(&answer).unwrap());
    let told = (header.packet_type, header.packet_number);
    assert_eq!(told, (PacketType::FinAck, number));
    local.buffer_in_fin_ack(header.packet_number);
    assert_eq!(local.received_fin_ack_for(), Some(number));
    local.mark_closed();
    assert_eq!(local.state(), CloseState::Closed);
    println!("FIN {number}, in a datagram of its own, is answered, and closes");
}

fn main() {
    let hello = Header::new(SENDER, 0, PacketType::ClientHello, 0, 0);
    assert!(is_hello_packet(Host::PackLeader, hello));
    assert!(!is_client_ack_packet(Host::PackLeader, hello));
    let line = |i| format!("{i:04} pack my box with five dozen liquor jugs...\n");
    let queue = (1..=LINES).map(line).collect::<String>().into_bytes();
    let lengths = [LINE as u32; LINES];
    let few = &queue[..FEW * LINE];
    let mut sender = Sender {
        next: START,
        kept: Outstanding::new(),
        window: SlidingWindow::new(START, CELLS),
    };
    let datagram = sender.send_few(few, &lengths[..FEW]);

    let mut index = Index::with_room_for(SLOTS);
    let packets = index.from_bytes(&datagram).unwrap();
    println!("parsed {packets} packets of {} bytes", datagram.len());
    let less = &datagram[..datagram.len() - 1];
    let mut kept = Index::new();
    let cut = kept.from_bytes(less).unwrap_err();
    assert!(kept.is_empty());
    assert_eq!(kept.from_bytes_into(less), Err(cut));
    println!(
        "a byte less: refused {} at {}, {} packets before it",
        cut.refusal.number(),
        cut.cursor,
        kept.len()
    );
    assert_eq!(
        Index::with_room_for(0).from_bytes(&[]).unwrap_err().refusal,
        Refusal::Short
    );

    let mut buffer = OrderedBytes::new(SLOTS, WIDTH, START).unwrap();
    assert_eq!(buffer.peek(), Err(Refusal::Empty));
    let listed: Vec<_> = index.packets(&datagram).collect();
    for packet in listed.iter().rev() {
        let header = from(SENDER, RECEIVER, packet.header);
        assert_eq!(header.packet_type, PacketType::Data);
        let accepted = buffer.buffer_in_packet(header.packet_number, packet.payload);
        assert_eq!(accepted, Ok(()));
    }
    let again = buffer.buffer_in_packet(START, listed[0].payload);
    assert_eq!(again.unwrap_err().refusal, Refusal::AlreadyHeld);
    let ring = read_all(&mut buffer, 1024, few);
    accept_again(&mut buffer, listed[0]);
    sender.acknowledge(ring);

    sender.send_all_lost(&queue, &lengths);
    sender.send_again(&mut buffer);
    sender.acknowledge(read_all(&mut buffer, LARGEST_DATAGRAM, &queue));
    assert!(sender.kept.is_empty());

    measure();
    let (local, fin) = send_fin(sender.next);
    close_both(local, fin, buffer.front_number());
}
