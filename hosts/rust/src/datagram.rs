//! Packets, and the packets of a datagram.

use crate::header::{Header, HEADER_BYTES};
use crate::refusal::{Refusal, RefusedAt};
use crate::sys;

/// The bytes of the largest datagram that is read: IPv4's total length of 65,535, less 20 of its own header and 8 of UDP's.
pub const LARGEST_DATAGRAM: usize = 65_507;

/// The packets that the largest datagram has room for.
const MOST_PACKETS: usize = LARGEST_DATAGRAM / HEADER_BYTES;

/// Writes header and payload to the start of `buf`, which has 20 bytes and the payload's, and answers their number. The header's
/// field is not held against the payload. Refusals: 11, 10.
pub fn packet_serialise_into(
    header: Header,
    payload: &[u8],
    buf: &mut [u8],
) -> Result<usize, Refusal> {
    // SAFETY: each pointer stands beside the length of its slice; `buf` is lent alone, so the two do not overlap.
    let written = unsafe {
        sys::bluefin_packet_serialise_into(
            header.to_c(),
            payload.as_ptr(),
            payload.len(),
            buf.as_mut_ptr(),
            buf.len(),
        )
    };
    Refusal::or(written.refusal, written.bytes)
}

/// Reads a packet that stands alone: its header, and as payload every byte from offset 20 on. Refusals: 1, 4.
pub fn packet_deserialise(bytes: &[u8]) -> Result<Packet<'_>, Refusal> {
    // SAFETY: the pointer and the length are those of one slice, which is only read.
    let header =
        Header::of_c(unsafe { sys::bluefin_packet_deserialise(bytes.as_ptr(), bytes.len()) })?;
    Ok(Packet {
        header,
        payload: &bytes[HEADER_BYTES..],
    })
}

/// A packet of a datagram that the caller holds.
#[derive(Clone, Copy, Debug, PartialEq, Eq)]
pub struct Packet<'a> {
    pub header: Header,
    pub payload: &'a [u8],
}

/// The list of a datagram's packets, and for each what it was answered. Owns its memory, and is used again for the next datagram.
pub struct Index {
    /// Two numbers to a packet: its header's offset and its payload's length.
    pub(crate) cells: Vec<u32>,
    /// What accepting or entering the packet answered.
    pub(crate) answers: Vec<u8>,
    listed: usize,
}

impl Default for Index {
    fn default() -> Self {
        Self::new()
    }
}

impl Index {
    /// Room for the packets of every datagram.
    pub fn new() -> Self {
        Self::with_room_for(MOST_PACKETS)
    }

    /// Room for so many packets; a datagram with more is refused with 10.
    pub fn with_room_for(packets: usize) -> Self {
        Index {
            cells: vec![0; 2 * packets],
            answers: vec![0; packets],
            listed: 0,
        }
    }

    /// Lists the packets of a datagram and answers their number. Refusals: 11, 1, and for each packet 4, 2, 10, at the end 3;
    /// then nothing is listed.
    pub fn from_bytes(&mut self, datagram: &[u8]) -> Result<usize, RefusedAt> {
        // SAFETY: each pointer stands beside the length of its slice; the cells are owned here, so the two do not overlap.
        let parsed = unsafe {
            sys::bluefin_from_bytes(
                datagram.as_ptr(),
                datagram.len(),
                self.cells.as_mut_ptr(),
                self.cells.len(),
            )
        };
        self.keep(parsed)
    }

    /// The same, but packets before the one that is refused are listed all the same: [`Index::len`] says how many.
    pub fn from_bytes_into(&mut self, datagram: &[u8]) -> Result<usize, RefusedAt> {
        // SAFETY: as in `from_bytes`.
        let parsed = unsafe {
            sys::bluefin_from_bytes_into(
                datagram.as_ptr(),
                datagram.len(),
                self.cells.as_mut_ptr(),
                self.cells.len(),
            )
        };
        self.keep(parsed)
    }

    /// How many packets the last call listed, refused or not.
    pub fn len(&self) -> usize {
        self.listed
    }

    pub fn is_empty(&self) -> bool {
        self.listed == 0
    }

    /// The packets listed, in order; `datagram` is the one that they were listed from. A packet that is not in it ends the list.
    pub fn packets<'a>(&'a self, datagram: &'a [u8]) -> impl Iterator<Item = Packet<'a>> + 'a {
        self.cells.chunks_exact(2).take(self.listed).map_while(|c| {
            let start = c[0] as usize;
            let payload = start + HEADER_BYTES;
            let bytes = datagram.get(start..payload + c[1] as usize)?;
            let header = crate::header_deserialise(&bytes[..HEADER_BYTES]).ok()?;
            Some(Packet {
                header,
                payload: &bytes[HEADER_BYTES..],
            })
        })
    }

    /// For each packet listed, what accepting it (`OrderedBytes::receive`) or entering it (`SlidingWindow::receive_acks`) answered:
    /// the number of a refusal, or 0. Packets of other types have 0. Where accepting answered 5, an ack of that packet is to be queued:
    /// base its number, count 1.
    pub fn answers(&self) -> &[u8] {
        &self.answers[..self.listed]
    }

    /// Keeps how many packets a call listed, refused or not.
    pub(crate) fn keep(&mut self, parsed: sys::Parsed) -> Result<usize, RefusedAt> {
        self.listed = parsed.packets;
        Refusal::or(parsed.refusal, parsed.packets).map_err(|refusal| RefusedAt {
            refusal,
            cursor: parsed.cursor,
        })
    }
}

#[cfg(test)]
mod tests {
    use super::*;
    use crate::{OrderedBytes, PacketType, SlidingWindow};

    fn datagram() -> Vec<u8> {
        let mut bytes = vec![0; 45];
        let data = Header::new(1, 2, PacketType::Data, 5, 7);
        let ack = Header::new(1, 2, PacketType::Ack, 3, 9);
        let end = packet_serialise_into(data, b"hello", &mut bytes).unwrap();
        packet_serialise_into(ack, b"", &mut bytes[end..]).unwrap();
        bytes
    }

    #[test]
    fn packets_are_listed() {
        let bytes = datagram();
        let mut index = Index::new();
        assert_eq!(index.from_bytes(&bytes), Ok(2));
        let packets: Vec<_> = index.packets(&bytes).collect();
        assert_eq!(packets[0].payload, b"hello");
        assert_eq!(packets[0].header.packet_number, 7);
        assert_eq!(packets[1].header.packet_type, PacketType::Ack);
        assert_eq!(packet_deserialise(&bytes[..25]), Ok(packets[0]));
    }

    #[test]
    fn a_refused_walk_keeps_what_it_listed() {
        let bytes = datagram();
        let tail = Err(RefusedAt {
            refusal: Refusal::Tail,
            cursor: 25,
        });
        let mut index = Index::new();
        assert_eq!(index.from_bytes_into(&bytes[..44]), tail);
        assert_eq!((index.len(), index.packets(&bytes[..44]).count()), (1, 1));
        assert_eq!(index.from_bytes(&bytes[..44]), tail);
        assert!(index.is_empty());
        let mut short = Index::with_room_for(1);
        let refused = short.from_bytes_into(&bytes).unwrap_err();
        assert_eq!((refused.refusal, refused.cursor), (Refusal::BufferShort, 0));
        assert_eq!(short.len(), 1);
        // Nothing of an earlier datagram is taken for a packet of this one.
        assert_eq!(short.from_bytes_into(&bytes[..24]).unwrap_err().cursor, 0);
        assert!(short.is_empty());
    }

    #[test]
    fn a_refused_datagram_is_taken_as_far_as_it_was_listed() {
        let bytes = datagram();
        let mut index = Index::new();
        let mut buffer = OrderedBytes::new(4, 5, 7).unwrap();
        assert!(buffer.receive(&bytes[..44], &mut index).is_err());
        assert_eq!((index.len(), index.answers()), (1, &[0][..]));
        assert!(buffer.receive(&bytes[..44], &mut index).is_err());
        assert_eq!(index.answers(), [Refusal::AlreadyHeld.number()]);
        let mut window = SlidingWindow::new(9, 4);
        let acks = [&bytes[25..], &bytes[25..], &[4]].concat();
        let refused = window.receive_acks(&acks, &mut index).unwrap_err();
        assert_eq!((refused.cursor, index.len()), (40, 2));
        assert_eq!(index.answers(), [0, Refusal::AlreadyHeld.number()]);
        assert_eq!(window.held(), [9, 10, 11]);
    }

    /// As many packets as a datagram can have: acks, and a data packet to the very end.
    fn full(length: usize) -> Vec<u8> {
        let mut bytes = vec![0; length];
        let (acks, rest) = bytes.split_at_mut(HEADER_BYTES * (MOST_PACKETS - 1));
        for place in acks.chunks_exact_mut(HEADER_BYTES) {
            let ack = Header::new(1, 2, PacketType::Ack, 0, 9);
            packet_serialise_into(ack, b"", place).unwrap();
        }
        let payload = vec![b'x'; rest.len() - HEADER_BYTES];
        let data = Header::new(1, 2, PacketType::Data, payload.len() as u16, 7);
        packet_serialise_into(data, &payload, rest).unwrap();
        bytes
    }

    #[test]
    fn a_datagram_is_read_up_to_the_largest() {
        let largest = full(LARGEST_DATAGRAM);
        let longer = full(LARGEST_DATAGRAM + 1);
        let too_long = Err(RefusedAt {
            refusal: Refusal::OutOfRange,
            cursor: 0,
        });
        let mut index = Index::new();
        assert_eq!(index.from_bytes(&largest), Ok(MOST_PACKETS));
        assert_eq!(index.from_bytes(&longer), too_long);
        assert_eq!(index.from_bytes_into(&longer), too_long);
        assert!(index.is_empty());
        let mut buffer = OrderedBytes::new(1, 8, 7).unwrap();
        assert_eq!(buffer.receive(&longer, &mut index), too_long);
        assert_eq!(buffer.receive(&largest, &mut index), Ok(MOST_PACKETS));
        let mut window = SlidingWindow::new(9, 1);
        assert_eq!(window.receive_acks(&longer, &mut index), too_long);
        assert_eq!(window.receive_acks(&largest, &mut index), Ok(MOST_PACKETS));
    }

    #[test]
    fn an_empty_slice_is_short() {
        let refused = Index::new().from_bytes(&[]).unwrap_err();
        assert_eq!((refused.refusal, refused.cursor), (Refusal::Short, 0));
    }
}
