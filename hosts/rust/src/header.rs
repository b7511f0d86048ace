//! The header, 20 bytes on the wire.

use crate::refusal::Refusal;
use crate::sys;

/// The bytes of a header on the wire.
pub const HEADER_BYTES: usize = 20;

/// The seven packet types.
#[derive(Clone, Copy, Debug, PartialEq, Eq)]
#[repr(u8)]
pub enum PacketType {
    ClientHello = 0,
    ServerHello = 1,
    ClientAck = 2,
    Data = 3,
    Ack = 4,
    Fin = 5,
    FinAck = 6,
}

const TYPES: [PacketType; 7] = [
    PacketType::ClientHello,
    PacketType::ServerHello,
    PacketType::ClientAck,
    PacketType::Data,
    PacketType::Ack,
    PacketType::Fin,
    PacketType::FinAck,
];

/// A header's fields.
#[derive(Clone, Copy, Debug, PartialEq, Eq)]
pub struct Header {
    /// 0 to 15.
    pub version: u8,
    pub packet_type: PacketType,
    /// A data packet's payload length, an ack's count.
    pub type_specific_payload: u16,
    pub header_encrypted: bool,
    /// 0 to 127.
    pub header_protection_mask: u8,
    pub source_connection_id: u32,
    pub destination_connection_id: u32,
    pub packet_number: u64,
}

impl Header {
    /// Version 0, security byte 0.
    pub fn new(
        source_connection_id: u32,
        destination_connection_id: u32,
        packet_type: PacketType,
        type_specific_payload: u16,
        packet_number: u64,
    ) -> Self {
        Header {
            version: 0,
            packet_type,
            type_specific_payload,
            header_encrypted: false,
            header_protection_mask: 0,
            source_connection_id,
            destination_connection_id,
            packet_number,
        }
    }

    pub(crate) fn to_c(self) -> sys::Header {
        sys::Header {
            packet_number: self.packet_number,
            source_connection_id: self.source_connection_id,
            destination_connection_id: self.destination_connection_id,
            type_specific_payload: self.type_specific_payload,
            version: self.version,
            type_field: self.packet_type as u8,
            header_protection_mask: self.header_protection_mask,
            header_encrypted: self.header_encrypted,
        }
    }

    /// A header that the library read: its type is one of the seven, as any other is refused with 4.
    pub(crate) fn of_c(read: sys::HeaderRead) -> Result<Header, Refusal> {
        let h = Refusal::or(read.refusal, read.header)?;
        Ok(Header {
            version: h.version,
            packet_type: TYPES[usize::from(h.type_field)],
            type_specific_payload: h.type_specific_payload,
            header_encrypted: h.header_encrypted,
            header_protection_mask: h.header_protection_mask,
            source_connection_id: h.source_connection_id,
            destination_connection_id: h.destination_connection_id,
            packet_number: h.packet_number,
        })
    }
}

/// Writes a header to the start of `buf`, which has 20 bytes or more, and answers 20. Refusals: 11, 10.
pub fn header_serialise_into(header: Header, buf: &mut [u8]) -> Result<usize, Refusal> {
    // SAFETY: the pointer and the length are those of one slice, lent for this call alone.
    let written =
        unsafe { sys::bluefin_header_serialise_into(header.to_c(), buf.as_mut_ptr(), buf.len()) };
    Refusal::or(written.refusal, written.bytes)
}

/// Reads a header from exactly 20 bytes. Refusals: 1, 4.
pub fn header_deserialise(bytes: &[u8]) -> Result<Header, Refusal> {
    // SAFETY: the pointer and the length are those of one slice, which is only read.
    Header::of_c(unsafe { sys::bluefin_header_deserialise(bytes.as_ptr(), bytes.len()) })
}

#[cfg(test)]
mod tests {
    use super::*;

    #[test]
    fn document_01_sample() {
        let header = Header::new(1, 2, PacketType::Data, 5, 7);
        let mut buf = [9; 21];
        assert_eq!(header_serialise_into(header, &mut buf), Ok(20));
        assert_eq!(
            buf,
            [3, 0, 5, 0, 0, 0, 0, 1, 0, 0, 0, 2, 0, 0, 0, 0, 0, 0, 0, 7, 9]
        );
        assert_eq!(header_deserialise(&buf[..20]), Ok(header));
        assert_eq!(header_deserialise(&buf), Err(Refusal::Short));
        assert_eq!(header_deserialise(&[7; 20]), Err(Refusal::UnknownType));
        assert_eq!(
            header_serialise_into(header, &mut buf[..19]),
            Err(Refusal::BufferShort)
        );
    }
}
