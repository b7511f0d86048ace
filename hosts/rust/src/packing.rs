//! Packing queued data, and closing.

use crate::outstanding::Outstanding;
use crate::refusal::Refusal;
use crate::sys;

/// The bytes that every packed datagram has room in.
pub const PACKED_DATAGRAM: usize = 15_200;

/// What packing did. The queue is the caller's to shorten: `entries_removed` leave it, then `bytes_cut` leave the first one left.
#[derive(Clone, Copy, Debug, PartialEq, Eq)]
pub struct DataPacked {
    /// Payload bytes taken from the queue's front.
    pub bytes: usize,
    /// Packets written, each of 20 bytes and its payload.
    pub packets: usize,
    /// The number after the last packet's.
    pub next_packet_num: u64,
    /// Entries that leave the queue.
    pub entries_removed: usize,
    /// Bytes to cut from the first entry left.
    pub bytes_cut: usize,
}

/// Packs a queue, whose entries stand end to end in `bytes` with their lengths in `lengths`, to the start of `out`, and keeps each
/// packet to be sent again. It takes up to 15,000 bytes, and no more than 1,500 for each place that is free; [`PACKED_DATAGRAM`] bytes
/// of `out` are never too few. Refusals: 12 (the lengths do not add up to the bytes, or a number kept is not below the next one), 9, 10,
/// 15 (no place is free).
pub fn consume_data_into(
    kept: &mut Outstanding,
    bytes: &[u8],
    lengths: &[u32],
    next_packet_num: u64,
    src_conn_id: u32,
    dst_conn_id: u32,
    out: &mut [u8],
) -> Result<DataPacked, Refusal> {
    // SAFETY: each pointer stands beside the length of its slice; `out` and what the store owns are lent alone, the others are only read.
    let packed = unsafe {
        sys::bluefin_consume_data_into(
            kept.state,
            bytes.as_ptr(),
            bytes.len(),
            lengths.as_ptr(),
            lengths.len(),
            next_packet_num,
            src_conn_id,
            dst_conn_id,
            out.as_mut_ptr(),
            out.len(),
            kept.numbers.as_mut_ptr(),
            kept.numbers.len(),
            kept.lengths.as_mut_ptr(),
            kept.lengths.len(),
            kept.packets.as_mut_ptr(),
            kept.packets.len(),
        )
    };
    kept.state = packed.outstanding;
    let told = DataPacked {
        bytes: packed.bytes,
        packets: packed.packets,
        next_packet_num: packed.next_packet_num,
        entries_removed: packed.entries_removed,
        bytes_cut: packed.bytes_cut,
    };
    Refusal::or(packed.refusal, told)
}

/// The fields of all packets of a datagram, added up to where one would run past its end.
pub fn payload_bytes_in_datagram(datagram: &[u8]) -> usize {
    // SAFETY: the pointer and the length are those of one slice, which is only read.
    unsafe { sys::bluefin_payload_bytes_in_datagram(datagram.as_ptr(), datagram.len()) }
}

/// A FIN's number, and the next one. Refusal: 9.
pub fn reserve_close_packet_num(next_packet_num: u64) -> Result<(u64, u64), Refusal> {
    // SAFETY: the call takes and answers numbers.
    let reserved = unsafe { sys::bluefin_reserve_close_packet_num(next_packet_num) };
    Refusal::or(
        reserved.refusal,
        (reserved.number, reserved.next_packet_num),
    )
}

/// Writes a FIN to the start of `buf`, which has 20 bytes or more, and answers 20. Refusal: 10.
pub fn write_fin(
    src_conn_id: u32,
    dst_conn_id: u32,
    packet_number: u64,
    buf: &mut [u8],
) -> Result<usize, Refusal> {
    // SAFETY: the pointer and the length are those of one slice, lent for this call alone.
    let written = unsafe {
        sys::bluefin_write_fin(
            src_conn_id,
            dst_conn_id,
            packet_number,
            buf.as_mut_ptr(),
            buf.len(),
        )
    };
    Refusal::or(written.refusal, written.bytes)
}

/// Writes a FIN-ACK, as [`write_fin`] does a FIN.
pub fn write_fin_ack(
    src_conn_id: u32,
    dst_conn_id: u32,
    packet_number: u64,
    buf: &mut [u8],
) -> Result<usize, Refusal> {
    // SAFETY: as in `write_fin`.
    let written = unsafe {
        sys::bluefin_write_fin_ack(
            src_conn_id,
            dst_conn_id,
            packet_number,
            buf.as_mut_ptr(),
            buf.len(),
        )
    };
    Refusal::or(written.refusal, written.bytes)
}

#[cfg(test)]
mod tests {
    use super::*;

    #[test]
    fn document_01_samples() {
        let bytes = vec![5; 15_001];
        let mut out = vec![9; PACKED_DATAGRAM];
        let mut kept = Outstanding::new();
        let mut pack = |bytes: &[u8], lengths: &[u32], next, out: &mut [u8]| {
            consume_data_into(&mut kept, bytes, lengths, next, 1, 2, out)
        };
        let two = pack(&bytes[..1_501], &[1_499, 2], 7, &mut out).unwrap();
        assert_eq!((two.packets, two.next_packet_num), (2, 9));
        assert_eq!(payload_bytes_in_datagram(&out[..1_541]), 1_501);
        let ten = pack(&bytes, &[15_001], 9, &mut out).unwrap();
        let left = (ten.packets, ten.entries_removed, ten.bytes_cut);
        assert_eq!(left, (10, 0, 15_000));
        for (lengths, next, room, refusal) in [
            (&[1][..], 19, 21, Refusal::Malformed),
            (&[2], u64::MAX, 22, Refusal::Exhausted),
            (&[2], 19, 21, Refusal::BufferShort),
        ] {
            let told = pack(&bytes[..2], lengths, next, &mut out[..room]);
            assert_eq!(told, Err(refusal));
        }
        assert!(pack(&[], &[], 19, &mut []).is_ok());
        assert_eq!(kept.len(), 12);
    }

    #[test]
    fn closing() {
        let mut buf = [9; 21];
        assert_eq!(reserve_close_packet_num(7), Ok((7, 8)));
        assert_eq!(reserve_close_packet_num(u64::MAX), Err(Refusal::Exhausted));
        assert_eq!(write_fin(1, 2, u64::MAX, &mut buf), Ok(20));
        assert_eq!((buf[0], buf[20]), (5, 9));
        assert_eq!(write_fin_ack(1, 2, 7, &mut buf), Ok(20));
        assert_eq!((buf[0], buf[19]), (6, 7));
        assert_eq!(
            write_fin(1, 2, 7, &mut buf[..19]),
            Err(Refusal::BufferShort)
        );
    }
}
