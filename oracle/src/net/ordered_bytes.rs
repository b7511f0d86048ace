// `net/ordered_bytes.rs` as published, with a child that sees its private fields.
include!(concat!(env!("BLUEFIN"), "/net/ordered_bytes.rs"));

pub(crate) mod probe {
    use super::*;

    /// Front number, the held payloads by distance from the front, and the carry-over (empty if none).
    pub(crate) fn parts(b: &OrderedBytes) -> (u64, Vec<Option<Bytes>>, Bytes) {
        let held = (0..MAX_BUFFER_SIZE)
            .map(|i| wrap_index(b.smallest_packet_number_index, i))
            .map(|slot| b.packets[slot].as_ref().map(|p| p.payload.clone()))
            .collect();
        (
            b.smallest_packet_number,
            held,
            b.carry_over_bytes.clone().unwrap_or_default(),
        )
    }

    /// The slot of the front number.
    pub(crate) fn front_slot(b: &OrderedBytes) -> usize {
        b.smallest_packet_number_index
    }

    /// How many packets are held.
    pub(crate) fn held(b: &OrderedBytes) -> usize {
        b.packets.iter().flatten().count()
    }

    pub(crate) fn front(b: &OrderedBytes) -> u64 {
        b.smallest_packet_number
    }

    /// The length of the carry-over, 0 if none.
    pub(crate) fn carried(b: &OrderedBytes) -> usize {
        b.carry_over_bytes.as_ref().map_or(0, Bytes::len)
    }
}
