//! include/bluefin.h as Rust sees it: the same names without `bluefin_`, the same order of fields and arguments. What each call
//! does, and what it must be lent, is said there. The modules beside this one are the safe way to call.

/// The binary interface that this file declares, as the C header counts them.
pub const VERSION: u32 = 3;

macro_rules! c_structs {
    ($($name:ident { $($field:ident: $type:ty),* $(,)? })*) => {
        $(
            #[repr(C)]
            #[derive(Clone, Copy, Debug, Default, PartialEq, Eq)]
            pub struct $name {
                $(pub $field: $type,)*
            }
        )*
    };
}

c_structs! {
    Header {
        packet_number: u64,
        source_connection_id: u32,
        destination_connection_id: u32,
        type_specific_payload: u16,
        version: u8,
        type_field: u8,
        header_protection_mask: u8,
        header_encrypted: bool,
    }
    Written { bytes: usize, refusal: u8 }
    HeaderRead { header: Header, cursor: usize, refusal: u8 }
    Parsed { packets: usize, cursor: usize, refusal: u8 }
    OrderedBytes { slot_width: usize, front_slot: usize, front_number: u64, carry_len: usize }
    Started { state: OrderedBytes, refusal: u8 }
    Accepted { ack_base: u64, ack_count: usize, refusal: u8 }
    Consumed {
        state: OrderedBytes,
        num_packets_consumed: usize,
        base_packet_number: u64,
        bytes_consumed: u64,
        refusal: u8,
    }
    ConsumedBytes {
        state: OrderedBytes,
        num_packets_consumed: usize,
        base_packet_number: u64,
        bytes_consumed: u64,
        pieces: usize,
        refusal: u8,
    }
    Window { smallest_expected: u64, count: usize }
    Inserted { window: Window, refusal: u8 }
    Run { window: Window, last: u64, length: u64, refusal: u8 }
    AcksReceived { window: Window, packets: usize, cursor: usize, refusal: u8 }
    Ack { base_packet_num: u64, num_packets_consumed: u32 }
    Ring { head: usize, tail: usize, len: usize }
    Pushed { ring: Ring, given_back: Ack, full: bool, refusal: u8 }
    Popped { ring: Ring, ack: Ack, refusal: u8 }
    Cleared { ring: Ring, refusal: u8 }
    AcksPacked { ring: Ring, acks: usize, to_send: bool, refusal: u8 }
    Outstanding { count: usize }
    Listed { packets: usize, refusal: u8 }
    Dropped { outstanding: Outstanding, refusal: u8 }
    DataPacked {
        bytes: usize,
        packets: usize,
        next_packet_num: u64,
        entries_removed: usize,
        bytes_cut: usize,
        outstanding: Outstanding,
        refusal: u8,
    }
    Reserved { number: u64, next_packet_num: u64, refusal: u8 }
    CloseRecord {
        state_fin: u64,
        pending_fin_ack_send: u64,
        received_fin_ack_for: u64,
        state: u8,
        is_pending: bool,
        is_received: bool,
        peer_fin_observed: bool,
    }
    CloseAfter { close: CloseRecord, refusal: u8 }
    FinAckTaken { close: CloseRecord, number: u64, was_pending: bool, refusal: u8 }
    Rtt { smoothed: u64, variation: u64, sampled: bool }
    Sampled { estimator: Rtt, refusal: u8 }
    Wait { micros: u64, refusal: u8 }
}

extern "C" {
    pub fn bluefin_header_serialise_into(header: Header, buf: *mut u8, buf_len: usize) -> Written;
    pub fn bluefin_header_deserialise(bytes: *const u8, bytes_len: usize) -> HeaderRead;

    pub fn bluefin_packet_serialise_into(
        header: Header,
        payload: *const u8,
        payload_len: usize,
        buf: *mut u8,
        buf_len: usize,
    ) -> Written;
    pub fn bluefin_packet_deserialise(bytes: *const u8, bytes_len: usize) -> HeaderRead;
    pub fn bluefin_from_bytes(
        datagram: *const u8,
        datagram_len: usize,
        index: *mut u32,
        index_len: usize,
    ) -> Parsed;
    pub fn bluefin_from_bytes_into(
        datagram: *const u8,
        datagram_len: usize,
        index: *mut u32,
        index_len: usize,
    ) -> Parsed;

    pub fn bluefin_ordered_bytes_new(
        slot_width: usize,
        start_packet_number: u64,
        marks: *mut bool,
        marks_len: usize,
        lengths: *mut u32,
        lengths_len: usize,
        store: *const u8,
        store_len: usize,
    ) -> Started;
    pub fn bluefin_ordered_bytes_set_start_packet_number(
        o: OrderedBytes,
        start_packet_number: u64,
        marks: *const bool,
        marks_len: usize,
        lengths: *const u32,
        lengths_len: usize,
        store: *const u8,
        store_len: usize,
    ) -> Started;
    pub fn bluefin_ordered_bytes_buffer_in_packet(
        o: OrderedBytes,
        n: u64,
        payload: *const u8,
        payload_len: usize,
        marks: *mut bool,
        marks_len: usize,
        lengths: *mut u32,
        lengths_len: usize,
        store: *mut u8,
        store_len: usize,
    ) -> Accepted;
    pub fn bluefin_ordered_bytes_peek(
        o: OrderedBytes,
        marks: *const bool,
        marks_len: usize,
        lengths: *const u32,
        lengths_len: usize,
        store: *const u8,
        store_len: usize,
    ) -> u8;
    pub fn bluefin_ordered_bytes_consume(
        o: OrderedBytes,
        len: usize,
        buf: *mut u8,
        buf_len: usize,
        marks: *mut bool,
        marks_len: usize,
        lengths: *mut u32,
        lengths_len: usize,
        store: *mut u8,
        store_len: usize,
    ) -> Consumed;
    pub fn bluefin_ordered_bytes_consume_bytes(
        o: OrderedBytes,
        limit: usize,
        buf: *mut u8,
        buf_len: usize,
        list: *mut u32,
        list_len: usize,
        marks: *mut bool,
        marks_len: usize,
        lengths: *mut u32,
        lengths_len: usize,
        store: *mut u8,
        store_len: usize,
    ) -> ConsumedBytes;
    pub fn bluefin_receive(
        o: OrderedBytes,
        datagram: *const u8,
        datagram_len: usize,
        index: *mut u32,
        index_len: usize,
        answers: *mut u8,
        answers_len: usize,
        marks: *mut bool,
        marks_len: usize,
        lengths: *mut u32,
        lengths_len: usize,
        store: *mut u8,
        store_len: usize,
    ) -> Parsed;

    pub fn bluefin_window_new(smallest_expected: u64) -> Window;
    pub fn bluefin_window_insert_packet_number(
        w: Window,
        cells: *mut u64,
        cells_len: usize,
        n: u64,
    ) -> Inserted;
    pub fn bluefin_window_insert_range(
        w: Window,
        cells: *mut u64,
        cells_len: usize,
        base: u64,
        count: u16,
    ) -> Inserted;
    pub fn bluefin_window_consume(w: Window, cells: *mut u64, cells_len: usize) -> Run;
    pub fn bluefin_receive_acks(
        w: Window,
        cells: *mut u64,
        cells_len: usize,
        datagram: *const u8,
        datagram_len: usize,
        index: *mut u32,
        index_len: usize,
        answers: *mut u8,
        answers_len: usize,
    ) -> AcksReceived;

    pub fn bluefin_ring_new() -> Ring;
    pub fn bluefin_ring_push_back(
        ring: Ring,
        records: *mut Ack,
        records_len: usize,
        record: Ack,
    ) -> Pushed;
    pub fn bluefin_ring_push_front(
        ring: Ring,
        records: *mut Ack,
        records_len: usize,
        record: Ack,
    ) -> Pushed;
    pub fn bluefin_ring_pop_front(ring: Ring, records: *mut Ack, records_len: usize) -> Popped;
    pub fn bluefin_ring_front(ring: Ring, records: *const Ack, records_len: usize) -> Popped;
    pub fn bluefin_ring_clear(ring: Ring, records: *mut Ack, records_len: usize) -> Cleared;
    pub fn bluefin_consume_acks_into(
        ring: Ring,
        records: *mut Ack,
        records_len: usize,
        used: usize,
        src_conn_id: u32,
        dst_conn_id: u32,
        out: *mut u8,
        out_len: usize,
    ) -> AcksPacked;

    pub fn bluefin_outstanding_new() -> Outstanding;
    pub fn bluefin_outstanding_list_into(
        o: Outstanding,
        out: *mut u8,
        out_len: usize,
        numbers: *const u64,
        numbers_len: usize,
        lengths: *const u32,
        lengths_len: usize,
        packets: *const u8,
        packets_len: usize,
    ) -> Listed;
    pub fn bluefin_outstanding_drop_answered(
        o: Outstanding,
        last: u64,
        numbers: *mut u64,
        numbers_len: usize,
        lengths: *mut u32,
        lengths_len: usize,
        packets: *mut u8,
        packets_len: usize,
    ) -> Dropped;

    pub fn bluefin_consume_data_into(
        o: Outstanding,
        bytes: *const u8,
        bytes_len: usize,
        lengths: *const u32,
        lengths_len: usize,
        next_packet_num: u64,
        src_conn_id: u32,
        dst_conn_id: u32,
        out: *mut u8,
        out_len: usize,
        numbers: *mut u64,
        numbers_len: usize,
        payload_lengths: *mut u32,
        payload_lengths_len: usize,
        packets: *mut u8,
        packets_len: usize,
    ) -> DataPacked;
    pub fn bluefin_payload_bytes_in_datagram(datagram: *const u8, datagram_len: usize) -> usize;
    pub fn bluefin_reserve_close_packet_num(next_packet_num: u64) -> Reserved;
    pub fn bluefin_write_fin(
        src_conn_id: u32,
        dst_conn_id: u32,
        packet_number: u64,
        buf: *mut u8,
        buf_len: usize,
    ) -> Written;
    pub fn bluefin_write_fin_ack(
        src_conn_id: u32,
        dst_conn_id: u32,
        packet_number: u64,
        buf: *mut u8,
        buf_len: usize,
    ) -> Written;

    pub fn bluefin_close_new(peer_fin_observed: bool) -> CloseRecord;
    pub fn bluefin_close_buffer_in_fin(c: CloseRecord, n: u64) -> CloseAfter;
    pub fn bluefin_close_buffer_in_fin_ack(c: CloseRecord, n: u64) -> CloseAfter;
    pub fn bluefin_close_record_local_fin_sent(c: CloseRecord, n: u64) -> CloseAfter;
    pub fn bluefin_close_mark_closed(c: CloseRecord) -> CloseAfter;
    pub fn bluefin_close_take_pending_fin_ack_send(c: CloseRecord) -> FinAckTaken;

    pub fn bluefin_rtt_new() -> Rtt;
    pub fn bluefin_rtt_sample(t: Rtt, micros: u64) -> Sampled;
    pub fn bluefin_rtt_wait_time(t: Rtt) -> Wait;

    pub fn bluefin_is_hello_packet(host: u8, header: Header) -> bool;
    pub fn bluefin_is_client_ack_packet(host: u8, header: Header) -> bool;
}

#[cfg(test)]
mod tests {
    use super::*;
    use std::mem::{align_of, offset_of, size_of};

    #[test]
    fn the_version_is_that_of_the_c_header() {
        let header = include_str!("../../../include/bluefin.h");
        let line = format!("#define BLUEFIN_VERSION {VERSION}");
        assert!(header.lines().any(|said| said == line), "{line}");
    }

    /// The numbers that the C header and hosts/c/main.c have for C.
    #[test]
    fn layouts_are_those_of_the_c_header() {
        macro_rules! layout {
            ($name:ident, $size:expr, $($field:ident $at:expr),*) => {
                assert_eq!(size_of::<$name>(), $size, stringify!($name));
                assert_eq!(align_of::<$name>(), 8, stringify!($name));
                $(assert_eq!(offset_of!($name, $field), $at, stringify!($name.$field));)*
            };
        }
        layout!(Header, 24, packet_number 0, source_connection_id 8, destination_connection_id 12,
            type_specific_payload 16, version 18, type_field 19, header_protection_mask 20, header_encrypted 21);
        layout!(Written, 16, bytes 0, refusal 8);
        layout!(HeaderRead, 40, header 0, cursor 24, refusal 32);
        layout!(Parsed, 24, packets 0, cursor 8, refusal 16);
        layout!(OrderedBytes, 32, slot_width 0, front_slot 8, front_number 16, carry_len 24);
        layout!(Started, 40, state 0, refusal 32);
        layout!(Accepted, 24, ack_base 0, ack_count 8, refusal 16);
        layout!(Consumed, 64, state 0, num_packets_consumed 32, base_packet_number 40, bytes_consumed 48, refusal 56);
        layout!(ConsumedBytes, 72, state 0, num_packets_consumed 32, base_packet_number 40, bytes_consumed 48,
            pieces 56, refusal 64);
        layout!(Window, 16, smallest_expected 0, count 8);
        layout!(Inserted, 24, window 0, refusal 16);
        layout!(Run, 40, window 0, last 16, length 24, refusal 32);
        layout!(AcksReceived, 40, window 0, packets 16, cursor 24, refusal 32);
        layout!(Ack, 16, base_packet_num 0, num_packets_consumed 8);
        layout!(Ring, 24, head 0, tail 8, len 16);
        layout!(Pushed, 48, ring 0, given_back 24, full 40, refusal 41);
        layout!(Popped, 48, ring 0, ack 24, refusal 40);
        layout!(Cleared, 32, ring 0, refusal 24);
        layout!(AcksPacked, 40, ring 0, acks 24, to_send 32, refusal 33);
        layout!(Outstanding, 8, count 0);
        layout!(Listed, 16, packets 0, refusal 8);
        layout!(Dropped, 16, outstanding 0, refusal 8);
        layout!(DataPacked, 56, bytes 0, packets 8, next_packet_num 16, entries_removed 24, bytes_cut 32, outstanding 40,
            refusal 48);
        layout!(Reserved, 24, number 0, next_packet_num 8, refusal 16);
        layout!(CloseRecord, 32, state_fin 0, pending_fin_ack_send 8, received_fin_ack_for 16, state 24, is_pending 25,
            is_received 26, peer_fin_observed 27);
        layout!(CloseAfter, 40, close 0, refusal 32);
        layout!(FinAckTaken, 48, close 0, number 32, was_pending 40, refusal 41);
        layout!(Rtt, 24, smoothed 0, variation 8, sampled 16);
        layout!(Sampled, 32, estimator 0, refusal 24);
        layout!(Wait, 16, micros 0, refusal 8);
    }
}
