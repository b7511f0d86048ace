/*
 * The numbers of include/bluefin.h against the archive: each field of each struct holds another value than its neighbours, and each packet
 * type, refusal, close state and host kind is met by its name. So two fields or two names that are exchanged, in the archive or in the
 * header, are seen; and so is another longest datagram than the header names. It prints nothing, and ends with a failure where a number
 * is off.
 */
#include <string.h>

#include "bluefin.h"
#include "expect.h"

#define SLOTS 4
#define WIDTH 7

/* A data packet of 5 bytes, an ack from 12 on of 3 numbers, and a tail of 1 byte. */
static const uint8_t cut[46] = {
    3, 0, 5, 0, 0, 0, 0, 1, 0, 0, 0, 2, 0, 0, 0, 0, 0, 0, 0, 100, 'a', 'b', 'c', 'd', 'e',
    4, 0, 3, 0, 0, 0, 0, 1, 0, 0, 0, 2, 0, 0, 0, 0, 0, 0, 0, 12,  4,
};

static void headers(void) {
    bluefin_header h = {.packet_number = 0x0102030405060708,
                        .source_connection_id = 0x11121314,
                        .destination_connection_id = 0x21222324,
                        .type_specific_payload = 0x3132,
                        .version = 5,
                        .type_field = BLUEFIN_FIN_ACK,
                        .header_protection_mask = 0x41,
                        .header_encrypted = true};
    static const uint8_t wire[20] = {0x56, 0x31, 0x32, 0xc1, 0x11, 0x12, 0x13, 0x14, 0x21, 0x22,
                                     0x23, 0x24, 0x01, 0x02, 0x03, 0x04, 0x05, 0x06, 0x07, 0x08};
    uint8_t buf[22];
    bluefin_written written = bluefin_header_serialise_into(h, buf, 20);
    EXPECT(written.bytes == 20 && written.refusal == 0 && memcmp(buf, wire, 20) == 0);
    written = bluefin_packet_serialise_into(h, wire, 2, buf, 22);
    EXPECT(written.bytes == 22 && written.refusal == 0 && memcmp(buf, wire, 20) == 0 && memcmp(buf + 20, wire, 2) == 0);
    written = bluefin_packet_serialise_into(h, wire, 2, buf, 21);
    EXPECT(written.bytes == 0 && written.refusal == BLUEFIN_BUFFER_SHORT);

    bluefin_header_read read = bluefin_header_deserialise(wire, 20);
    EXPECT(read.header.packet_number == h.packet_number && read.header.source_connection_id == h.source_connection_id);
    EXPECT(read.header.destination_connection_id == h.destination_connection_id);
    EXPECT(read.header.type_specific_payload == h.type_specific_payload && read.header.version == h.version);
    EXPECT(read.header.type_field == h.type_field && read.header.header_protection_mask == h.header_protection_mask);
    EXPECT(read.header.header_encrypted && read.cursor == 0 && read.refusal == 0);
    read = bluefin_packet_deserialise(wire, 19);
    EXPECT(read.header.packet_number == 0 && read.cursor == 0 && read.refusal == BLUEFIN_SHORT);

    static const uint8_t types[] = {BLUEFIN_CLIENT_HELLO, BLUEFIN_SERVER_HELLO, BLUEFIN_CLIENT_ACK, BLUEFIN_DATA,
                                    BLUEFIN_ACK,          BLUEFIN_FIN,          BLUEFIN_FIN_ACK};
    for (uint8_t type = 0; type < sizeof types; type++) {
        h.type_field = types[type];
        EXPECT(bluefin_header_serialise_into(h, buf, 20).refusal == 0 && buf[0] % 16 == type);
    }
    h.version = 16;
    EXPECT(bluefin_header_serialise_into(h, buf, 20).refusal == BLUEFIN_OUT_OF_RANGE);
    h.type_field = 7;
    EXPECT(bluefin_header_serialise_into(h, buf, 20).refusal == BLUEFIN_UNKNOWN_TYPE);
}

static void listing(void) {
    uint32_t index[6] = {9, 9, 9, 9, 9, 9};
    bluefin_parsed told = bluefin_from_bytes(cut, 45, index, 6);
    EXPECT(told.packets == 2 && told.cursor == 0 && told.refusal == 0);
    EXPECT(index[0] == 0 && index[1] == 5 && index[2] == 25 && index[3] == 0 && index[4] == 9 && index[5] == 9);
    told = bluefin_from_bytes(cut, 46, index, 6);
    EXPECT(told.packets == 0 && told.cursor == 45 && told.refusal == BLUEFIN_TAIL);
    told = bluefin_from_bytes_into(cut, 46, index, 6);
    EXPECT(told.packets == 2 && told.cursor == 45 && told.refusal == BLUEFIN_TAIL);
    told = bluefin_from_bytes_into(cut, 46, index, 3);
    EXPECT(told.packets == 1 && told.cursor == 0 && told.refusal == BLUEFIN_BUFFER_SHORT);
    told = bluefin_from_bytes_into(cut, 24, index, 6);
    EXPECT(told.packets == 0 && told.cursor == 0 && told.refusal == BLUEFIN_PAYLOAD_MISSING);
}

/* As many packets as a datagram can have, 3,274 acks and a data packet, to a byte past the longest one and to its very end. */
static void longest(void) {
    static uint8_t datagram[65508], answers[3275], store[2 * 8];
    static uint32_t index[6550], lengths[1];
    static bool marks[1];
    uint64_t cells[1];
    for (size_t at = 0; at < 65480; at += 20)
        datagram[at] = BLUEFIN_ACK;
    datagram[65480] = BLUEFIN_DATA;
    bluefin_ordered_bytes o = bluefin_ordered_bytes_new(8, 0, marks, 1, lengths, 1, store, sizeof store).state;
#define RECEIVE(length) bluefin_receive(o, datagram, length, index, 6550, answers, 3275, marks, 1, lengths, 1, store, sizeof store)
#define RECEIVE_ACKS(length) bluefin_receive_acks(bluefin_window_new(0), cells, 1, datagram, length, index, 6550, answers, 3275)

    datagram[65482] = 8;
    index[0] = 9;
    EXPECT(bluefin_from_bytes(datagram, 65508, index, 6550).refusal == BLUEFIN_OUT_OF_RANGE);
    EXPECT(bluefin_from_bytes_into(datagram, 65508, index, 6550).refusal == BLUEFIN_OUT_OF_RANGE);
    EXPECT(RECEIVE(65508).refusal == BLUEFIN_OUT_OF_RANGE && RECEIVE_ACKS(65508).refusal == BLUEFIN_OUT_OF_RANGE);
    EXPECT(index[0] == 9 && !marks[0]);

    datagram[65482] = 7;
    EXPECT(bluefin_from_bytes(datagram, 65507, index, 6549).refusal == BLUEFIN_BUFFER_SHORT);
    bluefin_parsed told = bluefin_from_bytes(datagram, 65507, index, 6550);
    EXPECT(told.packets == 3275 && told.refusal == 0 && index[6548] == 65480 && index[6549] == 7);
    EXPECT(bluefin_from_bytes_into(datagram, 65507, index, 6550).packets == 3275);
    EXPECT(RECEIVE(65507).packets == 3275 && marks[0] && RECEIVE_ACKS(65507).packets == 3275);
#undef RECEIVE
#undef RECEIVE_ACKS
}

static bool same_state(bluefin_ordered_bytes o, size_t front_slot, uint64_t front_number, size_t carry_len) {
    return o.slot_width == WIDTH && o.front_slot == front_slot && o.front_number == front_number && o.carry_len == carry_len;
}

static void buffer(void) {
    bool marks[SLOTS];
    uint32_t lengths[SLOTS], index[6], list[SLOTS];
    uint8_t store[(SLOTS + 1) * WIDTH] = {0}, answers[3] = {99, 99, 99}, buf[16];
#define LENT marks, SLOTS, lengths, SLOTS, store, sizeof store
#define ACCEPT(o, n, length) bluefin_ordered_bytes_buffer_in_packet(o, n, cut, length, LENT)
    bluefin_started started = bluefin_ordered_bytes_new(WIDTH, 100, LENT);
    EXPECT(started.refusal == 0);
    EXPECT(same_state(started.state, 0, 100, 0));
    bluefin_ordered_bytes o = started.state;
    EXPECT(bluefin_ordered_bytes_peek(o, LENT) == BLUEFIN_EMPTY);
    bluefin_accepted below = ACCEPT(o, 99, 1), beyond = ACCEPT(o, 104, 1);
    EXPECT(below.ack_base == 99 && below.ack_count == 1 && below.refusal == BLUEFIN_BELOW);
    EXPECT(beyond.ack_base == 0 && beyond.ack_count == 0 && beyond.refusal == BLUEFIN_BEYOND);
    EXPECT(ACCEPT(o, 101, 8).refusal == BLUEFIN_OUT_OF_RANGE);
    EXPECT(ACCEPT(o, 101, 6).refusal == 0 && ACCEPT(o, 101, 6).refusal == BLUEFIN_ALREADY_HELD);
    started = bluefin_ordered_bytes_set_start_packet_number(o, 5, LENT);
    EXPECT(started.refusal == BLUEFIN_PACKETS_HELD);
    EXPECT(same_state(started.state, 0, 100, 0));

    bluefin_parsed told = bluefin_receive(o, cut, 46, index, 6, answers, 3, LENT);
    EXPECT(told.packets == 2 && told.cursor == 45 && told.refusal == BLUEFIN_TAIL);
    EXPECT(answers[0] == 0 && answers[1] == 99 && answers[2] == 99);
    told = bluefin_receive(o, cut, 46, index, 6, answers, 2, LENT);
    EXPECT(told.packets == 0 && told.cursor == 0 && told.refusal == BLUEFIN_BUFFER_SHORT);

    bluefin_consumed read = bluefin_ordered_bytes_consume(o, 8, buf, sizeof buf, LENT);
    EXPECT(read.num_packets_consumed == 2 && read.base_packet_number == 100 && read.bytes_consumed == 8 && read.refusal == 0);
    EXPECT(same_state(read.state, 2, 102, 3));
    o = read.state;
    told = bluefin_receive(o, cut, 45, index, 6, answers, 3, LENT);
    EXPECT(told.packets == 2 && told.refusal == 0 && answers[0] == BLUEFIN_BELOW && answers[1] == 99);
    EXPECT(ACCEPT(o, 102, 1).refusal == 0 && ACCEPT(o, 103, 4).refusal == 0 && ACCEPT(o, 104, 7).refusal == 0);
    bluefin_consumed_bytes pieces = bluefin_ordered_bytes_consume_bytes(o, 4, buf, sizeof buf, list, SLOTS, LENT);
    EXPECT(pieces.num_packets_consumed == 3 && pieces.base_packet_number == 102 && pieces.bytes_consumed == 15);
    EXPECT(pieces.pieces == 4 && pieces.refusal == 0);
    EXPECT(same_state(pieces.state, 1, 105, 0));

    o.front_slot = SLOTS;
    read = bluefin_ordered_bytes_consume(o, 8, buf, sizeof buf, LENT);
    EXPECT(read.num_packets_consumed == 0 && read.bytes_consumed == 0 && read.refusal == BLUEFIN_MALFORMED);
    EXPECT(same_state(read.state, SLOTS, 102, 3));
#undef LENT
#undef ACCEPT
}

static void windows(void) {
    uint64_t cells[8];
    uint32_t index[6];
    uint8_t answers[3] = {99, 99, 99};
    bluefin_window w = bluefin_window_new(10);
    EXPECT(w.smallest_expected == 10 && w.count == 0);
    bluefin_inserted inserted = bluefin_window_insert_range(w, cells, 8, 10, 2);
    EXPECT(inserted.refusal == 0 && inserted.window.smallest_expected == 10 && inserted.window.count == 2);
    EXPECT(bluefin_window_insert_packet_number(inserted.window, cells, 8, 9).refusal == BLUEFIN_BELOW);

    bluefin_acks_received told = bluefin_receive_acks(inserted.window, cells, 8, cut, 46, index, 6, answers, 3);
    EXPECT(told.packets == 2 && told.cursor == 45 && told.refusal == BLUEFIN_TAIL);
    EXPECT(told.window.smallest_expected == 10 && told.window.count == 5);
    EXPECT(answers[0] == 99 && answers[1] == 0 && answers[2] == 99);
    inserted = bluefin_window_insert_packet_number(told.window, cells, 8, 16);
    bluefin_run run = bluefin_window_consume(inserted.window, cells, 8);
    EXPECT(run.last == 14 && run.length == 5 && run.refusal == 0 && run.window.smallest_expected == 15 && run.window.count == 1);
    run = bluefin_window_consume(run.window, cells, 0);
    EXPECT(run.last == 0 && run.length == 0 && run.refusal == BLUEFIN_MALFORMED);
}

static bool same_ring(bluefin_ring ring, size_t head, size_t tail, size_t len) {
    return ring.head == head && ring.tail == tail && ring.len == len;
}

static void rings(void) {
    bluefin_ack records[5] = {{0, 0}};
    uint8_t out[15200];
    bluefin_ring ring = bluefin_ring_new();
    EXPECT(same_ring(ring, 0, 0, 0));
    EXPECT(bluefin_ring_front(ring, records, 5).refusal == BLUEFIN_EMPTY);
    for (uint32_t i = 0; i < 5; i++) {
        bluefin_pushed pushed = bluefin_ring_push_back(ring, records, 5, (bluefin_ack){70 + i, 30 + i});
        EXPECT(!pushed.full && pushed.given_back.base_packet_num == 0 && pushed.refusal == 0);
        ring = pushed.ring;
    }
    bluefin_pushed full = bluefin_ring_push_front(ring, records, 5, (bluefin_ack){8, 9});
    EXPECT(full.full && full.given_back.base_packet_num == 8 && full.given_back.num_packets_consumed == 9 && full.refusal == 0);
    bluefin_popped popped = bluefin_ring_pop_front(ring, records, 5);
    popped = bluefin_ring_pop_front(popped.ring, records, 5);
    EXPECT(popped.ack.base_packet_num == 71 && popped.ack.num_packets_consumed == 31 && popped.refusal == 0);
    ring = bluefin_ring_push_back(popped.ring, records, 5, (bluefin_ack){75, 35}).ring;
    EXPECT(same_ring(ring, 2, 1, 4));

    bluefin_acks_packed packed = bluefin_consume_acks_into(ring, records, 5, 15160, 1, 2, out, sizeof out);
    EXPECT(packed.acks == 2 && packed.to_send && packed.refusal == 0);
    EXPECT(same_ring(packed.ring, 4, 1, 2));
    static const uint8_t ack[20] = {4, 0, 32, 0, 0, 0, 0, 1, 0, 0, 0, 2, 0, 0, 0, 0, 0, 0, 0, 72};
    EXPECT(memcmp(out + 15160, ack, 20) == 0);
    packed = bluefin_consume_acks_into(packed.ring, records, 5, 15181, 1, 2, out, 15180);
    EXPECT(packed.acks == 0 && !packed.to_send && packed.refusal == BLUEFIN_MALFORMED);
    bluefin_cleared cleared = bluefin_ring_clear(packed.ring, records, 5);
    EXPECT(cleared.ring.len == 0 && cleared.refusal == 0);
}

/* Packing into a store, and the store's own calls. */
static void packing(void) {
    static uint8_t bytes[20010], out[15200], packets[BLUEFIN_PLACES_BYTES], listing[BLUEFIN_PLACES_BYTES];
    static const uint32_t lengths[3] = {4, 6, 20000};
    static uint32_t payload_lengths[BLUEFIN_PLACES];
    static uint64_t numbers[BLUEFIN_PLACES];
#define LENT numbers, BLUEFIN_PLACES, payload_lengths, BLUEFIN_PLACES, packets, sizeof packets
#define PACK(o, length, entries, next, room) bluefin_consume_data_into(o, bytes, length, lengths, entries, next, 1, 2, out, room, LENT)
#define LIST(o, room) bluefin_outstanding_list_into(o, listing, room, LENT)
    for (size_t i = 0; i < sizeof bytes; i++)
        bytes[i] = (uint8_t)(i * 31 + i / 256);
    bluefin_outstanding o = bluefin_outstanding_new();
    EXPECT(o.count == 0);
    static const uint32_t first_lengths[1] = {3007};
    bluefin_data_packed data = bluefin_consume_data_into(o, bytes, 3007, first_lengths, 1, 100, 1, 2, out, sizeof out, LENT);
    EXPECT(data.outstanding.count == 3 && data.packets == 3 && data.next_packet_num == 103 && data.refusal == 0);
    EXPECT(memcmp(packets, out, 3067) == 0 && packets[3067] == 0);
    EXPECT(numbers[0] == 100 && numbers[2] == 102 && payload_lengths[1] == 1500 && payload_lengths[2] == 7 && numbers[3] == 0);
    o = data.outstanding;

    data = PACK(o, sizeof bytes, 3, 103, sizeof out);
    EXPECT(data.bytes == 15000 && data.packets == 10 && data.next_packet_num == 113 && data.refusal == 0);
    EXPECT(data.entries_removed == 2 && data.bytes_cut == 14990 && data.outstanding.count == 13);
    static const uint8_t first[20] = {3, 0x05, 0xdc, 0, 0, 0, 0, 1, 0, 0, 0, 2, 0, 0, 0, 0, 0, 0, 0, 103};
    EXPECT(memcmp(out, first, 20) == 0);
    EXPECT(bluefin_payload_bytes_in_datagram(out, 3039) == 1500);
    o = data.outstanding;

    bluefin_listed listed = LIST(o, 18266);
    EXPECT(listed.packets == 0 && listed.refusal == BLUEFIN_BUFFER_SHORT && listing[0] == 0);
    listed = LIST(o, 18267);
    EXPECT(listed.packets == 13 && listed.refusal == 0 && memcmp(listing, packets, 3067) == 0 && memcmp(listing + 3067, out, 15200) == 0);
    data = PACK(o, 10, 2, 112, sizeof out);
    EXPECT(data.packets == 0 && data.outstanding.count == 13 && data.refusal == BLUEFIN_MALFORMED);
    EXPECT(PACK(o, 10, 2, 113, 29).refusal == BLUEFIN_BUFFER_SHORT && PACK(o, 10, 2, UINT64_MAX, 29).refusal == BLUEFIN_EXHAUSTED);
    bluefin_dropped dropped = bluefin_outstanding_drop_answered(o, 101, LENT);
    EXPECT(dropped.outstanding.count == 11 && dropped.refusal == 0);
    EXPECT(numbers[0] == 102 && payload_lengths[0] == 7 && memcmp(packets, listing + 3040, 15227) == 0);

    for (size_t i = 0; i < BLUEFIN_PLACES; i++)
        numbers[i] = i;
    o.count = 62;
    data = PACK(o, sizeof bytes, 3, 100, sizeof out);
    EXPECT(data.bytes == 3000 && data.packets == 2 && data.entries_removed == 2 && data.bytes_cut == 2990 && data.outstanding.count == 64);
    o = data.outstanding;
    data = PACK(o, 0, 0, 102, 0);
    EXPECT(data.bytes == 0 && data.next_packet_num == 0 && data.outstanding.count == 64 && data.refusal == BLUEFIN_NO_PLACE);
    o.count = 65;
    dropped = bluefin_outstanding_drop_answered(o, 101, LENT);
    EXPECT(dropped.outstanding.count == 65 && dropped.refusal == BLUEFIN_MALFORMED && LIST(o, 0).refusal == BLUEFIN_MALFORMED);
#undef LENT
#undef PACK
#undef LIST
}

static bool same_close(bluefin_close_record c, uint8_t state, uint64_t state_fin, uint64_t pending, uint64_t received) {
    return c.state == state && c.state_fin == state_fin && c.pending_fin_ack_send == pending && c.received_fin_ack_for == received;
}

static bool same_flags(bluefin_close_record c, bool is_pending, bool is_received, bool peer_fin_observed) {
    return c.is_pending == is_pending && c.is_received == is_received && c.peer_fin_observed == peer_fin_observed;
}

static void closing(void) {
    bluefin_reserved reserved = bluefin_reserve_close_packet_num(7);
    EXPECT(reserved.number == 7 && reserved.next_packet_num == 8 && reserved.refusal == 0);
    EXPECT(bluefin_reserve_close_packet_num(UINT64_MAX).refusal == BLUEFIN_EXHAUSTED);
    static const uint8_t wire[20] = {5, 0, 0, 0, 0, 0, 0, 1, 0, 0, 0, 2, 0, 0, 0, 0, 0, 0, 0, 7};
    uint8_t buf[20];
    EXPECT(bluefin_write_fin(1, 2, 7, buf, 20).bytes == 20 && memcmp(buf, wire, 20) == 0);
    EXPECT(bluefin_write_fin_ack(1, 2, 7, buf, 20).bytes == 20 && buf[0] == 6 && memcmp(buf + 1, wire + 1, 19) == 0);

    bluefin_close_record c = bluefin_close_new(true);
    EXPECT(same_close(c, BLUEFIN_ACTIVE, 0, 0, 0));
    EXPECT(same_flags(c, false, false, true));
    c = bluefin_close_new(false);
    EXPECT(same_flags(bluefin_close_buffer_in_fin_ack(c, 33).close, false, true, false));
    bluefin_close_after after = bluefin_close_buffer_in_fin(c, 11);
    EXPECT(after.refusal == 0);
    EXPECT(same_close(after.close, BLUEFIN_PEER_FIN_RECEIVED, 11, 11, 0));
    EXPECT(same_flags(after.close, true, false, true));
    c = bluefin_close_buffer_in_fin_ack(bluefin_close_record_local_fin_sent(after.close, 22).close, 33).close;
    EXPECT(same_close(c, BLUEFIN_LOCAL_FIN_SENT, 22, 11, 33));
    bluefin_fin_ack_taken taken = bluefin_close_take_pending_fin_ack_send(c);
    EXPECT(taken.number == 11 && taken.was_pending && taken.refusal == 0);
    EXPECT(same_close(taken.close, BLUEFIN_LOCAL_FIN_SENT, 22, 0, 33));
    EXPECT(same_flags(taken.close, false, true, true));
    EXPECT(same_close(bluefin_close_mark_closed(taken.close).close, BLUEFIN_CLOSED, 0, 0, 33));

    c.state = 4;
    after = bluefin_close_mark_closed(c);
    EXPECT(after.refusal == BLUEFIN_MALFORMED);
    EXPECT(same_close(after.close, 4, 22, 11, 33));
    taken = bluefin_close_take_pending_fin_ack_send(c);
    EXPECT(taken.number == 0 && !taken.was_pending && taken.refusal == BLUEFIN_MALFORMED);
}

static bool same_rtt(bluefin_rtt t, uint64_t smoothed, uint64_t variation, bool sampled) {
    return t.smoothed == smoothed && t.variation == variation && t.sampled == sampled;
}

static void waiting(void) {
    bluefin_rtt t = bluefin_rtt_new();
    EXPECT(same_rtt(t, 0, 0, false));
    bluefin_wait wait = bluefin_rtt_wait_time(t);
    EXPECT(wait.micros == 1000000 && wait.refusal == 0);
    bluefin_sampled sampled = bluefin_rtt_sample(t, 60000000);
    EXPECT(sampled.refusal == 0);
    EXPECT(same_rtt(sampled.estimator, 480000000, 120000000, true));
    sampled = bluefin_rtt_sample(bluefin_rtt_sample(t, 2000000).estimator, 1000000);
    EXPECT(sampled.refusal == 0);
    EXPECT(same_rtt(sampled.estimator, 15000000, 4000000, true));
    wait = bluefin_rtt_wait_time(sampled.estimator);
    EXPECT(wait.micros == 5875000 && wait.refusal == 0);

    t = sampled.estimator;
    sampled = bluefin_rtt_sample(t, 60000001);
    EXPECT(sampled.refusal == BLUEFIN_SAMPLE_TOO_LONG);
    EXPECT(same_rtt(sampled.estimator, 15000000, 4000000, true));
    t.variation = 240000001;
    sampled = bluefin_rtt_sample(t, 60000000);
    EXPECT(sampled.refusal == BLUEFIN_MALFORMED);
    EXPECT(same_rtt(sampled.estimator, 15000000, 240000001, true));
    EXPECT(bluefin_rtt_sample(t, 60000001).refusal == BLUEFIN_SAMPLE_TOO_LONG);
    wait = bluefin_rtt_wait_time(t);
    EXPECT(wait.micros == 0 && wait.refusal == BLUEFIN_MALFORMED);
}

static void hosts(void) {
    static const bluefin_header client_hello = {.source_connection_id = 1, .type_field = BLUEFIN_CLIENT_HELLO};
    static const bluefin_header server_hello = {.source_connection_id = 1, .destination_connection_id = 2, .type_field = BLUEFIN_SERVER_HELLO};
    static const bluefin_header client_ack = {.source_connection_id = 1, .destination_connection_id = 2, .type_field = BLUEFIN_CLIENT_ACK};
    EXPECT(bluefin_is_hello_packet(BLUEFIN_PACK_LEADER, client_hello) && !bluefin_is_hello_packet(BLUEFIN_PACK_LEADER, server_hello));
    EXPECT(!bluefin_is_hello_packet(BLUEFIN_CLIENT, client_hello) && bluefin_is_hello_packet(BLUEFIN_CLIENT, server_hello));
    EXPECT(bluefin_is_hello_packet(2, client_ack) && bluefin_is_hello_packet(255, client_ack));
    EXPECT(bluefin_is_client_ack_packet(BLUEFIN_PACK_LEADER, client_ack) && !bluefin_is_client_ack_packet(BLUEFIN_PACK_LEADER, server_hello));
    EXPECT(!bluefin_is_client_ack_packet(BLUEFIN_CLIENT, client_ack) && !bluefin_is_client_ack_packet(2, client_ack));
}

int main(void) {
    headers();
    listing();
    longest();
    buffer();
    windows();
    rings();
    packing();
    closing();
    waiting();
    hosts();
    return 0;
}
