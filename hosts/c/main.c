/*
 * A sender and a receiver in one program: packs a queue, parses the datagram, accepts its packets out of order, reads until nothing is left,
 * sends acks back, consumes the window and drops what is answered; then packs a longer queue into datagrams that are lost, sends again what was
 * kept, and receives it by one call for a datagram; then how long to wait after two round trips, and a FIN in a datagram of its own. It checks
 * each answer, prints what it saw, and ends with a failure where anything is off. examples/link.rs of hosts/rust is the same program;
 * hosts/expected is what both print.
 */
#include <stdio.h>
#include <string.h>

#include "bluefin.h"
#include "expect.h"

/* As many slots and cells as there are places: no packet that is kept is beyond the receiver, and no ack of one finds no cell. */
#define SLOTS BLUEFIN_PLACES
#define CELLS BLUEFIN_PLACES
#define WIDTH 1500
/* The lines of the first packing, and of all those that are lost: 64 packets of 1,500 bytes. */
#define FEW 70
#define LINES 2000
#define LINE 48
#define QUEUED (LINES * LINE)
#define START 100
#define ACKS 4
#define LONGEST 65507
#define SENDER 1
#define RECEIVER 2

/* ---- the layouts that a host in another language must have; the header has the sizes */

#define AT(type, field, offset) _Static_assert(offsetof(type, field) == offset, #type " " #field)

AT(bluefin_header, source_connection_id, 8);
AT(bluefin_header, destination_connection_id, 12);
AT(bluefin_header, type_specific_payload, 16);
AT(bluefin_header, version, 18);
AT(bluefin_header, type_field, 19);
AT(bluefin_header, header_protection_mask, 20);
AT(bluefin_header, header_encrypted, 21);
AT(bluefin_written, refusal, 8);
AT(bluefin_header_read, cursor, 24);
AT(bluefin_header_read, refusal, 32);
AT(bluefin_parsed, cursor, 8);
AT(bluefin_parsed, refusal, 16);
AT(bluefin_ordered_bytes, front_slot, 8);
AT(bluefin_ordered_bytes, front_number, 16);
AT(bluefin_ordered_bytes, carry_len, 24);
AT(bluefin_started, refusal, 32);
AT(bluefin_accepted, ack_count, 8);
AT(bluefin_accepted, refusal, 16);
AT(bluefin_consumed, num_packets_consumed, 32);
AT(bluefin_consumed, base_packet_number, 40);
AT(bluefin_consumed, bytes_consumed, 48);
AT(bluefin_consumed, refusal, 56);
AT(bluefin_consumed_bytes, pieces, 56);
AT(bluefin_consumed_bytes, refusal, 64);
AT(bluefin_window, count, 8);
AT(bluefin_inserted, refusal, 16);
AT(bluefin_run, last, 16);
AT(bluefin_run, length, 24);
AT(bluefin_run, refusal, 32);
AT(bluefin_acks_received, packets, 16);
AT(bluefin_acks_received, cursor, 24);
AT(bluefin_acks_received, refusal, 32);
AT(bluefin_ack, num_packets_consumed, 8);
AT(bluefin_ring, tail, 8);
AT(bluefin_ring, len, 16);
AT(bluefin_pushed, given_back, 24);
AT(bluefin_pushed, full, 40);
AT(bluefin_pushed, refusal, 41);
AT(bluefin_popped, ack, 24);
AT(bluefin_popped, refusal, 40);
AT(bluefin_cleared, refusal, 24);
AT(bluefin_acks_packed, acks, 24);
AT(bluefin_acks_packed, to_send, 32);
AT(bluefin_acks_packed, refusal, 33);
AT(bluefin_listed, refusal, 8);
AT(bluefin_dropped, refusal, 8);
AT(bluefin_data_packed, packets, 8);
AT(bluefin_data_packed, next_packet_num, 16);
AT(bluefin_data_packed, entries_removed, 24);
AT(bluefin_data_packed, bytes_cut, 32);
AT(bluefin_data_packed, outstanding, 40);
AT(bluefin_data_packed, refusal, 48);
AT(bluefin_reserved, next_packet_num, 8);
AT(bluefin_reserved, refusal, 16);
AT(bluefin_close_record, pending_fin_ack_send, 8);
AT(bluefin_close_record, received_fin_ack_for, 16);
AT(bluefin_close_record, state, 24);
AT(bluefin_close_record, is_pending, 25);
AT(bluefin_close_record, is_received, 26);
AT(bluefin_close_record, peer_fin_observed, 27);
AT(bluefin_close_after, refusal, 32);
AT(bluefin_fin_ack_taken, number, 32);
AT(bluefin_fin_ack_taken, was_pending, 40);
AT(bluefin_fin_ack_taken, refusal, 41);
AT(bluefin_rtt, variation, 8);
AT(bluefin_rtt, sampled, 16);
AT(bluefin_sampled, refusal, 24);
AT(bluefin_wait, refusal, 8);

/* ---- the two ends */

typedef struct {
    bluefin_ordered_bytes small;
    bool marks[SLOTS];
    uint32_t lengths[SLOTS];
    uint8_t store[(SLOTS + 1) * WIDTH];
} buffer;

/* The next number, the packets kept, and the window of what is acked of them. */
typedef struct {
    uint64_t next;
    bluefin_outstanding kept;
    uint64_t numbers[BLUEFIN_PLACES];
    uint32_t lengths[BLUEFIN_PLACES];
    uint8_t packets[BLUEFIN_PLACES_BYTES];
    bluefin_window window;
    uint64_t cells[CELLS];
} sender;

static uint8_t queue[QUEUED];
static uint32_t queue_lengths[LINES];
static uint8_t datagram[15200];
static uint32_t index_cells[2 * SLOTS];

static void fill_queue(void) {
    for (int i = 0; i < LINES; i++) {
        char line[LINE + 1];
        snprintf(line, sizeof line, "%04d pack my box with five dozen liquor jugs...\n", i + 1);
        memcpy(queue + i * LINE, line, LINE);
        queue_lengths[i] = LINE;
    }
}

static void start_sender(sender *s) {
    s->next = START;
    s->kept = bluefin_outstanding_new();
    s->window = bluefin_window_new(START);
}

/* Packs into one datagram, and keeps its packets. */
static bluefin_data_packed pack(sender *s, const uint8_t *bytes, size_t bytes_len, const uint32_t *lengths, size_t lengths_len) {
    bluefin_data_packed data =
        bluefin_consume_data_into(s->kept, bytes, bytes_len, lengths, lengths_len, s->next, SENDER, RECEIVER, datagram, sizeof datagram,
                                  s->numbers, BLUEFIN_PLACES, s->lengths, BLUEFIN_PLACES, s->packets, sizeof s->packets);
    s->kept = data.outstanding;
    if (data.refusal == 0)
        s->next = data.next_packet_num;
    return data;
}

/* Packs the first lines, which one datagram has room for; answers its length. */
static size_t send_few(sender *s) {
    bluefin_data_packed data = pack(s, queue, FEW * LINE, queue_lengths, FEW);
    EXPECT(data.refusal == 0 && data.bytes == FEW * LINE && data.entries_removed == FEW && data.bytes_cut == 0);
    printf("packed %zu bytes of %d entries into %zu packets, next number %llu, %zu kept\n", data.bytes, FEW, data.packets,
           (unsigned long long)s->next, s->kept.count);
    size_t length = data.bytes + 20 * data.packets;
    EXPECT(bluefin_payload_bytes_in_datagram(datagram, length) == FEW * LINE);
    return length;
}

/* Packs all lines into datagrams that never arrive, until no place is free. */
static void send_all_lost(sender *s) {
    size_t bytes = 0, entries = 0, lost = 0;
    bluefin_data_packed data;
    while ((data = pack(s, queue + bytes, QUEUED - bytes, queue_lengths + entries, LINES - entries)).refusal == 0) {
        bytes += data.bytes;
        entries += data.entries_removed;
        if (entries < LINES)
            queue_lengths[entries] -= (uint32_t)data.bytes_cut;
        lost++;
    }
    EXPECT(data.refusal == BLUEFIN_NO_PLACE && bytes == QUEUED && entries == LINES);
    printf("packed %zu bytes into %zu datagrams, which are lost; %zu packets kept, then refused %d\n", bytes, lost, s->kept.count, data.refusal);
}

/* Reads a header that arrived from one end at the other; what the library does not look at is looked at here. */
static bluefin_header header_from(uint32_t source, uint32_t destination, const uint8_t *bytes) {
    bluefin_header_read read = bluefin_header_deserialise(bytes, 20);
    EXPECT(read.refusal == 0);
    EXPECT(read.header.source_connection_id == source && read.header.destination_connection_id == destination);
    EXPECT(read.header.version == 0 && !read.header.header_encrypted && read.header.header_protection_mask == 0);
    return read.header;
}

/* The marks hold anything before. */
static void start_buffer(buffer *b) {
    memset(b->marks, 0xaa, sizeof b->marks);
    bluefin_started started = bluefin_ordered_bytes_new(WIDTH, START, b->marks, SLOTS, b->lengths, SLOTS, b->store, sizeof b->store);
    EXPECT(started.refusal == 0);
    for (size_t i = 0; i < SLOTS; i++)
        EXPECT(!b->marks[i] && b->lengths[i] == 0);
    b->small = started.state;
}

/* Both listings of a datagram that lacks its last byte: one keeps the packets before the refusal. */
static void cut_short(size_t length) {
    uint32_t cells[2 * SLOTS];
    bluefin_parsed cut = bluefin_from_bytes(datagram, length, cells, 2 * SLOTS);
    EXPECT(cut.packets == 0);
    bluefin_parsed kept = bluefin_from_bytes_into(datagram, length, cells, 2 * SLOTS);
    EXPECT(kept.refusal == cut.refusal && kept.cursor == cut.cursor);
    printf("a byte less: refused %d at %zu, %zu packets before it\n", kept.refusal, kept.cursor, kept.packets);
    EXPECT(bluefin_from_bytes(NULL, 0, NULL, 0).refusal == BLUEFIN_SHORT);
}

static bluefin_accepted accept_packet(buffer *b, size_t i) {
    const uint8_t *bytes = datagram + index_cells[2 * i];
    bluefin_header header = header_from(SENDER, RECEIVER, bytes);
    EXPECT(header.type_field == BLUEFIN_DATA && header.type_specific_payload == index_cells[2 * i + 1]);
    return bluefin_ordered_bytes_buffer_in_packet(b->small, header.packet_number, bytes + 20, index_cells[2 * i + 1], b->marks, SLOTS,
                                                  b->lengths, SLOTS, b->store, sizeof b->store);
}

/* A packet that was read is refused with 5. Its ack may be lost, so it is given once more, to be queued like a read's. */
static void accept_again(buffer *b, size_t i) {
    bluefin_accepted again = accept_packet(b, i);
    EXPECT(again.refusal == BLUEFIN_BELOW);
    printf("given again: refused %d, to be acked from %llu, %zu packets\n", again.refusal, (unsigned long long)again.ack_base,
           again.ack_count);
}

/* A datagram that is sent again: its headers are looked at, then it is received by one call. */
static void receive_again(buffer *b, const uint8_t *bytes, size_t length) {
    bluefin_parsed parsed = bluefin_from_bytes(bytes, length, index_cells, 2 * SLOTS);
    EXPECT(parsed.refusal == 0);
    for (size_t i = 0; i < parsed.packets; i++)
        EXPECT(header_from(SENDER, RECEIVER, bytes + index_cells[2 * i]).type_field == BLUEFIN_DATA);
    uint8_t answers[SLOTS] = {0};
    bluefin_parsed received = bluefin_receive(b->small, bytes, length, index_cells, 2 * SLOTS, answers, SLOTS, b->marks, SLOTS, b->lengths,
                                              SLOTS, b->store, sizeof b->store);
    EXPECT(received.refusal == 0 && received.packets == parsed.packets);
    for (size_t i = 0; i < received.packets; i++)
        EXPECT(answers[i] == 0);
    printf("sent again %zu bytes: %zu packets received by one call\n", length, received.packets);
}

/* Lists the packets kept, and sends them again in datagrams of whole packets: they may be more than one has room for. */
static void send_again(const sender *s, buffer *b) {
    static uint8_t listing[BLUEFIN_PLACES_BYTES];
    bluefin_listed listed = bluefin_outstanding_list_into(s->kept, listing, sizeof listing, s->numbers, BLUEFIN_PLACES, s->lengths,
                                                          BLUEFIN_PLACES, s->packets, sizeof s->packets);
    EXPECT(listed.refusal == 0 && listed.packets == s->kept.count);
    size_t start = 0, end = 0;
    for (size_t i = 0; i < listed.packets; i++) {
        size_t packet = 20 + s->lengths[i];
        if (end + packet - start > LONGEST) {
            receive_again(b, listing + start, end - start);
            start = end;
        }
        end += packet;
    }
    receive_again(b, listing + start, end - start);
}

/* Reads by so many bytes until refusal 8, holds what was read against the queue's first bytes, and queues an ack for each read that took
 * packets. */
static bluefin_ring read_all(buffer *b, size_t by, size_t queued, bluefin_ack *records) {
    static uint8_t all[QUEUED + LONGEST];
    bluefin_ring ring = bluefin_ring_new();
    size_t total = 0;
    for (;;) {
        bluefin_consumed read = bluefin_ordered_bytes_consume(b->small, by, all + total, by, b->marks, SLOTS, b->lengths, SLOTS, b->store,
                                                              sizeof b->store);
        b->small = read.state;
        if (read.refusal != 0) {
            EXPECT(read.refusal == BLUEFIN_EMPTY);
            break;
        }
        printf("read %llu bytes, %zu packets from %llu: %.7s\n", (unsigned long long)read.bytes_consumed, read.num_packets_consumed,
               (unsigned long long)read.base_packet_number, (const char *)(all + total));
        total += read.bytes_consumed;
        if (read.num_packets_consumed > 0) {
            bluefin_ack ack = {read.base_packet_number, (uint32_t)read.num_packets_consumed};
            bluefin_pushed pushed = bluefin_ring_push_back(ring, records, ACKS, ack);
            EXPECT(pushed.refusal == 0 && !pushed.full);
            ring = pushed.ring;
        }
    }
    EXPECT(total == queued && memcmp(all, queue, queued) == 0);
    printf("read %zu bytes in all, the bytes that were queued\n", total);
    return ring;
}

/* Packs the queued acks, enters them into the window, consumes it, and drops the packets that are answered. */
static void acknowledge(sender *s, bluefin_ring ring, bluefin_ack *records) {
    uint8_t acks[20 * ACKS];
    bluefin_acks_packed packed = bluefin_consume_acks_into(ring, records, ACKS, 0, RECEIVER, SENDER, acks, sizeof acks);
    EXPECT(packed.refusal == 0 && packed.to_send && packed.ring.len == 0);
    for (size_t i = 0; i < packed.acks; i++)
        EXPECT(header_from(RECEIVER, SENDER, acks + 20 * i).type_field == BLUEFIN_ACK);

    uint8_t answers[ACKS] = {0};
    bluefin_acks_received received = bluefin_receive_acks(s->window, s->cells, CELLS, acks, 20 * packed.acks, index_cells, 2 * ACKS, answers, ACKS);
    EXPECT(received.refusal == 0 && received.packets == packed.acks);
    for (size_t i = 0; i < received.packets; i++)
        EXPECT(answers[i] == 0);

    bluefin_inserted again = bluefin_window_insert_range(received.window, s->cells, CELLS, s->window.smallest_expected, 1);
    EXPECT(again.refusal == BLUEFIN_ALREADY_HELD);
    bluefin_run run = bluefin_window_consume(again.window, s->cells, CELLS);
    EXPECT(run.refusal == 0 && run.length > 0);
    s->window = run.window;
    bluefin_dropped dropped = bluefin_outstanding_drop_answered(s->kept, run.last, s->numbers, BLUEFIN_PLACES, s->lengths, BLUEFIN_PLACES,
                                                                s->packets, sizeof s->packets);
    EXPECT(dropped.refusal == 0);
    s->kept = dropped.outstanding;
    printf("%zu acks: numbers to %llu are acknowledged, %llu of them; %zu kept\n", packed.acks, (unsigned long long)run.last,
           (unsigned long long)run.length, s->kept.count);
}

/* How long the sender waits for an ack before it sends again: before any trip, and after two. */
static void measure(void) {
    bluefin_rtt trips = bluefin_rtt_new();
    uint64_t before = bluefin_rtt_wait_time(trips).micros;
    static const uint64_t took[2] = {900000, 700000};
    for (size_t i = 0; i < 2; i++) {
        bluefin_sampled sampled = bluefin_rtt_sample(trips, took[i]);
        EXPECT(sampled.refusal == 0);
        trips = sampled.estimator;
    }
    bluefin_wait wait = bluefin_rtt_wait_time(trips);
    EXPECT(wait.refusal == 0);
    printf("wait %llu microseconds, and %llu after trips of %llu and %llu\n", (unsigned long long)before, (unsigned long long)wait.micros,
           (unsigned long long)took[0], (unsigned long long)took[1]);
}

/* The FIN takes the number after the data's, and goes alone in its datagram: the "own-datagram rule" of worker/writer.rs. */
static bluefin_close_record send_fin(uint64_t next_packet_num, uint8_t fin[20]) {
    bluefin_reserved reserved = bluefin_reserve_close_packet_num(next_packet_num);
    EXPECT(reserved.refusal == 0 && reserved.number == next_packet_num);
    bluefin_written written = bluefin_write_fin(SENDER, RECEIVER, reserved.number, fin, 20);
    EXPECT(written.refusal == 0 && written.bytes == 20);
    return bluefin_close_record_local_fin_sent(bluefin_close_new(false), reserved.number).close;
}

/* The FIN is due where the front number is its own. It is answered by a FIN-ACK of its number, alone too; each end keeps its close record. */
static void close_both(bluefin_close_record local, const uint8_t fin[20], uint64_t front_number) {
    bluefin_header header = header_from(SENDER, RECEIVER, fin);
    uint64_t number = header.packet_number;
    EXPECT(header.type_field == BLUEFIN_FIN && number == front_number);

    bluefin_close_record receiver = bluefin_close_buffer_in_fin(bluefin_close_new(false), number).close;
    EXPECT(receiver.state == BLUEFIN_PEER_FIN_RECEIVED && receiver.state_fin == number && receiver.peer_fin_observed);
    bluefin_fin_ack_taken owed = bluefin_close_take_pending_fin_ack_send(receiver);
    EXPECT(owed.refusal == 0 && owed.was_pending && !owed.close.is_pending);

    uint8_t answer[20];
    EXPECT(bluefin_write_fin_ack(RECEIVER, SENDER, owed.number, answer, sizeof answer).bytes == 20);
    header = header_from(RECEIVER, SENDER, answer);
    EXPECT(header.type_field == BLUEFIN_FIN_ACK && header.packet_number == number);
    local = bluefin_close_buffer_in_fin_ack(local, header.packet_number).close;
    EXPECT(local.is_received && local.received_fin_ack_for == number);
    EXPECT(bluefin_close_mark_closed(local).close.state == BLUEFIN_CLOSED);
    printf("FIN %llu, in a datagram of its own, is answered, and closes\n", (unsigned long long)number);
}

int main(void) {
    static sender s;
    static buffer b;
    bluefin_ack records[ACKS];
    bluefin_header hello = {.source_connection_id = SENDER, .type_field = BLUEFIN_CLIENT_HELLO};
    EXPECT(bluefin_is_hello_packet(BLUEFIN_PACK_LEADER, hello) && !bluefin_is_client_ack_packet(BLUEFIN_PACK_LEADER, hello));
    fill_queue();
    start_sender(&s);
    size_t length = send_few(&s);

    bluefin_parsed parsed = bluefin_from_bytes(datagram, length, index_cells, 2 * SLOTS);
    EXPECT(parsed.refusal == 0);
    printf("parsed %zu packets of %zu bytes\n", parsed.packets, length);
    cut_short(length - 1);

    start_buffer(&b);
    EXPECT(bluefin_ordered_bytes_peek(b.small, b.marks, SLOTS, b.lengths, SLOTS, b.store, sizeof b.store) == BLUEFIN_EMPTY);
    for (size_t i = parsed.packets; i-- > 0;)
        EXPECT(accept_packet(&b, i).refusal == 0);
    EXPECT(accept_packet(&b, 0).refusal == BLUEFIN_ALREADY_HELD);
    bluefin_ring ring = read_all(&b, 1024, FEW * LINE, records);
    accept_again(&b, 0);
    acknowledge(&s, ring, records);

    send_all_lost(&s);
    send_again(&s, &b);
    acknowledge(&s, read_all(&b, LONGEST, QUEUED, records), records);
    EXPECT(s.kept.count == 0);

    measure();
    uint8_t fin[20];
    bluefin_close_record local = send_fin(s.next, fin);
    close_both(local, fin, b.small.front_number);
    return 0;
}
