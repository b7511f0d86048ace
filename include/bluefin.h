/*
 * The Bluefin link for C: what crates/bluefin_c and, for the ring of acks, crates/bluefin_ring_c export, proved.
 *
 * Link libbluefin_c.a and libbluefin_ring_c.a of target/staticlib, which hosts/archives makes, for x86-64 Linux only.
 *
 * Memory. The library keeps none: every byte that it reads or writes is lent by the caller for the length of one call, and states are small
 * structs that go in by value and come back by value. A pointer is followed by the number of its elements; it may be NULL where that number
 * is 0. It is aligned for its element: 4 bytes for uint32_t, 8 for uint64_t and for structs. What one call is lent must not overlap, but for
 * memory that is only read; a payload that lies inside the output overlaps.
 * A `bool` holds 0 or 1, lent or by value, in a struct too; what a call does with any other is undefined. Only `bluefin_ordered_bytes_new` may
 * be lent marks of any content.
 * Two threads may call at once, on memory of their own.
 *
 * Not looked at are connection ids, version, encrypted bit and mask of what arrives: a packet of another connection is taken like any other.
 * The host holds the headers listed against its own before it gives the datagram to `bluefin_receive` or `bluefin_receive_acks`.
 *
 * Answers. `refusal` is 0, or the number of the refusal; the answer's other numbers are then 0, but for the packets that a datagram's listing
 * has and the ack of a 5. A state in an answer is the one to go on with, refused or not. Where a call is refused, lent memory stays as it was,
 * unless the call says otherwise.
 * A cursor comes with 1 to 4: it is the byte of the datagram at which the walk stopped. The 4 of a write comes without one.
 */
#ifndef BLUEFIN_H
#define BLUEFIN_H

#include <stdbool.h>
#include <stddef.h>
#include <stdint.h>

/* Rises with every change of the binary interface: a struct, an argument, a number, a new call. With 2 came the waiting time, and refusal 14;
 * with 3 the ack that accepting gives with a 5, and the packets kept to be sent again, refusal 15. */
#define BLUEFIN_VERSION 3

#ifdef __cplusplus
#define BLUEFIN_SIZE(type, size) static_assert(sizeof(type) == size && alignof(type) == 8, #type)
extern "C" {
#else
#define BLUEFIN_SIZE(type, size) _Static_assert(sizeof(type) == size && _Alignof(type) == 8, #type)
#endif

/* ---- refusals */

enum {
    BLUEFIN_SHORT = 1,            /* under 20 bytes, or a header of another length */
    BLUEFIN_PAYLOAD_MISSING = 2,  /* the payload runs past the datagram's end */
    BLUEFIN_TAIL = 3,             /* 1 to 19 bytes after the last packet */
    BLUEFIN_UNKNOWN_TYPE = 4,     /* a packet type above 6 */
    BLUEFIN_BELOW = 5,            /* a number below the first one expected */
    BLUEFIN_BEYOND = 6,           /* a number too far ahead */
    BLUEFIN_ALREADY_HELD = 7,     /* a number that is held */
    BLUEFIN_EMPTY = 8,            /* nothing to give */
    BLUEFIN_EXHAUSTED = 9,        /* no packet number left */
    BLUEFIN_BUFFER_SHORT = 10,    /* lent memory too small */
    BLUEFIN_OUT_OF_RANGE = 11,    /* a field, a payload or a datagram too large */
    BLUEFIN_MALFORMED = 12,       /* a state that no call leaves */
    BLUEFIN_PACKETS_HELD = 13,    /* the start is set while packets are held */
    BLUEFIN_SAMPLE_TOO_LONG = 14, /* a round trip above 60,000,000 microseconds */
    BLUEFIN_NO_PLACE = 15         /* all 64 places of the packets kept are taken */
};

/* ---- the header, 20 bytes on the wire */

enum {
    BLUEFIN_CLIENT_HELLO = 0,
    BLUEFIN_SERVER_HELLO = 1,
    BLUEFIN_CLIENT_ACK = 2,
    BLUEFIN_DATA = 3,
    BLUEFIN_ACK = 4,
    BLUEFIN_FIN = 5,
    BLUEFIN_FIN_ACK = 6
};

typedef struct {
    uint64_t packet_number;
    uint32_t source_connection_id;
    uint32_t destination_connection_id;
    uint16_t type_specific_payload; /* a data packet's payload length, an ack's count */
    uint8_t version;                /* 0 to 15 */
    uint8_t type_field;             /* 0 to 6, as above */
    uint8_t header_protection_mask; /* 0 to 127 */
    bool header_encrypted;
} bluefin_header;
BLUEFIN_SIZE(bluefin_header, 24);

typedef struct {
    size_t bytes; /* bytes written, from the output's start on */
    uint8_t refusal;
} bluefin_written;
BLUEFIN_SIZE(bluefin_written, 16);

typedef struct {
    bluefin_header header;
    size_t cursor;
    uint8_t refusal;
} bluefin_header_read;
BLUEFIN_SIZE(bluefin_header_read, 40);

/* Writes the header: 20 bytes. Refusals: 4, 11, 10. */
bluefin_written bluefin_header_serialise_into(bluefin_header header, uint8_t *buf, size_t buf_len);

/* Reads a header from exactly 20 bytes. Refusals: 1, 4. */
bluefin_header_read bluefin_header_deserialise(const uint8_t *bytes, size_t bytes_len);

/* ---- packets and datagrams */

typedef struct {
    size_t packets; /* packets that stand in the index, refused or not */
    size_t cursor;
    uint8_t refusal;
} bluefin_parsed;
BLUEFIN_SIZE(bluefin_parsed, 24);

/* Writes header and payload: 20 bytes and the payload's. The header's field is not held against the payload. Refusals: 4, 11, 10. */
bluefin_written bluefin_packet_serialise_into(bluefin_header header, const uint8_t *payload, size_t payload_len, uint8_t *buf, size_t buf_len);

/* Reads the header of a packet that stands alone; its payload is every byte from offset 20 on. Refusals: 1, 4. */
bluefin_header_read bluefin_packet_deserialise(const uint8_t *bytes, size_t bytes_len);

/*
 * Lists the packets of a datagram of up to 65,507 bytes, the longest over IPv4: for each, two numbers of the index, its header's offset and
 * its payload's length. index_len counts those numbers, twice as many as packets; 6,550 have room for every datagram. Numbers after those of
 * the packets stay. Refusals: 11 (65,508 bytes and more), 1, and for each packet 4, 2, 10, at the end 3. `from_bytes` then leaves the index
 * as it was, and answers 0 packets; `from_bytes_into` leaves the packets before the refusal listed, and answers how many they are.
 */
bluefin_parsed bluefin_from_bytes(const uint8_t *datagram, size_t datagram_len, uint32_t *index, size_t index_len);
bluefin_parsed bluefin_from_bytes_into(const uint8_t *datagram, size_t datagram_len, uint32_t *index, size_t index_len);

/* ---- the receive buffer */

/*
 * What is small of a receive buffer of N slots of W bytes. The rest is lent beside it at every call: N marks, N lengths and a store of
 * (N + 1) x W bytes. N is 1 to 2,000 and W 1 to 65,535. Every call refuses with 12, before all else, where these do not fit each other.
 */
typedef struct {
    size_t slot_width;
    size_t front_slot;
    uint64_t front_number;
    size_t carry_len;
} bluefin_ordered_bytes;
BLUEFIN_SIZE(bluefin_ordered_bytes, 32);

typedef struct {
    bluefin_ordered_bytes state;
    uint8_t refusal;
} bluefin_started;
BLUEFIN_SIZE(bluefin_started, 40);

/* What accepting answers. With a 5 goes an ack, of the packet's number and count 1, to be queued like a read's; else both are 0. */
typedef struct {
    uint64_t ack_base;
    size_t ack_count;
    uint8_t refusal;
} bluefin_accepted;
BLUEFIN_SIZE(bluefin_accepted, 24);

/* A read's answer: packets that left their slots, the front packet's number or 0, bytes given. */
typedef struct {
    bluefin_ordered_bytes state;
    size_t num_packets_consumed;
    uint64_t base_packet_number;
    uint64_t bytes_consumed;
    uint8_t refusal;
} bluefin_consumed;
BLUEFIN_SIZE(bluefin_consumed, 64);

typedef struct {
    bluefin_ordered_bytes state;
    size_t num_packets_consumed;
    uint64_t base_packet_number;
    uint64_t bytes_consumed;
    size_t pieces;
    uint8_t refusal;
} bluefin_consumed_bytes;
BLUEFIN_SIZE(bluefin_consumed_bytes, 72);

/* An empty buffer that starts at a number: clears marks and lengths; they and the store may hold anything. Refusal: 12, with the state all 0. */
bluefin_started bluefin_ordered_bytes_new(size_t slot_width, uint64_t start_packet_number, bool *marks, size_t marks_len, uint32_t *lengths,
                                          size_t lengths_len, const uint8_t *store, size_t store_len);

/* Starts at another number. Refusals: 12, 13. */
bluefin_started bluefin_ordered_bytes_set_start_packet_number(bluefin_ordered_bytes o, uint64_t start_packet_number, const bool *marks,
                                                              size_t marks_len, const uint32_t *lengths, size_t lengths_len,
                                                              const uint8_t *store, size_t store_len);

/* Accepts a packet. Refusals: 12, 5, 6, 9, 7, 11. The state stays the same. */
bluefin_accepted bluefin_ordered_bytes_buffer_in_packet(bluefin_ordered_bytes o, uint64_t n, const uint8_t *payload, size_t payload_len,
                                                        bool *marks, size_t marks_len, uint32_t *lengths, size_t lengths_len, uint8_t *store,
                                                        size_t store_len);

/* Answers 0 where a read would give something, or a refusal: 12, 8. */
uint8_t bluefin_ordered_bytes_peek(bluefin_ordered_bytes o, const bool *marks, size_t marks_len, const uint32_t *lengths, size_t lengths_len,
                                   const uint8_t *store, size_t store_len);

/* Reads up to `len` bytes to the start of buf. Refusals: 12, 10 (len above buf_len), 8, which may have taken empty packets. */
bluefin_consumed bluefin_ordered_bytes_consume(bluefin_ordered_bytes o, size_t len, uint8_t *buf, size_t buf_len, bool *marks,
                                               size_t marks_len, uint32_t *lengths, size_t lengths_len, uint8_t *store, size_t store_len);

/*
 * Reads whole pieces, the carry-over and up to `limit` pieces in all: their bytes end to end to the start of buf, their lengths to the start
 * of list. Refusals: 12, 10 (buf or list too short for all of them), 8.
 */
bluefin_consumed_bytes bluefin_ordered_bytes_consume_bytes(bluefin_ordered_bytes o, size_t limit, uint8_t *buf, size_t buf_len, uint32_t *list,
                                                           size_t list_len, bool *marks, size_t marks_len, uint32_t *lengths,
                                                           size_t lengths_len, uint8_t *store, size_t store_len);

/*
 * A whole datagram: lists its packets as `bluefin_from_bytes_into` does, and accepts each data packet listed as
 * `bluefin_ordered_bytes_buffer_in_packet` does, in order, with one test of 12 for all. The i-th number of `answers` is what accepting the
 * i-th packet answered, 0 or the refusal; numbers of other packets stay. A 5 of a data packet means: queue an ack of it, base its number and
 * count 1; the number stands in the header that the index lists. Refusals: 12, 10 (fewer answers than the index has room for packets), with
 * nothing written and 0 packets; then those of the listing, with the packets listed before them accepted and counted all the same.
 */
bluefin_parsed bluefin_receive(bluefin_ordered_bytes o, const uint8_t *datagram, size_t datagram_len, uint32_t *index, size_t index_len,
                               uint8_t *answers, size_t answers_len, bool *marks, size_t marks_len, uint32_t *lengths, size_t lengths_len,
                               uint8_t *store, size_t store_len);

/* ---- the window of acked numbers */

/* What is small of a window: its numbers stand in the first `count` of the lent cells. Every call refuses with 12 first. */
typedef struct {
    uint64_t smallest_expected;
    size_t count;
} bluefin_window;
BLUEFIN_SIZE(bluefin_window, 16);

typedef struct {
    bluefin_window window;
    uint8_t refusal;
} bluefin_inserted;
BLUEFIN_SIZE(bluefin_inserted, 24);

/* length is 0 where the smallest expected number is absent. */
typedef struct {
    bluefin_window window;
    uint64_t last;
    uint64_t length;
    uint8_t refusal;
} bluefin_run;
BLUEFIN_SIZE(bluefin_run, 40);

typedef struct {
    bluefin_window window;
    size_t packets; /* packets that stand in the index, refused or not */
    size_t cursor;
    uint8_t refusal;
} bluefin_acks_received;
BLUEFIN_SIZE(bluefin_acks_received, 40);

/* An empty window from a number on. */
bluefin_window bluefin_window_new(uint64_t smallest_expected);

/* Refusals: 12, 5, 6, 9, 7, 10. */
bluefin_inserted bluefin_window_insert_packet_number(bluefin_window w, uint64_t *cells, size_t cells_len, uint64_t n);

/* Refusals: 12, 5, 9, 6, 10, 7, which has stored the numbers before the first held one. A count of 0 is accepted unchecked;
 * one above 65,535 is cut to 16 bits by C before the call. */
bluefin_inserted bluefin_window_insert_range(bluefin_window w, uint64_t *cells, size_t cells_len, uint64_t base, uint16_t count);

/* Drops the unbroken run from the smallest expected number on. Refusal: 12. */
bluefin_run bluefin_window_consume(bluefin_window w, uint64_t *cells, size_t cells_len);

/*
 * A whole datagram: lists its packets as `bluefin_from_bytes_into` does, and enters each ack listed, base and count, as
 * `bluefin_window_insert_range` does, in order, with one test of 12 for all. Answers and refusals as `bluefin_receive` has them; a 5 here
 * asks for no ack.
 */
bluefin_acks_received bluefin_receive_acks(bluefin_window w, uint64_t *cells, size_t cells_len, const uint8_t *datagram, size_t datagram_len,
                                           uint32_t *index, size_t index_len, uint8_t *answers, size_t answers_len);

/* ---- the queue of acks to send: a ring over lent records */

typedef struct {
    uint64_t base_packet_num;
    uint32_t num_packets_consumed;
} bluefin_ack;
BLUEFIN_SIZE(bluefin_ack, 16);

/* What is small of a ring; its capacity is the number of lent records. Every call refuses with 12 first. */
typedef struct {
    size_t head;
    size_t tail;
    size_t len;
} bluefin_ring;
BLUEFIN_SIZE(bluefin_ring, 24);

/* `given_back` is the record where the ring was full, else 0. */
typedef struct {
    bluefin_ring ring;
    bluefin_ack given_back;
    bool full;
    uint8_t refusal;
} bluefin_pushed;
BLUEFIN_SIZE(bluefin_pushed, 48);

typedef struct {
    bluefin_ring ring;
    bluefin_ack ack;
    uint8_t refusal;
} bluefin_popped;
BLUEFIN_SIZE(bluefin_popped, 48);

typedef struct {
    bluefin_ring ring;
    uint8_t refusal;
} bluefin_cleared;
BLUEFIN_SIZE(bluefin_cleared, 32);

typedef struct {
    bluefin_ring ring;
    size_t acks;
    bool to_send;
    uint8_t refusal;
} bluefin_acks_packed;
BLUEFIN_SIZE(bluefin_acks_packed, 40);

/* An empty ring: head, tail and len 0. The records may hold anything. */
bluefin_ring bluefin_ring_new(void);

/* Refusal: 12. */
bluefin_pushed bluefin_ring_push_back(bluefin_ring ring, bluefin_ack *records, size_t records_len, bluefin_ack record);
bluefin_pushed bluefin_ring_push_front(bluefin_ring ring, bluefin_ack *records, size_t records_len, bluefin_ack record);

/* Refusals: 12, 8. `front` leaves the record where it is. */
bluefin_popped bluefin_ring_pop_front(bluefin_ring ring, bluefin_ack *records, size_t records_len);
bluefin_popped bluefin_ring_front(bluefin_ring ring, const bluefin_ack *records, size_t records_len);

/* Refusal: 12. */
bluefin_cleared bluefin_ring_clear(bluefin_ring ring, bluefin_ack *records, size_t records_len);

/*
 * Pops as many acks as still fit 15,200 bytes, and writes their headers to `out` from `used` on. `to_send` says whether the queue held an
 * ack and the datagram is not empty. Refusals: 12 (also where used is above out_len), 11 (a count above 65,535), 10.
 */
bluefin_acks_packed bluefin_consume_acks_into(bluefin_ring ring, bluefin_ack *records, size_t records_len, size_t used, uint32_t src_conn_id,
                                              uint32_t dst_conn_id, uint8_t *out, size_t out_len);

/* ---- the packets kept to be sent again */

enum {
    BLUEFIN_PLACES = 64,         /* the most packets that are kept */
    BLUEFIN_PLACES_BYTES = 97280 /* the most bytes that they have: 64 x 1,520 */
};

/*
 * What is small of a store of the packets that were packed and are not yet answered. The rest is lent beside it at every call: numbers, payload
 * lengths and packets. The number and the payload's length of the i-th packet stand in the i-th cells; the packets, each of 20 bytes and its
 * payload, stand end to end from the first byte on. BLUEFIN_PLACES numbers, as many lengths and BLUEFIN_PLACES_BYTES bytes are lent, or more.
 * Every call refuses with 12, before all else, where less is lent, where the count is above 64, and where among the first `count` cells the
 * numbers do not rise or a length is above 1,500; the packets' bytes are not looked at.
 * The state and its three lists belong to one sender's counter of packet numbers: who starts the counter again starts the store again.
 */
typedef struct {
    size_t count;
} bluefin_outstanding;
BLUEFIN_SIZE(bluefin_outstanding, 8);

typedef struct {
    size_t packets; /* packets written */
    uint8_t refusal;
} bluefin_listed;
BLUEFIN_SIZE(bluefin_listed, 16);

typedef struct {
    bluefin_outstanding outstanding;
    uint8_t refusal;
} bluefin_dropped;
BLUEFIN_SIZE(bluefin_dropped, 16);

/* An empty store. The lists may hold anything. */
bluefin_outstanding bluefin_outstanding_new(void);

/*
 * Writes the packets kept, by rising number, whole and end to end, to the start of `out`; BLUEFIN_PLACES_BYTES have room for all of them. They
 * may be more than a datagram has, 65,507 bytes: the payload lengths tell where each packet ends. Refusals: 12, 10.
 */
bluefin_listed bluefin_outstanding_list_into(bluefin_outstanding o, uint8_t *out, size_t out_len, const uint64_t *numbers, size_t numbers_len,
                                             const uint32_t *lengths, size_t lengths_len, const uint8_t *packets, size_t packets_len);

/*
 * Drops each packet up to the number `last`; those left move to the front, and what stands behind them stays. Call it with the last number of
 * a run that `bluefin_window_consume` answered, and not where that run's length is 0. Refusal: 12.
 */
bluefin_dropped bluefin_outstanding_drop_answered(bluefin_outstanding o, uint64_t last, uint64_t *numbers, size_t numbers_len, uint32_t *lengths,
                                                  size_t lengths_len, uint8_t *packets, size_t packets_len);

/* ---- packing data, and closing */

typedef struct {
    size_t bytes;             /* payload bytes taken from the queue's front */
    size_t packets;           /* packets written, each of 20 bytes and its payload */
    uint64_t next_packet_num; /* the number after the last packet's */
    size_t entries_removed;   /* entries that leave the queue */
    size_t bytes_cut;         /* bytes to cut from the first entry left */
    bluefin_outstanding outstanding;
    uint8_t refusal;
} bluefin_data_packed;
BLUEFIN_SIZE(bluefin_data_packed, 56);

typedef struct {
    uint64_t number;
    uint64_t next_packet_num;
    uint8_t refusal;
} bluefin_reserved;
BLUEFIN_SIZE(bluefin_reserved, 24);

/*
 * Packs a queue, whose entries' bytes stand end to end and whose lengths stand in `lengths`, into packets of up to 1,500, from the start of
 * `out`, and keeps each packet in the store, behind those kept before. It takes up to 15,000 bytes, and no more than 1,500 for each free place,
 * of which the store has 64 less its count; so it makes no more packets than there are free places. 15,200 bytes of `out` have room for all of
 * them. The queue is the caller's to shorten by what is answered. Refusals: 12 (the store's, also where a number kept is not below
 * next_packet_num; lengths that do not add up to the bytes), 9, 10, 15 (no free place, even with nothing queued). All of them leave output,
 * state and lists as they were.
 */
bluefin_data_packed bluefin_consume_data_into(bluefin_outstanding o, const uint8_t *bytes, size_t bytes_len, const uint32_t *lengths,
                                              size_t lengths_len, uint64_t next_packet_num, uint32_t src_conn_id, uint32_t dst_conn_id,
                                              uint8_t *out, size_t out_len, uint64_t *numbers, size_t numbers_len, uint32_t *payload_lengths,
                                              size_t payload_lengths_len, uint8_t *packets, size_t packets_len);

/* The fields of all packets of a datagram, added up to where one would run past its end. */
size_t bluefin_payload_bytes_in_datagram(const uint8_t *datagram, size_t datagram_len);

/* A FIN's number, and the next one. Refusal: 9. */
bluefin_reserved bluefin_reserve_close_packet_num(uint64_t next_packet_num);

/* Writes a FIN or a FIN-ACK: 20 bytes. Refusal: 10. */
bluefin_written bluefin_write_fin(uint32_t src_conn_id, uint32_t dst_conn_id, uint64_t packet_number, uint8_t *buf, size_t buf_len);
bluefin_written bluefin_write_fin_ack(uint32_t src_conn_id, uint32_t dst_conn_id, uint64_t packet_number, uint8_t *buf, size_t buf_len);

/* ---- the close record */

enum {
    BLUEFIN_ACTIVE = 0,
    BLUEFIN_PEER_FIN_RECEIVED = 1,
    BLUEFIN_LOCAL_FIN_SENT = 2,
    BLUEFIN_CLOSED = 3
};

/*
 * A connection's close record, by value: nothing is lent. A FIN's number counts only in states 1 and 2, and beside a flag that is true;
 * elsewhere it is not looked at, and comes back as 0.
 */
typedef struct {
    uint64_t state_fin;            /* the FIN's number in states 1 and 2 */
    uint64_t pending_fin_ack_send; /* the FIN for which a FIN-ACK is owed */
    uint64_t received_fin_ack_for; /* the FIN of the FIN-ACK recorded last */
    uint8_t state;                 /* 0 to 3, as above */
    bool is_pending;
    bool is_received;
    bool peer_fin_observed;
} bluefin_close_record;
BLUEFIN_SIZE(bluefin_close_record, 32);

typedef struct {
    bluefin_close_record close;
    uint8_t refusal;
} bluefin_close_after;
BLUEFIN_SIZE(bluefin_close_after, 40);

typedef struct {
    bluefin_close_record close;
    uint64_t number;
    bool was_pending;
    uint8_t refusal;
} bluefin_fin_ack_taken;
BLUEFIN_SIZE(bluefin_fin_ack_taken, 48);

/* An active connection's record. The flag stays as it is given. */
bluefin_close_record bluefin_close_new(bool peer_fin_observed);

/* The record after each event. Refusal: 12 (a state above 3), with the record as it came. */
bluefin_close_after bluefin_close_buffer_in_fin(bluefin_close_record c, uint64_t n);
bluefin_close_after bluefin_close_buffer_in_fin_ack(bluefin_close_record c, uint64_t n);
bluefin_close_after bluefin_close_record_local_fin_sent(bluefin_close_record c, uint64_t n);
bluefin_close_after bluefin_close_mark_closed(bluefin_close_record c);

/* Takes the FIN-ACK that is owed: its FIN's number where `was_pending`, else 0. Refusal: 12. */
bluefin_fin_ack_taken bluefin_close_take_pending_fin_ack_send(bluefin_close_record c);

/* ---- how long to wait before sending again */

/*
 * What the round trips measured so far come to, by value: nothing is lent. RFC 6298's SRTT in eighths of a microsecond, at most 480,000,000,
 * and its RTTVAR in quarters, at most 240,000,000; above these a call refuses with 12, sampled or not.
 */
typedef struct {
    uint64_t smoothed;
    uint64_t variation;
    bool sampled; /* whether a sample has come */
} bluefin_rtt;
BLUEFIN_SIZE(bluefin_rtt, 24);

typedef struct {
    bluefin_rtt estimator;
    uint8_t refusal;
} bluefin_sampled;
BLUEFIN_SIZE(bluefin_sampled, 32);

typedef struct {
    uint64_t micros;
    uint8_t refusal;
} bluefin_wait;
BLUEFIN_SIZE(bluefin_wait, 16);

/* An estimator before any sample. */
bluefin_rtt bluefin_rtt_new(void);

/* A round trip that took so many microseconds. Refusals: 14 (above 60,000,000), 12. */
bluefin_sampled bluefin_rtt_sample(bluefin_rtt t, uint64_t micros);

/* The wait in microseconds: 1,000,000 to 60,000,000, and 1,000,000 before any sample. Refusal: 12. */
bluefin_wait bluefin_rtt_wait_time(bluefin_rtt t);

/* ---- opening */

enum {
    BLUEFIN_PACK_LEADER = 0,
    BLUEFIN_CLIENT = 1 /* every other number is some other host */
};

/* Whether a host of this kind takes the packet for a hello, or for a client's ack. Neither refuses: a type above 6 is no handshake type. */
bool bluefin_is_hello_packet(uint8_t host, bluefin_header header);
bool bluefin_is_client_ack_packet(uint8_t host, bluefin_header header);

#ifdef __cplusplus
}
#endif
#undef BLUEFIN_SIZE

#endif
