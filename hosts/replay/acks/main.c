/*
 * Replays worker/writer.rs, `consume_acks_into`, over the archive: stdin has the questions that oracle/src/components/acks.rs asked, stdout
 * the Rust's answers.
 * By hand: queues of no, one and about 760 records, with the output used to a byte about each place where one ack fewer fits; each count and
 * base at its ends; then seeded random ones, most of them about the last ack that fits.
 * Left out: counts above 65,535 among the acks packed (11), which the Rust cuts. The output is as long as needed, or longer: none is refused
 * with 10.
 */
#include <string.h>

#include "bluefin.h"

#include "../recorded.h"

#define CELLS 800
#define OUT_LEN 16384
#define MOST_IN_PATTERN 8

/* What output bytes hold before a packing. */
#define BEFORE 9

typedef struct {
    uint32_t src, dst;
    size_t used, room;
} destination;

typedef struct {
    bluefin_ring ring;
    size_t cells;
    bluefin_ack records[CELLS];
} queue;

static queue queued;
static uint8_t out[OUT_LEN];

/* The cell of the i-th record from head on, round the end. */
static size_t place(size_t i) {
    return (queued.ring.head + i) % queued.cells;
}

static size_t read_pattern(bluefin_ack *pattern) {
    size_t given = read_up_to(MOST_IN_PATTERN);
    for (size_t i = 0; i < given; i++) {
        pattern[i].base_packet_num = read_word();
        pattern[i].num_packets_consumed = (uint32_t)read_up_to(UINT32_MAX);
    }
    return given;
}

/* The pattern's record as the queue's at-th: its base that many numbers from its own end of the 64 bits. */
static bluefin_ack moved(bluefin_ack record, uint64_t at) {
    record.base_packet_num += record.base_packet_num >> 63 == 0 ? at : -at;
    return record;
}

/* The pattern goes over and over, from the cell `head` on. */
static void read_queue(void) {
    memset(&queued, 0, sizeof queued);
    queued.cells = read_up_to(CELLS);
    queued.ring.head = read_up_to(queued.cells);
    queued.ring.len = read_up_to(queued.cells);
    bluefin_ack pattern[MOST_IN_PATTERN] = {0};
    size_t given = read_pattern(pattern);
    EXPECT(given > 0);
    for (size_t i = 0; i < queued.ring.len; i++)
        queued.records[place(i)] = moved(pattern[i % given], i);
    queued.ring.tail = queued.cells == 0 ? 0 : place(queued.ring.len);
}

static destination read_destination(void) {
    destination to;
    to.src = (uint32_t)read_up_to(UINT32_MAX);
    to.dst = (uint32_t)read_up_to(UINT32_MAX);
    to.used = read_word();
    to.room = read_up_to(OUT_LEN);
    memset(out, BEFORE, sizeof out);
    return to;
}

/* What stands for numbers that are too many to print: each of them, and where it stands, counts. */
static uint64_t add(uint64_t sum, uint64_t number) {
    return sum % 1000000007 * 257 + number;
}

static uint64_t sum_of_bytes(size_t length) {
    uint64_t sum = 0;
    for (size_t i = 0; i < length; i++)
        sum = add(sum, out[i] + 1);
    return sum;
}

static uint64_t sum_of_records(void) {
    uint64_t sum = 0;
    for (size_t i = 0; i < queued.ring.len; i++) {
        bluefin_ack record = queued.records[place(i)];
        sum = add(add(sum, record.base_packet_num % 1000000007), (uint64_t)record.num_packets_consumed + 1);
    }
    return sum;
}

/* Acks packed, yes or no, and the bytes then used; or the refusal. Every byte of the output counts in its sum, and every record left in theirs. */
static void pack(destination to) {
    bluefin_acks_packed packed =
        bluefin_consume_acks_into(queued.ring, queued.records, queued.cells, to.used, to.src, to.dst, out, to.room);
    queued.ring = packed.ring;
    begin_line(packed.refusal);
    if (packed.refusal == 0) {
        print_number(packed.acks);
        print_number(packed.to_send);
        print_number(to.used + 20 * packed.acks);
    }
    print_number(sum_of_bytes(to.room));
    print_number(queued.ring.len);
    print_number(sum_of_records());
    end_line();
}

int main(void) {
    for (uint64_t commands = read_word(); commands > 0; commands--) {
        read_word(); /* the command's number: there is but one */
        destination to = read_destination();
        read_queue();
        pack(to);
    }
    end_record();
    return 0;
}
