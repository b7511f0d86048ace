/*
 * Replays utils/ring_buffer.rs over the archive: stdin has the questions that oracle/src/components/ring_buffer.rs asked, stdout the Rust's
 * answers, each followed by the positions, the count and every cell.
 * By hand: every list of four changes at each capacity from 0 to 3, with each test after it; then seeded random commands, from a new ring
 * every 250.
 */
#include "bluefin.h"

#include "../recorded.h"

#define CELLS 8

enum { NEW, PUSH_BACK, PUSH_FRONT, POP_FRONT, FRONT, CLEAR, TESTS };

/* A ring with its cells, of which the first are lent. */
typedef struct {
    bluefin_ring ring;
    size_t capacity;
    bluefin_ack records[CELLS];
} queue;

static bluefin_ack read_record(void) {
    bluefin_ack record = {0};
    record.base_packet_num = read_word();
    record.num_packets_consumed = (uint32_t)read_up_to(UINT32_MAX);
    return record;
}

static void print_record(bluefin_ack record) {
    print_number(record.base_packet_num);
    print_number(record.num_packets_consumed);
}

static void start(queue *q) {
    *q = (queue){.ring = bluefin_ring_new(), .capacity = read_up_to(CELLS)};
    begin_line(0);
}

/* 0, or 1 and the record given back. */
static void after_push(queue *q, bluefin_pushed pushed) {
    q->ring = pushed.ring;
    begin_line(pushed.full ? 1 : pushed.refusal);
    if (pushed.full)
        print_record(pushed.given_back);
}

/* 0 and the record, or the refusal. */
static void after_pop(queue *q, bluefin_popped popped) {
    q->ring = popped.ring;
    begin_line(popped.refusal);
    if (popped.refusal == 0)
        print_record(popped.ack);
}

static void clear(queue *q) {
    bluefin_cleared cleared = bluefin_ring_clear(q->ring, q->records, q->capacity);
    q->ring = cleared.ring;
    begin_line(cleared.refusal);
}

/*
 * The Rust's `len`, `is_empty` and `is_full`, which the header leaves to the calls that tell them: how many pops there are, whether there is
 * a front, and whether a push is given back. crates/replay_ring_buffer asks the library's own three.
 */
static void tests(const queue *q) {
    queue popped = *q, pushed = *q;
    size_t len = 0;
    for (;; len++) {
        bluefin_popped pop = bluefin_ring_pop_front(popped.ring, popped.records, popped.capacity);
        if (pop.refusal != 0)
            break;
        popped.ring = pop.ring;
    }
    begin_line(0);
    print_number(len);
    print_number(bluefin_ring_front(q->ring, q->records, q->capacity).refusal == BLUEFIN_EMPTY);
    print_number(bluefin_ring_push_back(pushed.ring, pushed.records, pushed.capacity, (bluefin_ack){0}).full);
}

static void answer(uint64_t command, queue *q) {
    switch (command) {
    case NEW:
        start(q);
        break;
    case PUSH_BACK:
        after_push(q, bluefin_ring_push_back(q->ring, q->records, q->capacity, read_record()));
        break;
    case PUSH_FRONT:
        after_push(q, bluefin_ring_push_front(q->ring, q->records, q->capacity, read_record()));
        break;
    case POP_FRONT:
        after_pop(q, bluefin_ring_pop_front(q->ring, q->records, q->capacity));
        break;
    case FRONT:
        after_pop(q, bluefin_ring_front(q->ring, q->records, q->capacity));
        break;
    case CLEAR:
        clear(q);
        break;
    default:
        EXPECT(command == TESTS);
        tests(q);
    }
}

static void print_state(const queue *q) {
    print_number(q->ring.head);
    print_number(q->ring.tail);
    print_number(q->ring.len);
    for (size_t i = 0; i < q->capacity; i++)
        print_record(q->records[i]);
    end_line();
}

int main(void) {
    queue q = {.ring = bluefin_ring_new()};
    for (uint64_t commands = read_word(); commands > 0; commands--) {
        answer(read_word(), &q);
        print_state(&q);
    }
    end_record();
    return 0;
}
