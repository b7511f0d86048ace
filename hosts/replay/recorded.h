/*
 * Recorded questions and answers, as oracle/ writes them: words of 8 bytes on standard input, the highest byte first, and lines of decimal
 * numbers on standard output. crates/recorded is the same for the replays in Rattle. A record that ends early, or that asks for more than
 * a replay has room for, ends the program with a failure.
 */
#ifndef RECORDED_H
#define RECORDED_H

#include <inttypes.h>
#include <stdint.h>
#include <stdio.h>

#include "../c/expect.h"

static uint64_t read_word(void) {
    uint8_t bytes[8];
    EXPECT(fread(bytes, 1, sizeof bytes, stdin) == sizeof bytes);
    uint64_t word = 0;
    for (size_t i = 0; i < sizeof bytes; i++)
        word = word << 8 | bytes[i];
    return word;
}

/* A word that is at most this. */
static uint64_t read_up_to(uint64_t most) {
    uint64_t word = read_word();
    EXPECT(word <= most);
    return word;
}

/* An answer's line begins with its kind: 0, or the number of a refusal, unless the command says otherwise. */
static void begin_line(uint64_t kind) {
    printf("%" PRIu64, kind);
}

static void print_number(uint64_t number) {
    printf(" %" PRIu64, number);
}

static void end_line(void) {
    putchar('\n');
}

/* The whole record has been read, and every line written. */
static void end_record(void) {
    EXPECT(getchar() == EOF);
    EXPECT(fflush(stdout) == 0);
}

#endif
