/* Compares the pages of nt_column's buffers with plain C loops over arrays of the same width: every byte first, then the rates.
 * Build it once with -O2 and once with -O3, which vectorises the loops; see encode.sh. */
#include <stdint.h>
#include <stdio.h>
#include <stdlib.h>
#include <string.h>

#include "timing.h"

size_t nt_encode_column(uint16_t code, const uint64_t *values, size_t count, uint32_t page, uint32_t times, uint8_t *out, size_t size);

enum { ROUNDS = 15, PAGE = 4096, PAGES = 64, COUNT = PAGE * PAGES, TIMES = 100 };

enum form { OWN, ZIGZAG, DELTA };

/* The plain loops, over so many elements of one type. */
#define LOOPS(type, bits)                                                                                                            \
    static inline __attribute__((always_inline)) void split_##bits(enum form form, const type *values, size_t count, uint8_t *out) { \
        type last = 0;                                                                                                               \
        for (size_t i = 0; i < count; i++) {                                                                                         \
            type word = values[i];                                                                                                   \
            if (form == ZIGZAG)                                                                                                      \
                word = (type)(word << 1) ^ (type) - (word >> (bits - 1));                                                            \
            if (form == DELTA) {                                                                                                     \
                word -= last;                                                                                                        \
                last = values[i];                                                                                                    \
            }                                                                                                                        \
            for (int j = 0; j < bits / 8; j++)                                                                                       \
                out[j * count + i] = (uint8_t)(word >> (8 * j));                                                                     \
        }                                                                                                                            \
    }                                                                                                                                \
    __attribute__((noinline)) static void split_unsigned_##bits(const void *v, size_t count, uint8_t *out) {                         \
        split_##bits(OWN, v, count, out);                                                                                            \
    }                                                                                                                                \
    __attribute__((noinline)) static void split_signed_##bits(const void *v, size_t count, uint8_t *out) {                           \
        split_##bits(ZIGZAG, v, count, out);                                                                                         \
    }                                                                                                                                \
    __attribute__((noinline, unused)) static void split_index_##bits(const void *v, size_t count, uint8_t *out) {                    \
        split_##bits(DELTA, v, count, out);                                                                                          \
    }                                                                                                                                \
    __attribute__((noinline)) static void plain_##bits(const void *v, size_t count, uint8_t *out) {                                  \
        const type *values = v;                                                                                                      \
        for (size_t i = 0; i < count; i++)                                                                                           \
            for (int j = 0; j < bits / 8; j++)                                                                                       \
                out[bits / 8 * i + j] = (uint8_t)(values[i] >> (8 * j));                                                             \
    }

LOOPS(uint16_t, 16)
LOOPS(uint32_t, 32)
LOOPS(uint64_t, 64)

/* The elements of a Bit column are bytes here, eight times as many as a page has. */
__attribute__((noinline)) static void plain_1(const void *v, size_t count, uint8_t *out) {
    const uint8_t *values = v;
    for (size_t p = 0; p < count / 8; p++) {
        uint8_t byte = 0;
        for (int b = 0; b < 8; b++)
            byte |= (uint8_t)(values[8 * p + b] << b);
        out[p] = byte;
    }
}

struct coding {
    const char *name;
    uint16_t code;
    size_t bits;
    void (*encode)(const void *values, size_t count, uint8_t *out);
};

static const struct coding CODINGS[] = {
    {"Bit", 0x00, 1, plain_1},
    {"UInt16", 0x06, 16, plain_16},
    {"SplitUInt16", 0x12, 16, split_unsigned_16},
    {"SplitInt16", 0x11, 16, split_signed_16},
    {"UInt32", 0x08, 32, plain_32},
    {"SplitUInt32", 0x14, 32, split_unsigned_32},
    {"SplitInt32", 0x13, 32, split_signed_32},
    {"SplitIndex32", 0x1A, 32, split_index_32},
    {"UInt64", 0x0A, 64, plain_64},
    {"SplitUInt64", 0x16, 64, split_unsigned_64},
    {"SplitInt64", 0x15, 64, split_signed_64},
    {"SplitIndex64", 0x1B, 64, split_index_64},
};

static uint64_t values[COUNT];
static uint8_t own[8 * COUNT], encoded[8 * COUNT], reference[8 * COUNT];

/* Values of the coding, as words and as they lie in an array of its width. */
static void fill(const struct coding *c) {
    uint64_t state = 0x9e3779b97f4a7c15;
    for (size_t i = 0; i < COUNT; i++) {
        state = state * 6364136223846793005 + 1442695040888963407;
        values[i] = (state ^ state >> 31) >> (64 - c->bits);
        if (c->bits == 1)
            own[i] = (uint8_t)values[i];
        else
            memcpy(own + c->bits / 8 * i, &values[i], c->bits / 8);
    }
}

/* All pages once. The number of elements isn't known where the loops are built. */
static void plain(const struct coding *c) {
    static volatile size_t page = PAGE;
    size_t from = c->bits == 1 ? PAGE : c->bits / 8 * PAGE;
    for (size_t p = 0; p < PAGES; p++)
        c->encode(own + from * p, page, reference + c->bits * PAGE / 8 * p);
}

static void compare(const struct coding *c) {
    size_t size = c->bits * COUNT / 8;
    memset(encoded, 0xaa, size);
    memset(reference, 0x55, size);
    plain(c);
    if (nt_encode_column(c->code, values, COUNT, PAGE, 1, encoded, size) != size || memcmp(encoded, reference, size)) {
        printf("%s: the pages differ\n", c->name);
        exit(1);
    }
}

/* The time of so many rounds of all pages, behind the one that fills the buffer. */
static double ours(const struct coding *c) {
    double start = now();
    nt_encode_column(c->code, values, COUNT, PAGE, 1, encoded, sizeof encoded);
    double filled = now();
    nt_encode_column(c->code, values, COUNT, PAGE, 1 + TIMES, encoded, sizeof encoded);
    return now() - filled - (filled - start);
}

static double theirs(const struct coding *c) {
    double start = now();
    for (int i = 0; i < TIMES; i++)
        plain(c);
    return now() - start;
}

int main(void) {
    for (size_t i = 0; i < sizeof CODINGS / sizeof *CODINGS; i++) {
        const struct coding *c = &CODINGS[i];
        double mine[ROUNDS], other[ROUNDS];
        fill(c);
        compare(c);
        for (int round = 0; round < ROUNDS; round++) {
            mine[round] = ours(c);
            other[round] = theirs(c);
        }
        double gigabytes = (double)c->bits * COUNT / 8 * TIMES / 1e9;
        double rate = gigabytes / median(mine, ROUNDS), plain_rate = gigabytes / median(other, ROUNDS);
        printf("%-12s column   nt_column %5.2f GB/s   C %s %5.2f GB/s   time by theirs %.2f\n", c->name, rate, BUILD, plain_rate, plain_rate / rate);
    }
}
