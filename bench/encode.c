/* Compares nt_encode's encode and decode of split columns with plain C loops: every answer first, then the rates.
 * Build it once with -O2 and once with -O3, which vectorises the loops; see encode.sh. */
#include <stdint.h>
#include <stdio.h>
#include <stdlib.h>
#include <string.h>

#include "timing.h"

void nt_encode_page(uint16_t code, const uint64_t *values, size_t count, uint8_t *out, size_t size);
void nt_decode_page(uint16_t code, const uint8_t *bytes, size_t size, uint64_t *out, size_t count);

enum { ROUNDS = 15, PAGE = 4096, WHOLE = 64 << 20, LONGEST_COMPARED = 70 };

enum form { OWN, ZIGZAG, DELTA };

#define INLINE static inline __attribute__((always_inline))

/* The plain loops. PLAIN makes one of each form and width. */
INLINE void encode(enum form form, int width, const uint64_t *values, size_t count, uint8_t *out) {
    uint64_t last = 0;
    for (size_t i = 0; i < count; i++) {
        uint64_t word = values[i];
        if (form == ZIGZAG)
            word = word << 1 ^ -(word >> (8 * width - 1));
        if (form == DELTA) {
            word -= last;
            last = values[i];
        }
        for (int j = 0; j < width; j++)
            out[j * count + i] = (uint8_t)(word >> (8 * j));
    }
}

INLINE void decode(enum form form, int width, const uint8_t *bytes, uint64_t *out, size_t count) {
    uint64_t last = 0;
    for (size_t i = 0; i < count; i++) {
        uint64_t word = 0;
        for (int j = 0; j < width; j++)
            word |= (uint64_t)bytes[j * count + i] << (8 * j);
        if (form == ZIGZAG)
            word = word >> 1 ^ -(word & 1);
        if (form == DELTA)
            last = word += last;
        out[i] = width == 4 ? (uint32_t)word : word;
    }
}

#define PLAIN(name, form, width)                                                                            \
    __attribute__((noinline)) static void encode_##name(const uint64_t *from, size_t count, uint8_t *out) { \
        encode(form, width, from, count, out);                                                              \
    }                                                                                                       \
    __attribute__((noinline)) static void decode_##name(const uint8_t *from, uint64_t *out, size_t count) { \
        decode(form, width, from, out, count);                                                              \
    }

PLAIN(split_unsigned_64, OWN, 8)
PLAIN(split_signed_64, ZIGZAG, 8)
PLAIN(split_index_64, DELTA, 8)
PLAIN(split_unsigned_32, OWN, 4)
PLAIN(split_signed_32, ZIGZAG, 4)
PLAIN(split_index_32, DELTA, 4)

struct coding {
    const char *name;
    uint16_t code;
    size_t width;
    void (*encode)(const uint64_t *values, size_t count, uint8_t *out);
    void (*decode)(const uint8_t *bytes, uint64_t *out, size_t count);
};

static const struct coding CODINGS[] = {
    {"SplitUInt64", 0x16, 8, encode_split_unsigned_64, decode_split_unsigned_64},
    {"SplitInt64", 0x15, 8, encode_split_signed_64, decode_split_signed_64},
    {"SplitIndex64", 0x1B, 8, encode_split_index_64, decode_split_index_64},
    {"SplitUInt32", 0x14, 4, encode_split_unsigned_32, decode_split_unsigned_32},
    {"SplitInt32", 0x13, 4, encode_split_signed_32, decode_split_signed_32},
    {"SplitIndex32", 0x1A, 4, encode_split_index_32, decode_split_index_32},
};

static uint64_t *values, *decoded;
static uint8_t *encoded, *reference;

static void fill(const struct coding *c, size_t count) {
    uint64_t state = 0x9e3779b97f4a7c15;
    for (size_t i = 0; i < count; i++) {
        state = state * 6364136223846793005 + 1442695040888963407;
        values[i] = c->width == 4 ? (state >> 11) & 0xffffffff : state ^ state >> 31;
    }
}

static void differ(const struct coding *c, const char *what, size_t count) {
    printf("%s: the %s of %zu elements differ\n", c->name, what, count);
    exit(1);
}

/* A page of so many elements. */
static void compare_page(const struct coding *c, const uint64_t *from, size_t count) {
    memset(encoded, 0xaa, c->width * count);
    memset(reference, 0x55, c->width * count);
    nt_encode_page(c->code, from, count, encoded, c->width * count);
    c->encode(from, count, reference);
    if (memcmp(encoded, reference, c->width * count))
        differ(c, "pages", count);
    memset(decoded, 0xaa, 8 * count);
    nt_decode_page(c->code, reference, c->width * count, decoded, count);
    if (memcmp(decoded, from, 8 * count))
        differ(c, "values", count);
    memset(decoded, 0xaa, 8 * count);
    c->decode(reference, decoded, count);
    if (memcmp(decoded, from, 8 * count))
        differ(c, "values of C", count);
}

static void compare(const struct coding *c, size_t count) {
    for (size_t few = 0; few <= LONGEST_COMPARED; few++)
        compare_page(c, values + few, few);
    for (size_t at = 0; at < count; at += PAGE)
        compare_page(c, values + at, PAGE);
}

/* All pages once; what a page gave changes a number of what it was made of, so that no round can be left out. */
static double encode_all(const struct coding *c, size_t count, int ours) {
    double start = now();
    for (size_t at = 0; at < count; at += PAGE) {
        if (ours)
            nt_encode_page(c->code, values + at, PAGE, encoded + c->width * at, c->width * PAGE);
        else
            c->encode(values + at, PAGE, encoded + c->width * at);
        values[at + encoded[c->width * at] % PAGE] ^= encoded[c->width * (at + PAGE) - 1];
    }
    return now() - start;
}

static double decode_all(const struct coding *c, size_t count, int ours) {
    double start = now();
    for (size_t at = 0; at < count; at += PAGE) {
        if (ours)
            nt_decode_page(c->code, encoded + c->width * at, c->width * PAGE, values + at, PAGE);
        else
            c->decode(encoded + c->width * at, values + at, PAGE);
        encoded[c->width * at + values[at] % PAGE] ^= (uint8_t)values[at + PAGE - 1];
    }
    return now() - start;
}

static void measure(const struct coding *c, const char *what, double (*all)(const struct coding *, size_t, int), size_t count) {
    double ours[ROUNDS], theirs[ROUNDS];
    for (int round = 0; round < ROUNDS; round++) {
        ours[round] = all(c, count, 1);
        theirs[round] = all(c, count, 0);
    }
    double gigabytes = (double)c->width * count / 1e9, mine = gigabytes / median(ours, ROUNDS), other = gigabytes / median(theirs, ROUNDS);
    printf("%-12s %s   nt_encode %5.2f GB/s   C %s %5.2f GB/s   time by theirs %.2f\n", c->name, what, mine, BUILD, other, other / mine);
}

int main(void) {
    values = malloc(2 * WHOLE);
    decoded = malloc(8 * PAGE);
    encoded = malloc(WHOLE);
    reference = malloc(8 * PAGE);
    if (!values || !decoded || !encoded || !reference)
        return 1;
    for (size_t i = 0; i < sizeof CODINGS / sizeof *CODINGS; i++) {
        const struct coding *c = &CODINGS[i];
        size_t count = WHOLE / c->width;
        fill(c, count);
        compare(c, count);
        measure(c, "encode", encode_all, count);
        measure(c, "decode", decode_all, count);
    }
}
