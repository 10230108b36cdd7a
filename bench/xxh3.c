/* Compares nt_xxh3's sum with the XXH3_64bits of xxhash.h: every answer first, then the rates.
 * Build it once with -DXXH_VECTOR=0 and once with -DXXH_VECTOR=1 (SSE2); see xxh3.sh. */
#define XXH_INLINE_ALL
#include <stdint.h>
#include <stdio.h>
#include <stdlib.h>
#include <xxhash.h>

#include "timing.h"

uint64_t nt_xxh3_sum(const uint8_t *bytes, size_t len);

__attribute__((noinline)) static uint64_t reference(const uint8_t *bytes, size_t len) { return XXH3_64bits(bytes, len); }

typedef uint64_t (*sum_fn)(const uint8_t *, size_t);

enum { ROUNDS = 15, WHOLE = 64 << 20, PAGE = 16 << 10, LARGEST_COMPARED = 4100 };

/* One pass over `bytes` in pieces; the last sum changes a byte, so that no round can be left out. */
static double pass(sum_fn sum, uint8_t *bytes, size_t len, size_t piece, size_t turns) {
    double start = now();
    for (size_t turn = 0; turn < turns; turn++)
        for (size_t at = 0; at < len; at += piece) {
            uint64_t last = sum(bytes + at, piece);
            bytes[at + last % piece] ^= (uint8_t)(last >> 56);
        }
    return now() - start;
}

static void compare(uint8_t *bytes) {
    for (size_t len = 0; len <= LARGEST_COMPARED; len++)
        if (nt_xxh3_sum(bytes, len) != reference(bytes, len)) {
            printf("the sums of %zu bytes differ\n", len);
            exit(1);
        }
    for (size_t len = 1; len <= WHOLE; len *= 2)
        for (size_t more = 0; more < 3; more++)
            if (nt_xxh3_sum(bytes, len + more - 1) != reference(bytes, len + more - 1)) {
                printf("the sums of %zu bytes differ\n", len + more - 1);
                exit(1);
            }
}

static void measure(const char *what, const char *build, uint8_t *bytes, size_t len, size_t piece, size_t turns) {
    double ours[ROUNDS], theirs[ROUNDS];
    for (int round = 0; round < ROUNDS; round++) {
        ours[round] = pass(nt_xxh3_sum, bytes, len, piece, turns);
        theirs[round] = pass(reference, bytes, len, piece, turns);
    }
    double gigabytes = (double)len * turns / 1e9, mine = gigabytes / median(ours, ROUNDS), other = gigabytes / median(theirs, ROUNDS);
    printf("%-16s nt_xxh3 %6.2f GB/s   xxhash.h %-6s %6.2f GB/s   time by theirs %.2f\n", what, mine, build, other, other / mine);
}

int main(void) {
    uint8_t *bytes = malloc(WHOLE + 64);
    if (!bytes)
        return 1;
    for (size_t i = 0; i < WHOLE + 64; i++)
        bytes[i] = (uint8_t)(i * 131 % 251);
    compare(bytes);
    const char *build = XXH_VECTOR == 0 ? "scalar" : "SSE2";
    measure("64 MiB", build, bytes, WHOLE, WHOLE, 1);
    measure("16 KiB pages", build, bytes, WHOLE, PAGE, 1);
    measure("one 16 KiB page", build, bytes, PAGE, PAGE, 4096);
    free(bytes);
}
