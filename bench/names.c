/* Times the reading of descriptions with many names. See names.sh. */
#include <inttypes.h>
#include <stdint.h>
#include <stdio.h>
#include <string.h>

#include "timing.h"

uint32_t nt_schema_fields(const unsigned char *bytes, size_t len);

enum { most = 20000, longest = 256, rounds = 9 };

/* The time that the processor spent on this program, in seconds. */
static double spent(void) {
    struct timespec t;
    clock_gettime(CLOCK_PROCESS_CPUTIME_ID, &t);
    return t.tv_sec + t.tv_nsec * 1e-9;
}

/* The names, each with its length. */
static unsigned char names[most][longest];
static size_t lengths[most];

static void numbered(void) {
    for (int i = 0; i < most; i++)
        lengths[i] = snprintf((char *)names[i], longest, "field%d", i);
}

/* Names that are alike but for their last places. */
static void with_a_long_front(void) {
    for (int i = 0; i < most; i++) {
        memset(names[i], 'f', 200);
        lengths[i] = 200 + snprintf((char *)names[i] + 200, longest - 200, "%d", i);
    }
}

/* One step of the hasher with the fixed key: the length of a name is a step, and each of its bytes. */
static uint64_t step(uint64_t state, uint64_t word, uint64_t bytes) {
    const uint64_t key = UINT64_C(0x9e3779b97f4a7c15);
    unsigned __int128 product = (unsigned __int128)(state ^ word) * (key ^ (2 * bytes));
    return (uint64_t)product ^ (uint64_t)(product >> 64);
}

/* A byte stands in three places of its word there. */
static uint64_t add_byte(uint64_t state, unsigned char byte) {
    return step(state, byte * UINT64_C(0x010101), 1);
}

/* Names of eight letters whose hashes end with the same 16 bits: a map looks for all of them from the same place on. */
static void colliding(void) {
    unsigned char name[8];
    int found = 0;
    for (uint64_t front = 0; found < most; front++) {
        uint64_t state = step(UINT64_C(0x243f6a8885a308d3), 8, 8), rest = front;
        for (int i = 0; i < 5; i++, rest /= 26)
            state = add_byte(state, name[i] = 'a' + rest % 26);
        for (name[5] = 'a'; name[5] <= 'z'; name[5]++) {
            uint64_t five = add_byte(state, name[5]);
            for (name[6] = 'a'; name[6] <= 'z'; name[6]++) {
                uint64_t six = add_byte(five, name[6]);
                for (name[7] = 'a'; name[7] <= 'z' && found < most; name[7]++) {
                    uint64_t hash = add_byte(six, name[7]);
                    if (((hash ^ hash >> 32) & 0xffff) == 0) {
                        memcpy(names[found], name, 8);
                        lengths[found++] = 8;
                    }
                }
            }
        }
    }
}

static unsigned char *put(unsigned char *at, uint64_t number, int bytes) {
    for (int i = 0; i < bytes; i++)
        *at++ = number >> 8 * i;
    return at;
}

static unsigned char *put_text(unsigned char *at, const void *text, size_t len) {
    at = put(at, len, 4);
    memcpy(at, text, len);
    return at + len;
}

/* A list frame whose items stand from `at` on; its 12 bytes stand before them. */
static unsigned char *end_list(unsigned char *list, unsigned char *at, uint32_t count) {
    put(put(list, -(uint64_t)(at - list), 8), count, 4);
    return at;
}

/* The description of so many fields at the top level, without columns. */
static size_t description(unsigned char *out, uint32_t count) {
    unsigned char *at = out + 12;
    for (uint32_t id = 0; id < count; id++) {
        unsigned char *record = at;
        at = put(put(put(at + 8, 0, 8), id, 4), 0, 4);
        at = put_text(put_text(put_text(put_text(at, names[id], lengths[id]), "bool", 4), "", 0), "", 0);
        put(record, at - record, 8);
    }
    at = end_list(out, at, count);
    for (int list = 0; list < 3; list++)
        at = end_list(at, at + 12, 0);
    return at - out;
}

int main(void) {
    static unsigned char bytes[most * (longest + 64)];
    static const struct {
        const char *name;
        void (*make)(void);
    } kinds[] = {{"numbered", numbered}, {"with a long front", with_a_long_front}, {"colliding", colliding}};
    printf("%-18s", "names");
    for (uint32_t count = 1250; count <= most; count *= 2)
        printf(" %8" PRIu32, count);
    printf("\n");
    for (size_t kind = 0; kind < 3; kind++) {
        kinds[kind].make();
        printf("%-18s", kinds[kind].name);
        for (uint32_t count = 1250; count <= most; count *= 2) {
            size_t len = description(bytes, count);
            double times[rounds];
            for (int round = 0; round < rounds; round++) {
                double start = spent();
                if (nt_schema_fields(bytes, len) != count) {
                    printf(" not read\n");
                    return 1;
                }
                times[round] = (spent() - start) * 1e9 / count;
            }
            printf(" %8.0f", median(times, rounds));
            fflush(stdout);
        }
        printf("\n");
    }
    return 0;
}
