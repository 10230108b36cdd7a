/* XXH3-64 with seed 0, as plain C for little-endian machines: for bench/program.cpp, which is to need no other library. */
#include <stddef.h>
#include <stdint.h>
#include <string.h>

static const uint64_t SECRET[24] = {
    0xbe4ba423396cfeb8, 0x1cad21f72c81017c, 0xdb979083e96dd4de, 0x1f67b3b7a4a44072, 0x78e5c0cc4ee679cb, 0x2172ffcc7dd05a82,
    0x8e2443f7744608b8, 0x4c263a81e69035e0, 0xcb00c391bb52283c, 0xa32e531b8b65d088, 0x4ef90da297486471, 0xd8acdea946ef1938,
    0x3f349ce33f76faa8, 0x1d4f0bc7c7bbdcf9, 0x3159b4cd4be0518a, 0x647378d9c97e9fc8, 0xc3ebd33483acc5ea, 0xeb6313faffa081c5,
    0x49daf0b751dd0d17, 0x9e68d429265516d3, 0xfca1477d58be162b, 0xce31d07ad1b8f88f, 0x280416958f3acb45, 0x7e404bbbcafbd7af,
};
static const uint64_t P32_1 = 0x9e3779b1, P32_2 = 0x85ebca77, P32_3 = 0xc2b2ae3d, P64_1 = 0x9e3779b185ebca87, P64_2 = 0xc2b2ae3d27d4eb4f,
                      P64_3 = 0x165667b19e3779f9, P64_4 = 0x85ebca77c2b2ae63, P64_5 = 0x27d4eb2f165667c5, MX1 = 0x165667919e3779f9,
                      MX2 = 0x9fb21c651e98df25;

static inline uint64_t word_at(const void *bytes, size_t at) {
    uint64_t word;
    memcpy(&word, (const char *)bytes + at, 8);
    return word;
}

static inline uint64_t half_at(const void *bytes, size_t at) {
    uint32_t half;
    memcpy(&half, (const char *)bytes + at, 4);
    return half;
}

static inline uint64_t fold(uint64_t a, uint64_t b) {
    unsigned __int128 product = (unsigned __int128)a * b;
    return (uint64_t)product ^ (uint64_t)(product >> 64);
}

static inline uint64_t mix(const uint8_t *bytes, size_t at, size_t secret) {
    return fold(word_at(bytes, at) ^ word_at(SECRET, secret), word_at(bytes, at + 8) ^ word_at(SECRET, secret + 8));
}

static inline uint64_t avalanche(uint64_t x) {
    x = (x ^ x >> 37) * MX1;
    return x ^ x >> 32;
}

static inline uint64_t avalanche_64(uint64_t x) {
    x = (x ^ x >> 33) * P64_2;
    x = (x ^ x >> 29) * P64_3;
    return x ^ x >> 32;
}

static inline uint64_t rotated(uint64_t x, int by) { return x << by | x >> (64 - by); }

static uint64_t sum_of_short(const uint8_t *bytes, size_t len) {
    if (len == 0)
        return avalanche_64(word_at(SECRET, 56) ^ word_at(SECRET, 64));
    if (len <= 3) {
        uint64_t joined = (uint64_t)bytes[0] << 16 | (uint64_t)bytes[len / 2] << 24 | bytes[len - 1] | len << 8;
        return avalanche_64(joined ^ half_at(SECRET, 0) ^ half_at(SECRET, 4));
    }
    if (len <= 8) {
        uint64_t x = (half_at(bytes, len - 4) + (half_at(bytes, 0) << 32)) ^ word_at(SECRET, 8) ^ word_at(SECRET, 16);
        x = (x ^ rotated(x, 49) ^ rotated(x, 24)) * MX2;
        x = (x ^ ((x >> 35) + len)) * MX2;
        return x ^ x >> 28;
    }
    uint64_t low = word_at(bytes, 0) ^ word_at(SECRET, 24) ^ word_at(SECRET, 32);
    uint64_t high = word_at(bytes, len - 8) ^ word_at(SECRET, 40) ^ word_at(SECRET, 48);
    return avalanche(len + __builtin_bswap64(low) + high + fold(low, high));
}

static uint64_t sum_of_middle(const uint8_t *bytes, size_t len) {
    uint64_t sum = len * P64_1;
    if (len <= 128) {
        for (size_t i = 0; i < (len + 31) / 32; i++)
            sum += mix(bytes, 16 * i, 32 * i) + mix(bytes, len - 16 * (i + 1), 32 * i + 16);
        return avalanche(sum);
    }
    for (size_t i = 0; i < 8; i++)
        sum += mix(bytes, 16 * i, 16 * i);
    sum = avalanche(sum);
    for (size_t i = 8; i < len / 16; i++)
        sum += mix(bytes, 16 * i, 16 * (i - 8) + 3);
    return avalanche(sum + mix(bytes, len - 16, 119));
}

static inline void take_stripe(uint64_t *lanes, const uint8_t *stripe, size_t secret) {
    for (size_t i = 0; i < 8; i++) {
        uint64_t word = word_at(stripe, 8 * i), key = word ^ word_at(SECRET, secret + 8 * i);
        lanes[i ^ 1] += word;
        lanes[i] += (key & 0xffffffff) * (key >> 32);
    }
}

static uint64_t sum_of_long(const uint8_t *bytes, size_t len) {
    uint64_t lanes[8] = {P32_3, P64_1, P64_2, P64_3, P64_4, P32_2, P64_5, P32_1};
    for (size_t k = 0; k < (len - 1) / 64; k++) {
        take_stripe(lanes, bytes + 64 * k, 8 * (k % 16));
        if (k % 16 == 15)
            for (size_t i = 0; i < 8; i++)
                lanes[i] = (lanes[i] ^ lanes[i] >> 47 ^ word_at(SECRET, 128 + 8 * i)) * P32_1;
    }
    take_stripe(lanes, bytes + len - 64, 121);
    uint64_t sum = len * P64_1;
    for (size_t i = 0; i < 4; i++)
        sum += fold(lanes[2 * i] ^ word_at(SECRET, 11 + 16 * i), lanes[2 * i + 1] ^ word_at(SECRET, 19 + 16 * i));
    return avalanche(sum);
}

static uint64_t sum(const void *bytes, size_t len) {
    const uint8_t *from = (const uint8_t *)bytes;
    return len <= 16 ? sum_of_short(from, len) : len <= 240 ? sum_of_middle(from, len) : sum_of_long(from, len);
}
