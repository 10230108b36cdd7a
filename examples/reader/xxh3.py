"""The checksum XXH3-64 with seed 0, as the description of xxHash has it, in plain Python.

All sums and products are of 64 bits, and all words are read with the lowest byte first. There is a rule for each range of lengths:
short inputs are mixed whole, longer ones by 16 bytes at a time, and those above 240 bytes in stripes of 64 bytes by eight accumulators.
"""
import struct

MASK32 = 0xFFFFFFFF
MASK64 = 0xFFFFFFFFFFFFFFFF
PRIME32_1, PRIME32_2, PRIME32_3 = 0x9E3779B1, 0x85EBCA77, 0xC2B2AE3D
PRIME64_1, PRIME64_2, PRIME64_3 = 0x9E3779B185EBCA87, 0xC2B2AE3D27D4EB4F, 0x165667B19E3779F9
PRIME64_4, PRIME64_5 = 0x85EBCA77C2B2AE63, 0x27D4EB2F165667C5
MIX_1, MIX_2 = 0x165667919E3779F9, 0x9FB21C651E98DF25
SECRET = bytes.fromhex(
    "b8fe6c3923a44bbe7c01812cf721ad1cded46de9839097db7240a4a4b7b3671fcb79e64eccc0e578825ad07dccff7221"
    "b8084674f743248ee03590e6813a264c3c2852bb91c300cb88d0658b1b532ea371644897a20df94e3819ef46a9deacd8"
    "a8fa763fe39c343ff9dcbbc7c70b4f1d8a51e04bcdb45931c89f7ec9d9787364eac5ac8334d3ebc3c581a0fffa1363eb"
    "170ddd51b7f0da49d316552629d4689e2b16be587d47a1fc8ff8b8d17ad031ce45cb3a8f95160428afd7fbcabb4b407e"
)


def word(data, at, size=8):
    return int.from_bytes(data[at:at + size], "little")


def fold(a, b):
    """The two halves of the product of 128 bits, exclusive or."""
    product = a * b
    return product & MASK64 ^ product >> 64


def rotated(value, bits):
    return (value << bits | value >> 64 - bits) & MASK64


def avalanche(value):
    value = (value ^ value >> 37) * MIX_1 & MASK64
    return value ^ value >> 32


def avalanche_of_few(value):
    value = (value ^ value >> 33) * PRIME64_2 & MASK64
    value = (value ^ value >> 29) * PRIME64_3 & MASK64
    return value ^ value >> 32


def mixed(data, at, secret_at):
    """16 bytes of the input with 16 of the secret."""
    return fold(word(data, at) ^ word(SECRET, secret_at), word(data, at + 8) ^ word(SECRET, secret_at + 8))


def of_at_most_16(data):
    size = len(data)
    if size == 0:
        return avalanche_of_few(word(SECRET, 56) ^ word(SECRET, 64))
    if size < 4:
        joined = data[0] << 16 | data[size >> 1] << 24 | data[-1] | size << 8
        return avalanche_of_few(joined ^ word(SECRET, 0, 4) ^ word(SECRET, 4, 4))
    if size < 9:
        key = word(data, size - 4, 4) + (word(data, 0, 4) << 32) ^ word(SECRET, 8) ^ word(SECRET, 16)
        key = (key ^ rotated(key, 49) ^ rotated(key, 24)) * MIX_2 & MASK64
        key = (key ^ (key >> 35) + size) * MIX_2 & MASK64
        return key ^ key >> 28
    low = word(data, 0) ^ word(SECRET, 24) ^ word(SECRET, 32)
    high = word(data, size - 8) ^ word(SECRET, 40) ^ word(SECRET, 48)
    turned = int.from_bytes(low.to_bytes(8, "little"), "big")
    return avalanche(size + turned + high + fold(low, high) & MASK64)


def of_17_to_240(data):
    size = len(data)
    total = size * PRIME64_1
    if size <= 128:
        for pair in range((size - 1) // 32 + 1):
            total += mixed(data, 16 * pair, 32 * pair) + mixed(data, size - 16 * (pair + 1), 32 * pair + 16)
        return avalanche(total & MASK64)
    total = avalanche(total + sum(mixed(data, 16 * i, 16 * i) for i in range(8)) & MASK64)
    total += sum(mixed(data, 16 * i, 16 * (i - 8) + 3) for i in range(8, size // 16)) + mixed(data, size - 16, 119)
    return avalanche(total & MASK64)


def take_stripe(lanes, words, secret):
    for i, (value, mask) in enumerate(zip(words, secret)):
        key = value ^ mask
        lanes[i ^ 1] += value
        lanes[i] = lanes[i] + (key & MASK32) * (key >> 32) & MASK64


def words_at(data, at):
    return struct.unpack_from("<8Q", data, at)


SECRETS = [words_at(SECRET, 8 * i) for i in range(16)]


def above_240(data):
    size = len(data)
    lanes = [PRIME32_3, PRIME64_1, PRIME64_2, PRIME64_3, PRIME64_4, PRIME32_2, PRIME64_5, PRIME32_1]
    for stripe in range((size - 1) // 64):
        take_stripe(lanes, words_at(data, 64 * stripe), SECRETS[stripe % 16])
        if stripe % 16 == 15:  # a block of 1024 bytes ends
            for i, mask in enumerate(words_at(SECRET, 128)):
                value = lanes[i] & MASK64
                lanes[i] = (value ^ value >> 47 ^ mask) * PRIME32_1 & MASK64
    take_stripe(lanes, words_at(data, size - 64), words_at(SECRET, 121))
    total = size * PRIME64_1
    for i in range(4):
        total += fold(lanes[2 * i] & MASK64 ^ word(SECRET, 11 + 16 * i), lanes[2 * i + 1] & MASK64 ^ word(SECRET, 19 + 16 * i))
    return avalanche(total & MASK64)


def xxh3(data):
    """The checksum of these bytes."""
    if len(data) <= 16:
        return of_at_most_16(data)
    return of_17_to_240(data) if len(data) <= 240 else above_240(data)
