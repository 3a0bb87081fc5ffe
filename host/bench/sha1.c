/* Compiled several times, with SHA1 being the function's name, and with FIVE set for five steps at a time. */
#include "sha1.h"

#include <string.h>

enum { BLOCK = 64 };

static uint32_t rotated(uint32_t x, int n) {
    return x << n | x >> (32 - n);
}

static uint32_t choice(uint32_t x, uint32_t y, uint32_t z) {
    return (x & y) | (~x & z);
}

static uint32_t parity(uint32_t x, uint32_t y, uint32_t z) {
    return x ^ y ^ z;
}

static uint32_t majority(uint32_t x, uint32_t y, uint32_t z) {
    return (x & y) | (x & z) | (y & z);
}

/* Twenty steps with one function of b, c and d and one constant. */
#ifdef FIVE
#define STEP(a, b, c, d, e, function, constant, t) \
    e += rotated(a, 5) + function(b, c, d) + (uint32_t)(constant) + word[t], b = rotated(b, 30);
#define TWENTY(from, function, constant)                  \
    for (int t = (from); t < (from) + 20; t += 5) {       \
        STEP(a, b, c, d, e, function, constant, t)        \
        STEP(e, a, b, c, d, function, constant, t + 1)    \
        STEP(d, e, a, b, c, function, constant, t + 2)    \
        STEP(c, d, e, a, b, function, constant, t + 3)    \
        STEP(b, c, d, e, a, function, constant, t + 4)    \
    }
#else
#define TWENTY(from, function, constant)                                                          \
    for (int t = (from); t < (from) + 20; t++) {                                                  \
        uint32_t sum = rotated(a, 5) + function(b, c, d) + e + (uint32_t)(constant) + word[t];    \
        e = d, d = c, c = rotated(b, 30), b = a, a = sum;                                         \
    }
#endif

static void take(uint32_t hash[5], const uint8_t *block) {
    uint32_t word[80], a = hash[0], b = hash[1], c = hash[2], d = hash[3], e = hash[4];
    for (int t = 0; t < 16; t++)
        word[t] = (uint32_t)block[4 * t] << 24 | (uint32_t)block[4 * t + 1] << 16 | (uint32_t)block[4 * t + 2] << 8 | block[4 * t + 3];
    for (int t = 16; t < 80; t++)
        word[t] = rotated(word[t - 3] ^ word[t - 8] ^ word[t - 14] ^ word[t - 16], 1);
    TWENTY(0, choice, 0x5a827999)
    TWENTY(20, parity, 0x6ed9eba1)
    TWENTY(40, majority, 0x8f1bbcdc)
    TWENTY(60, parity, 0xca62c1d6)
    hash[0] += a;
    hash[1] += b;
    hash[2] += c;
    hash[3] += d;
    hash[4] += e;
}

void SHA1(const uint8_t *text, size_t length, uint8_t digest[20]) {
    uint32_t hash[5] = {0x67452301, 0xefcdab89, 0x98badcfe, 0x10325476, 0xc3d2e1f0};
    uint8_t last[2 * BLOCK] = {0};
    size_t rest = length % BLOCK, whole = length - rest, end = rest < BLOCK - 8 ? BLOCK : 2 * BLOCK;
    uint64_t bits = 8 * (uint64_t)length;
    for (size_t i = 0; i < whole; i += BLOCK)
        take(hash, text + i);
    memcpy(last, text + whole, rest);
    last[rest] = 0x80;
    for (size_t i = 0; i < 8; i++)
        last[end - 1 - i] = (uint8_t)(bits >> (8 * i));
    for (size_t i = 0; i < end; i += BLOCK)
        take(hash, last + i);
    for (size_t i = 0; i < 20; i++)
        digest[i] = (uint8_t)(hash[i / 4] >> (24 - 8 * (i % 4)));
}
