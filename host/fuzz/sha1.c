#include "sha1.h"

#include <string.h>

/* ROTL (3.2). */
static uint32_t rotated(uint32_t x, int n) {
    return x << n | x >> (32 - n);
}

/* Ch, Parity, Maj and Parity (4.1.1). */
static uint32_t mixed(int t, uint32_t x, uint32_t y, uint32_t z) {
    if (t < 20)
        return (x & y) ^ (~x & z);
    if (t >= 40 && t < 60)
        return (x & y) ^ (x & z) ^ (y & z);
    return x ^ y ^ z;
}

/* K (4.2.1). */
static uint32_t constant(int t) {
    static const uint32_t constants[4] = {0x5a827999, 0x6ed9eba1, 0x8f1bbcdc, 0xca62c1d6};
    return constants[t / 20];
}

void sha1_start(uint32_t hash[5]) {
    static const uint32_t initial[5] = {0x67452301, 0xefcdab89, 0x98badcfe, 0x10325476, 0xc3d2e1f0};
    memcpy(hash, initial, sizeof initial);
}

void sha1_schedule(uint32_t word[80], const uint8_t block[SHA1_BLOCK]) {
    for (int t = 0; t < 16; t++, block += 4)
        word[t] = (uint32_t)block[0] << 24 | (uint32_t)block[1] << 16 | (uint32_t)block[2] << 8 | block[3];
    for (int t = 16; t < 80; t++)
        word[t] = rotated(word[t - 3] ^ word[t - 8] ^ word[t - 14] ^ word[t - 16], 1);
}

void sha1_steps(uint32_t hash[5], const uint32_t word[80]) {
    uint32_t a = hash[0], b = hash[1], c = hash[2], d = hash[3], e = hash[4];
    for (int t = 0; t < 80; t++) {
        uint32_t sum = rotated(a, 5) + mixed(t, b, c, d) + e + constant(t) + word[t];
        e = d;
        d = c;
        c = rotated(b, 30);
        b = a;
        a = sum;
    }
    hash[0] += a;
    hash[1] += b;
    hash[2] += c;
    hash[3] += d;
    hash[4] += e;
}

void sha1_write(const uint32_t hash[5], uint8_t digest[SHA1_DIGEST]) {
    for (int i = 0; i < SHA1_DIGEST; i++)
        digest[i] = (uint8_t)(hash[i / 4] >> (24 - 8 * (i % 4)));
}

/* What is left after the whole blocks, with the padding (5.1.1): a byte 80, zeros, and the length in bits in the last eight bytes. It is one
   block or two. */
static size_t last_blocks(const uint8_t *rest, size_t rest_len, size_t len, uint8_t blocks[2 * SHA1_BLOCK]) {
    size_t end = rest_len < SHA1_BLOCK - 8 ? SHA1_BLOCK : 2 * SHA1_BLOCK;
    memset(blocks, 0, 2 * SHA1_BLOCK);
    if (rest_len > 0)
        memcpy(blocks, rest, rest_len);
    blocks[rest_len] = 0x80;
    for (size_t i = 0; i < 8; i++)
        blocks[end - 1 - i] = (uint8_t)((uint64_t)len * 8 >> (8 * i));
    return end;
}

static void take(uint32_t hash[5], const uint8_t block[SHA1_BLOCK]) {
    uint32_t word[80];
    sha1_schedule(word, block);
    sha1_steps(hash, word);
}

void sha1(const uint8_t *text, size_t len, uint8_t digest[SHA1_DIGEST]) {
    uint32_t hash[5];
    uint8_t last[2 * SHA1_BLOCK];
    size_t whole = len - len % SHA1_BLOCK;
    sha1_start(hash);
    for (size_t i = 0; i < whole; i += SHA1_BLOCK)
        take(hash, text + i);
    size_t end = last_blocks(whole < len ? text + whole : NULL, len - whole, len, last);
    for (size_t i = 0; i < end; i += SHA1_BLOCK)
        take(hash, last + i);
    sha1_write(hash, digest);
}
