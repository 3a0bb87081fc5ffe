/* A block as two 64-bit words, the first eight bytes being the upper word, most significant byte first. */
#ifndef BLOCK_H
#define BLOCK_H

#include <stdint.h>

typedef struct {
    uint64_t upper, lower;
} block;

static inline uint64_t load_word(const uint8_t *p) {
    return (uint64_t)p[0] << 56 | (uint64_t)p[1] << 48 | (uint64_t)p[2] << 40 | (uint64_t)p[3] << 32
         | (uint64_t)p[4] << 24 | (uint64_t)p[5] << 16 | (uint64_t)p[6] << 8 | p[7];
}

static inline void store_word(uint8_t *p, uint64_t w) {
    p[0] = (uint8_t)(w >> 56);
    p[1] = (uint8_t)(w >> 48);
    p[2] = (uint8_t)(w >> 40);
    p[3] = (uint8_t)(w >> 32);
    p[4] = (uint8_t)(w >> 24);
    p[5] = (uint8_t)(w >> 16);
    p[6] = (uint8_t)(w >> 8);
    p[7] = (uint8_t)w;
}

static inline block load_block(const uint8_t *p) {
    block b = {load_word(p), load_word(p + 8)};
    return b;
}

static inline void store_block(uint8_t *p, block b) {
    store_word(p, b.upper);
    store_word(p + 8, b.lower);
}

static inline block add(block a, block b) {
    block sum = {a.upper ^ b.upper, a.lower ^ b.lower};
    return sum;
}

static inline block times_x(block b) {
    uint64_t carry = b.upper >> 63;
    block product = {b.upper << 1 | b.lower >> 63, b.lower << 1 ^ (0x87 & (0 - carry))};
    return product;
}

/* 87 added before the shift is 43 added after it. */
static inline block divided_by_x(block b) {
    uint64_t odd = b.lower & 1;
    block quotient = {b.upper >> 1 | odd << 63, (b.upper << 63 | b.lower >> 1) ^ (0x43 & (0 - odd))};
    return quotient;
}

#endif
