/* What both C engines begin with: the S-box, its inverse, and the eleven round keys. */
#ifndef TABLES_H
#define TABLES_H

#include <stdint.h>

enum { ROUND_KEYS = 176 };

extern uint8_t sbox[256], inverse_sbox[256];

/* Fills the two tables; to be called once, before all else. */
void make_sboxes(void);

/* Twice x in the field of 256 elements. */
static inline uint8_t xtime(uint8_t x) {
    return (uint8_t)(x << 1 ^ (x >> 7) * 0x1b);
}

void expand_key(const uint8_t key[16], uint8_t keys[ROUND_KEYS]);

#endif
