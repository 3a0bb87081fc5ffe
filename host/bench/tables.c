#include "tables.h"

#include <string.h>

uint8_t sbox[256], inverse_sbox[256];

static uint8_t rotate(uint8_t x, int by) {
    return (uint8_t)(x << by | x >> (8 - by));
}

/* Every element but zero is a power of 3, and 3 to the 255th is 1: the inverse of the power i is the power 255 - i. */
void make_sboxes(void) {
    uint8_t power[255];
    power[0] = 1;
    for (int i = 1; i < 255; i++)
        power[i] = (uint8_t)(power[i - 1] ^ xtime(power[i - 1]));
    sbox[0] = 0x63;
    for (int i = 0; i < 255; i++) {
        uint8_t q = power[(255 - i) % 255];
        sbox[power[i]] = (uint8_t)(q ^ rotate(q, 1) ^ rotate(q, 2) ^ rotate(q, 3) ^ rotate(q, 4) ^ 0x63);
    }
    for (int i = 0; i < 256; i++)
        inverse_sbox[sbox[i]] = (uint8_t)i;
}

void expand_key(const uint8_t key[16], uint8_t keys[ROUND_KEYS]) {
    uint8_t constant = 1;
    memcpy(keys, key, 16);
    for (int i = 16; i < ROUND_KEYS; i += 4) {
        const uint8_t *t = keys + i - 4;
        uint8_t turned[4];
        if (i % 16 == 0) {
            turned[0] = (uint8_t)(sbox[t[1]] ^ constant);
            turned[1] = sbox[t[2]];
            turned[2] = sbox[t[3]];
            turned[3] = sbox[t[0]];
            constant = xtime(constant);
            t = turned;
        }
        for (int j = 0; j < 4; j++)
            keys[i + j] = (uint8_t)(keys[i + j - 16] ^ t[j]);
    }
}
