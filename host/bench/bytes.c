/* AES-128 a byte at a time: two tables of 256 bytes, and MixColumns by doubling in the field. */
#include "block.h"
#include "tables.h"

#include <string.h>

#define NAME "C byte tables"

struct schedule {
    uint8_t keys[ROUND_KEYS];
};

static void make_schedule(struct schedule *s, const uint8_t *key) {
    expand_key(key, s->keys);
}

static inline void add_round_key(uint8_t state[16], const struct schedule *s, int round) {
    for (int i = 0; i < 16; i++)
        state[i] ^= s->keys[16 * round + i];
}

/* SubBytes and ShiftRows together; the state goes column after column. */
static inline void sub_shift(uint8_t state[16]) {
    uint8_t from[16];
    memcpy(from, state, 16);
    for (int i = 0; i < 16; i++)
        state[i] = sbox[from[(i + 4 * (i % 4)) % 16]];
}

static inline void inverse_sub_shift(uint8_t state[16]) {
    uint8_t from[16];
    memcpy(from, state, 16);
    for (int i = 0; i < 16; i++)
        state[i] = inverse_sbox[from[(i + 12 * (i % 4)) % 16]];
}

static inline void mix_columns(uint8_t state[16]) {
    for (int i = 0; i < 16; i += 4) {
        uint8_t a = state[i], b = state[i + 1], c = state[i + 2], d = state[i + 3];
        uint8_t all = a ^ b ^ c ^ d;
        state[i] = a ^ all ^ xtime(a ^ b);
        state[i + 1] = b ^ all ^ xtime(b ^ c);
        state[i + 2] = c ^ all ^ xtime(c ^ d);
        state[i + 3] = d ^ all ^ xtime(d ^ a);
    }
}

/* The inverse matrix is mix_columns after one that adds 4 times the sum of every other byte. */
static inline void inverse_mix_columns(uint8_t state[16]) {
    for (int i = 0; i < 16; i += 4) {
        uint8_t even = xtime(xtime(state[i] ^ state[i + 2]));
        uint8_t odd = xtime(xtime(state[i + 1] ^ state[i + 3]));
        state[i] ^= even;
        state[i + 1] ^= odd;
        state[i + 2] ^= even;
        state[i + 3] ^= odd;
    }
    mix_columns(state);
}

static inline void rounds(uint8_t state[16], const struct schedule *s, int from, int to) {
    for (int round = from; round <= to; round++) {
        sub_shift(state);
        mix_columns(state);
        add_round_key(state, s, round);
    }
}

static inline void rounds_back(uint8_t state[16], const struct schedule *s, int from, int to) {
    for (int round = from; round >= to; round--) {
        add_round_key(state, s, round);
        inverse_mix_columns(state);
        inverse_sub_shift(state);
    }
}

static inline block encrypt_block(const struct schedule *s, block b, block *t) {
    uint8_t state[16];
    store_block(state, b);
    add_round_key(state, s, 0);
    rounds(state, s, 1, 5);
    *t = load_block(state);
    rounds(state, s, 6, 9);
    sub_shift(state);
    add_round_key(state, s, 10);
    return load_block(state);
}

static inline void back_to_middle(uint8_t state[16], const struct schedule *s) {
    add_round_key(state, s, 10);
    inverse_sub_shift(state);
    rounds_back(state, s, 9, 6);
}

static inline block middletext(const struct schedule *s, block c) {
    uint8_t state[16];
    store_block(state, c);
    back_to_middle(state, s);
    return load_block(state);
}

static inline block decrypt_block(const struct schedule *s, block c, block *t) {
    uint8_t state[16];
    store_block(state, c);
    back_to_middle(state, s);
    *t = load_block(state);
    rounds_back(state, s, 5, 1);
    add_round_key(state, s, 0);
    return load_block(state);
}

#include "mode.h"
