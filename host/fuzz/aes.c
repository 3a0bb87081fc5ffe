#include "aes.h"

#include <string.h>

typedef uint8_t state[4][4];

/* multiple[n][a] is the product of n and a, for the matrices. */
static uint8_t sbox[256], inverse_sbox[256], multiple[16][256];

/* The product in the field of 256 elements with polynomial 11B. */
static uint8_t product(uint8_t a, uint8_t b) {
    unsigned sum = 0, shifted = a;
    for (; b != 0; b >>= 1) {
        if (b & 1)
            sum ^= shifted;
        shifted <<= 1;
        if (shifted & 0x100)
            shifted ^= 0x11b;
    }
    return (uint8_t)sum;
}

/* The inverse is the power 254, and zero for zero. */
static uint8_t inverse(uint8_t a) {
    uint8_t power = 1;
    for (int i = 0; i < 254; i++)
        power = product(power, a);
    return power;
}

/* Section 5.1.1: bit i of the result is the sum of the bits i, i + 4, i + 5, i + 6, i + 7 and of bit i of 63. */
static uint8_t affine(uint8_t b) {
    unsigned result = 0;
    for (int i = 0; i < 8; i++) {
        unsigned bit = b >> i ^ b >> (i + 4) % 8 ^ b >> (i + 5) % 8 ^ b >> (i + 6) % 8 ^ b >> (i + 7) % 8 ^ 0x63 >> i;
        result |= (bit & 1) << i;
    }
    return (uint8_t)result;
}

void aes_start(void) {
    for (int i = 0; i < 256; i++)
        sbox[i] = affine(inverse((uint8_t)i));
    for (int i = 0; i < 256; i++)
        inverse_sbox[sbox[i]] = (uint8_t)i;
    for (int i = 0; i < 16 * 256; i++)
        multiple[i / 256][i % 256] = product((uint8_t)(i / 256), (uint8_t)(i % 256));
}

uint8_t aes_sub_byte(uint8_t byte) {
    return sbox[byte];
}

/* Section 5.2: word i of the schedule is column i % 4 of round key i / 4. The key has nk words. */
void aes_expand(aes_keys *keys, const uint8_t *key, size_t key_len) {
    uint8_t word[60][4], constant = 1;
    int nk = (int)key_len / 4, words = 4 * (nk + 7);
    keys->rounds = nk + 6;
    keys->half = keys->rounds / 2;
    memcpy(word, key, key_len);
    for (int i = nk; i < words; i++)
        for (int row = 0; row < 4; row++) {
            uint8_t before = word[i - 1][row];
            if (i % nk == 0) {
                before = sbox[word[i - 1][(row + 1) % 4]];
                if (row == 0) {
                    before ^= constant;
                    constant = product(constant, 2);
                }
            } else if (nk > 6 && i % nk == 4)
                before = sbox[before];
            word[i][row] = word[i - nk][row] ^ before;
        }
    for (int i = 0; i < words; i++)
        for (int row = 0; row < 4; row++)
            keys->key[i / 4][row][i % 4] = word[i][row];
}

static void to_state(state s, const uint8_t block[16]) {
    for (int i = 0; i < 16; i++)
        s[i % 4][i / 4] = block[i];
}

static void from_state(uint8_t block[16], state s) {
    for (int i = 0; i < 16; i++)
        block[i] = s[i % 4][i / 4];
}

static void add_round_key(state s, const uint8_t key[4][4]) {
    for (int row = 0; row < 4; row++)
        for (int column = 0; column < 4; column++)
            s[row][column] ^= key[row][column];
}

static void sub_bytes(state s, const uint8_t table[256]) {
    for (int row = 0; row < 4; row++)
        for (int column = 0; column < 4; column++)
            s[row][column] = table[s[row][column]];
}

/* Row r goes r places to the left; with `times` 3 it goes back. */
static void shift_rows(state s, int times) {
    for (int row = 0; row < 4; row++) {
        uint8_t from[4];
        memcpy(from, s[row], 4);
        for (int column = 0; column < 4; column++)
            s[row][column] = from[(column + times * row) % 4];
    }
}

/* Each column times the matrix whose first row is `first`, every further row being turned one place to the right. */
static void mix_columns(state s, const uint8_t first[4]) {
    for (int column = 0; column < 4; column++) {
        uint8_t mixed[4] = {0};
        for (int row = 0; row < 4; row++)
            for (int i = 0; i < 4; i++)
                mixed[row] ^= multiple[first[(i + 4 - row) % 4]][s[i][column]];
        for (int row = 0; row < 4; row++)
            s[row][column] = mixed[row];
    }
}

static void rounds(const aes_keys *keys, state s, int from, int to) {
    static const uint8_t matrix[4] = {2, 3, 1, 1};
    for (int round = from; round <= to; round++) {
        sub_bytes(s, sbox);
        shift_rows(s, 1);
        if (round < keys->rounds)
            mix_columns(s, matrix);
        add_round_key(s, keys->key[round]);
    }
}

static void rounds_back(const aes_keys *keys, state s, int from, int to) {
    static const uint8_t matrix[4] = {0x0e, 0x0b, 0x0d, 0x09};
    for (int round = from; round >= to; round--) {
        add_round_key(s, keys->key[round]);
        if (round < keys->rounds)
            mix_columns(s, matrix);
        shift_rows(s, 3);
        sub_bytes(s, inverse_sbox);
    }
}

void aes_first_half(const aes_keys *keys, uint8_t block[16]) {
    state s;
    to_state(s, block);
    add_round_key(s, keys->key[0]);
    rounds(keys, s, 1, keys->half);
    from_state(block, s);
}

void aes_second_half(const aes_keys *keys, uint8_t block[16]) {
    state s;
    to_state(s, block);
    rounds(keys, s, keys->half + 1, keys->rounds);
    from_state(block, s);
}

void aes_first_half_back(const aes_keys *keys, uint8_t block[16]) {
    state s;
    to_state(s, block);
    rounds_back(keys, s, keys->half, 1);
    add_round_key(s, keys->key[0]);
    from_state(block, s);
}

void aes_second_half_back(const aes_keys *keys, uint8_t block[16]) {
    state s;
    to_state(s, block);
    rounds_back(keys, s, keys->rounds, keys->half + 1);
    from_state(block, s);
}
