/* AES-128 by 32-bit tables: an entry is a byte's whole share in a column after SubBytes and MixColumns. Decryption is the equivalent
   inverse cipher of FIPS 197, section 5.3.5. A word is a column, its first byte the most significant. */
#include "block.h"
#include "tables.h"

#define NAME "C 32-bit tables"

struct schedule {
    uint32_t forwards[44];
    uint32_t backwards[44];
};

static uint32_t table[4][256], inverse_table[4][256];

static inline uint8_t byte_of(uint32_t w, int row) {
    return (uint8_t)(w >> (24 - 8 * row));
}

static inline uint32_t word(uint8_t a, uint8_t b, uint8_t c, uint8_t d) {
    return (uint32_t)a << 24 | (uint32_t)b << 16 | (uint32_t)c << 8 | d;
}

void make_word_tables(void) {
    for (int i = 0; i < 256; i++) {
        uint8_t x = sbox[i], x2 = xtime(x);
        uint8_t y = inverse_sbox[i], y2 = xtime(y), y4 = xtime(y2), y8 = xtime(y4);
        uint32_t w = word(x2, x, x, x2 ^ x);
        uint32_t v = word(y8 ^ y4 ^ y2, y8 ^ y, y8 ^ y4 ^ y, y8 ^ y2 ^ y);
        for (int row = 0; row < 4; row++) {
            table[row][i] = w;
            inverse_table[row][i] = v;
            w = w >> 8 | w << 24;
            v = v >> 8 | v << 24;
        }
    }
}

static inline uint32_t inverse_mix_column(uint32_t w) {
    return inverse_table[0][sbox[byte_of(w, 0)]] ^ inverse_table[1][sbox[byte_of(w, 1)]]
         ^ inverse_table[2][sbox[byte_of(w, 2)]] ^ inverse_table[3][sbox[byte_of(w, 3)]];
}

static void make_schedule(struct schedule *s, const uint8_t *key) {
    uint8_t keys[ROUND_KEYS];
    expand_key(key, keys);
    for (int i = 0; i < 44; i++) {
        const uint8_t *k = keys + 4 * i;
        s->forwards[i] = word(k[0], k[1], k[2], k[3]);
        s->backwards[i] = i < 4 || i >= 40 ? s->forwards[i] : inverse_mix_column(s->forwards[i]);
    }
}

/* ShiftRows takes the bytes of column i from the columns i, i + 1, i + 2, i + 3; backwards from i, i - 1, i - 2, i - 3. */
static inline uint32_t column(const uint32_t s[4], int i) {
    return table[0][byte_of(s[i], 0)] ^ table[1][byte_of(s[(i + 1) % 4], 1)]
         ^ table[2][byte_of(s[(i + 2) % 4], 2)] ^ table[3][byte_of(s[(i + 3) % 4], 3)];
}

static inline uint32_t column_back(const uint32_t s[4], int i) {
    return inverse_table[0][byte_of(s[i], 0)] ^ inverse_table[1][byte_of(s[(i + 3) % 4], 1)]
         ^ inverse_table[2][byte_of(s[(i + 2) % 4], 2)] ^ inverse_table[3][byte_of(s[(i + 1) % 4], 3)];
}

static inline uint32_t last_column(const uint32_t s[4], int i) {
    return word(sbox[byte_of(s[i], 0)], sbox[byte_of(s[(i + 1) % 4], 1)],
                sbox[byte_of(s[(i + 2) % 4], 2)], sbox[byte_of(s[(i + 3) % 4], 3)]);
}

static inline uint32_t last_column_back(const uint32_t s[4], int i) {
    return word(inverse_sbox[byte_of(s[i], 0)], inverse_sbox[byte_of(s[(i + 3) % 4], 1)],
                inverse_sbox[byte_of(s[(i + 2) % 4], 2)], inverse_sbox[byte_of(s[(i + 1) % 4], 3)]);
}

static inline void split(uint32_t s[4], block b, const uint32_t *key) {
    s[0] = (uint32_t)(b.upper >> 32) ^ key[0];
    s[1] = (uint32_t)b.upper ^ key[1];
    s[2] = (uint32_t)(b.lower >> 32) ^ key[2];
    s[3] = (uint32_t)b.lower ^ key[3];
}

static inline block joined(uint32_t a, uint32_t b, uint32_t c, uint32_t d) {
    block whole = {(uint64_t)a << 32 | b, (uint64_t)c << 32 | d};
    return whole;
}

static inline void rounds(uint32_t s[4], const struct schedule *k, int from, int to) {
    for (int round = from; round <= to; round++) {
        const uint32_t *key = k->forwards + 4 * round;
        uint32_t a = column(s, 0) ^ key[0], b = column(s, 1) ^ key[1], c = column(s, 2) ^ key[2], d = column(s, 3) ^ key[3];
        s[0] = a;
        s[1] = b;
        s[2] = c;
        s[3] = d;
    }
}

static inline void rounds_back(uint32_t s[4], const struct schedule *k, int from, int to) {
    for (int round = from; round >= to; round--) {
        const uint32_t *key = k->backwards + 4 * round;
        uint32_t a = column_back(s, 0) ^ key[0], b = column_back(s, 1) ^ key[1];
        uint32_t c = column_back(s, 2) ^ key[2], d = column_back(s, 3) ^ key[3];
        s[0] = a;
        s[1] = b;
        s[2] = c;
        s[3] = d;
    }
}

static inline block encrypt_block(const struct schedule *k, block b, block *t) {
    uint32_t s[4];
    const uint32_t *key = k->forwards + 40;
    split(s, b, k->forwards);
    rounds(s, k, 1, 5);
    *t = joined(s[0], s[1], s[2], s[3]);
    rounds(s, k, 6, 9);
    return joined(last_column(s, 0) ^ key[0], last_column(s, 1) ^ key[1], last_column(s, 2) ^ key[2], last_column(s, 3) ^ key[3]);
}

/* The equivalent inverse cipher's state before it takes round key 5 in is not the middletext: that is one InvSubBytes further, which the
   next table step has in it. So the middletext costs 16 look-ups more, and nothing where it is not asked for. */
static inline block tap(const uint32_t s[4]) {
    return joined(last_column_back(s, 0), last_column_back(s, 1), last_column_back(s, 2), last_column_back(s, 3));
}

static inline block middletext(const struct schedule *k, block c) {
    uint32_t s[4];
    split(s, c, k->backwards + 40);
    rounds_back(s, k, 9, 6);
    return tap(s);
}

static inline block decrypt_block(const struct schedule *k, block c, block *t) {
    uint32_t s[4];
    split(s, c, k->backwards + 40);
    rounds_back(s, k, 9, 6);
    *t = tap(s);
    rounds_back(s, k, 5, 1);
    block last = tap(s), key = joined(k->backwards[0], k->backwards[1], k->backwards[2], k->backwards[3]);
    return add(last, key);
}

#include "mode.h"
