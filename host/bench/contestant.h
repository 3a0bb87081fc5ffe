/* What is timed: one contestant's calls. All lengths are right, all outputs long enough, and no start mask is zero; the C contestants check
   none of that. */
#ifndef CONTESTANT_H
#define CONTESTANT_H

#include <stddef.h>
#include <stdint.h>

struct contestant {
    const char *name;
    /* Writes IV, ciphertext, tag. */
    void (*seal)(const uint8_t *key, const uint8_t *iv, const uint8_t *message, size_t length, uint8_t *sealed);
    /* Writes the message, or zeros where the tag differs or the padding is wrong; gives the message's length, or 0. */
    size_t (*open)(const uint8_t *key, const uint8_t *sealed, size_t length, uint8_t *message);
    /* Writes the run record of a ciphertext from block 0 on. */
    void (*check)(const uint8_t *key, const uint8_t *iv, const uint8_t *ciphertext, size_t length, uint8_t *record);
    /* AES of each block by itself. */
    void (*encrypt)(const uint8_t *key, const uint8_t *blocks, size_t length, uint8_t *out);
    void (*decrypt)(const uint8_t *key, const uint8_t *blocks, size_t length, uint8_t *out);
};

extern const struct contestant ours, bytes_o3, bytes_no_slp, words;

/* Fills the 32-bit tables; after make_sboxes. */
void make_word_tables(void);

#endif
