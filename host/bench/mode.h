/* Cipher-State mode over an engine, and the engine's cipher by itself. Included once by each engine, after it has defined
 *
 *     struct schedule                     what is made of the key
 *     make_schedule(&schedule, key)       for both directions
 *     encrypt_block(&schedule, b, &t)     encrypts b; t is its middletext
 *     decrypt_block(&schedule, c, &t)     decrypts c; t is its middletext
 *     middletext(&schedule, c)            the middletext alone, from the ciphertext
 *
 * so that the compiler sees mode and engine together. CONTESTANT is the name of what is defined here. */
#include "contestant.h"

#include <string.h>

static block start_mask(const struct schedule *s, block key, block iv) {
    block t;
    block mask = add(encrypt_block(s, add(iv, key), &t), key);
    return mask.upper | mask.lower ? mask : key;
}

static block tag_of(const struct schedule *s, block pre, block mask) {
    block t;
    return add(encrypt_block(s, add(pre, mask), &t), pre);
}

/* Step 2 over one block: enciphers it, takes its middletext into pre and moves the mask on. */
static inline block seal_block(const struct schedule *s, block b, block *mask, block *pre) {
    block t;
    block c = add(encrypt_block(s, add(b, *mask), &t), *mask);
    *pre = add(times_x(*pre), t);
    *mask = times_x(*mask);
    return c;
}

static inline block open_block(const struct schedule *s, block c, block *mask, block *pre) {
    block t;
    block b = add(decrypt_block(s, add(c, *mask), &t), *mask);
    *pre = add(times_x(*pre), t);
    *mask = times_x(*mask);
    return b;
}

static void seal(const uint8_t *key, const uint8_t *iv, const uint8_t *message, size_t length, uint8_t *sealed) {
    struct schedule s;
    make_schedule(&s, key);
    block mask = start_mask(&s, load_block(key), load_block(iv)), pre = {0, 0};
    size_t whole = length / 16 * 16;
    uint8_t *out = sealed + 16, last[16] = {0};
    for (size_t i = 0; i < whole; i += 16)
        store_block(out + i, seal_block(&s, load_block(message + i), &mask, &pre));
    memcpy(last, message + whole, length - whole);
    last[length - whole] = 0x80;
    store_block(out + whole, seal_block(&s, load_block(last), &mask, &pre));
    memcpy(sealed, iv, 16);
    store_block(out + whole + 16, tag_of(&s, pre, mask));
}

/* The length of a padded text without its padding, or its whole length where the last block is not padded. */
static size_t unpadded_length(const uint8_t *text, size_t length) {
    size_t end = length - 1;
    while (end > length - 16 && text[end] == 0)
        end--;
    return text[end] == 0x80 ? end : length;
}

static size_t open(const uint8_t *key, const uint8_t *sealed, size_t length, uint8_t *message) {
    struct schedule s;
    make_schedule(&s, key);
    block mask = start_mask(&s, load_block(key), load_block(sealed)), pre = {0, 0};
    size_t text = length - 32;
    for (size_t i = 0; i < text; i += 16)
        store_block(message + i, open_block(&s, load_block(sealed + 16 + i), &mask, &pre));
    block difference = add(tag_of(&s, pre, mask), load_block(sealed + 16 + text));
    size_t end = unpadded_length(message, text);
    if ((difference.upper | difference.lower) != 0 || end == text)
        end = 0;
    memset(message + end, 0, text - end);
    return end;
}

static void check(const uint8_t *key, const uint8_t *iv, const uint8_t *ciphertext, size_t length, uint8_t *record) {
    struct schedule s;
    make_schedule(&s, key);
    block mask = start_mask(&s, load_block(key), load_block(iv)), pre = {0, 0};
    for (size_t i = 0; i < length; i += 16) {
        pre = add(times_x(pre), middletext(&s, add(load_block(ciphertext + i), mask)));
        mask = times_x(mask);
    }
    store_word(record, length / 16);
    store_block(record + 8, pre);
}

static void encrypt(const uint8_t *key, const uint8_t *blocks, size_t length, uint8_t *out) {
    struct schedule s;
    block t;
    make_schedule(&s, key);
    for (size_t i = 0; i < length; i += 16)
        store_block(out + i, encrypt_block(&s, load_block(blocks + i), &t));
}

static void decrypt(const uint8_t *key, const uint8_t *blocks, size_t length, uint8_t *out) {
    struct schedule s;
    block t;
    make_schedule(&s, key);
    for (size_t i = 0; i < length; i += 16)
        store_block(out + i, decrypt_block(&s, load_block(blocks + i), &t));
}

const struct contestant CONTESTANT = {NAME, seal, open, check, encrypt, decrypt};
