/* The proved library as a contestant. The bare cipher is in an archive of its own. Compiled with other names for the functions and
   with CONTESTANT and NAME set, it is another build of the library; with KEY_LENGTH too, the library under a key of so many bytes. */
#include "balzenoh.h"
#include "contestant.h"

#ifndef KEY_LENGTH
#define KEY_LENGTH 16
#endif

uint8_t aes_blocks_encrypt(const uint8_t *key, size_t key_len, const uint8_t *blocks, size_t blocks_len, uint8_t *out, size_t out_len);
uint8_t aes_blocks_decrypt(const uint8_t *key, size_t key_len, const uint8_t *blocks, size_t blocks_len, uint8_t *out, size_t out_len);

static void seal(const uint8_t *key, const uint8_t *iv, const uint8_t *message, size_t length, uint8_t *sealed) {
    size_t sealed_length;
    balzenoh_seal(key, KEY_LENGTH, iv, 16, message, length, sealed, BALZENOH_SEALED_LENGTH(length), &sealed_length);
}

static size_t open(const uint8_t *key, const uint8_t *sealed, size_t length, uint8_t *message) {
    size_t message_length;
    balzenoh_open(key, KEY_LENGTH, sealed, length, message, length - 32, &message_length);
    return message_length;
}

static void check(const uint8_t *key, const uint8_t *iv, const uint8_t *ciphertext, size_t length, uint8_t *record) {
    balzenoh_check_run(key, KEY_LENGTH, iv, 16, 0, ciphertext, length, record, BALZENOH_RUN_RECORD);
}

static void encrypt(const uint8_t *key, const uint8_t *blocks, size_t length, uint8_t *out) {
    aes_blocks_encrypt(key, KEY_LENGTH, blocks, length, out, length);
}

static void decrypt(const uint8_t *key, const uint8_t *blocks, size_t length, uint8_t *out) {
    aes_blocks_decrypt(key, KEY_LENGTH, blocks, length, out, length);
}

#ifndef CONTESTANT
#define CONTESTANT ours
#define NAME "Balzenoh"
#endif
const struct contestant CONTESTANT = {NAME, seal, open, check, encrypt, decrypt};
