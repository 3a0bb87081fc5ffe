/* AES-128 and AES-256 as FIPS 197 writes them down, for the reference: slow, plain, and unlike the library in their method. */
#ifndef AES_H
#define AES_H

#include <stddef.h>
#include <stdint.h>

/* The number of rounds, how many of them are the first half, and the round keys, as states: [round][row][column]. */
typedef struct {
    int rounds, half;
    uint8_t key[15][4][4];
} aes_keys;

/* Works the S-box out; to be called once, before all else. */
void aes_start(void);

uint8_t aes_sub_byte(uint8_t byte);

/* Under a key of 16 bytes ten rounds, under one of 32 fourteen. */
void aes_expand(aes_keys *keys, const uint8_t *key, size_t key_len);

/* The first half of the rounds after the key whitening, and the other half; each forwards, and backwards. In place. */
void aes_first_half(const aes_keys *keys, uint8_t block[16]);
void aes_second_half(const aes_keys *keys, uint8_t block[16]);
void aes_first_half_back(const aes_keys *keys, uint8_t block[16]);
void aes_second_half_back(const aes_keys *keys, uint8_t block[16]);

#endif
