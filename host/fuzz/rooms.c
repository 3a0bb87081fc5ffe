/* Opening into outputs of every size, by the library and by the reference: messages of 0 to 130 bytes and of nearly 4,000 blocks, by both finishes
   and under keys of both lengths; genuine records, damaged ones, and some that are not padded. */
#include "both.h"

#include <stdio.h>
#include <stdlib.h>
#include <string.h>

enum { SHORT = 130, BLOCKS = 4000 };

static uint8_t key[32], iv[16], message[16 * BLOCKS], text[16 * BLOCKS], sealed[16 * BLOCKS + 36];
static unsigned long calls[8];

/* How the list at hand is sealed. */
static enum finish by;
static size_t key_len, message_len, text_len, sealed_len;

/* Opens what is sealed into an output of this size, which must be refused with this number, or opened where it is 0. */
static void open_into(size_t room, uint8_t number) {
    slice k = {key, key_len}, s = {sealed, sealed_len};
    if (both_open(by, k, s, room) != number) {
        fprintf(stderr, "a message of %zu bytes and an output of %zu: not %d\n", message_len, room, number);
        exit(1);
    }
    calls[number]++;
}

/* In a genuine record, an output that is too short for the message gets 5; in any other it does not matter. */
static void open_into_about(size_t room, uint8_t number) {
    for (size_t i = room == 0 ? 0 : room - 1; i <= room + 1; i++)
        open_into(i, number == 0 && i < message_len ? 5 : number);
}

/* None, about the message's length, and about the ciphertext's; a short genuine record into outputs of every size. */
static void open_into_all(uint8_t number) {
    open_into_about(0, number);
    open_into_about(message_len, number);
    open_into_about(text_len, number);
    for (size_t room = 0; number == 0 && message_len <= SHORT && room <= text_len + 40; room++)
        open_into(room, room < message_len ? 5 : 0);
}

/* The message with this byte where the padding starts. */
static void seal_with(uint8_t end) {
    memset(text, 0, text_len);
    memcpy(text, message, message_len);
    text[message_len] = end;
    reference_seal_text(by, key, key_len, iv, text, text_len / 16, sealed);
}

/* Damage is in the tag, or in the ciphertext; a record that is not padded may be damaged too. */
static void open_all(void) {
    seal_with(0x80);
    open_into_all(0);
    sealed[sealed_len - 1] ^= 1;
    open_into_all(6);
    seal_with(0x80);
    sealed[16 + message_len] ^= 0x10;
    open_into_all(6);
    seal_with(0x81);
    open_into_all(7);
    sealed[16] ^= 0x80;
    open_into_all(6);
}

static void open_lists(size_t len) {
    message_len = len;
    text_len = 16 * (len / 16 + 1);
    for (by = BY_CIPHER; by < FINISHES; by++)
        for (key_len = 16; key_len <= 32; key_len += 16) {
            sealed_len = text_len + reference_around(by);
            open_all();
        }
}

static void fill(uint8_t *bytes, size_t len, uint32_t state) {
    for (size_t i = 0; i < len; i++) {
        state = 1664525 * state + 1013904223;
        bytes[i] = (uint8_t)(state >> 24);
    }
}

int main(void) {
    reference_start();
    guard_start();
    fill(key, sizeof key, 1);
    fill(iv, sizeof iv, 2);
    fill(message, sizeof message, 3);
    for (size_t len = 0; len <= SHORT; len++)
        open_lists(len);
    open_lists(63983);
    open_lists(63984);
    open_lists(63999);
    printf("opened %lu, refused with 6 %lu, with 7 %lu, with 5 %lu: no difference\n", calls[0], calls[6], calls[7], calls[5]);
    return 0;
}
