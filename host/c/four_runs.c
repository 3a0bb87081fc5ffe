/* A list sealed in four runs, out of order, each straight into its place in one buffer. Joined and closed, the runs are the sealed record
   that balzenoh_seal gives in one piece; closed with the hash finish, that of balzenoh_seal_sha1. */
#include "balzenoh.h"

#include <stdio.h>
#include <stdlib.h>
#include <string.h>

enum { MESSAGE = 1000, RUNS = 4, RUN_BLOCKS = 16, RUN_BYTES = RUN_BLOCKS * BALZENOH_BLOCK };

static const uint8_t key[16] = {0, 1, 2, 3, 4, 5, 6, 7, 8, 9, 10, 11, 12, 13, 14, 15};
static const uint8_t iv[16] = {0x01, 0x23, 0x45, 0x67, 0x89, 0xab, 0xcd, 0xef, 0x01, 0x23, 0x45, 0x67, 0x89, 0xab, 0xcd, 0xef};

static uint8_t message[MESSAGE];
static uint8_t sealed[BALZENOH_SEALED_LENGTH(MESSAGE)];
static uint8_t records[RUNS][BALZENOH_RUN_RECORD];

static void must(int holds, const char *what) {
    if (!holds) {
        printf("failed: %s\n", what);
        exit(1);
    }
    printf("%s\n", what);
}

/* Where the ciphertext ends and the tag starts. */
static size_t tag_place(void) {
    return BALZENOH_BLOCK + BALZENOH_PADDED_LENGTH(MESSAGE);
}

/* Each run has 16 blocks, and the last one what is left, with the padding. */
static uint8_t seal_run(int number) {
    size_t start = (size_t)number * RUN_BYTES, length;
    uint8_t last = number == RUNS - 1;
    size_t bytes = last ? MESSAGE - start : (size_t)RUN_BYTES;
    return balzenoh_seal_run(key, sizeof key, iv, sizeof iv, (uint32_t)(number * RUN_BLOCKS), last, message + start, bytes,
                             sealed + BALZENOH_BLOCK + start, BALZENOH_RUN_LENGTH(bytes, last), &length,
                             records[number], sizeof records[number]);
}

/* Any order will do: the records know their places. */
static int seal_runs(void) {
    return seal_run(2) == 0 && seal_run(0) == 0 && seal_run(3) == 0 && seal_run(1) == 0;
}

/* The first two as a pair, then what that gives and the other two as a list. */
static int join_runs(uint8_t whole[BALZENOH_RUN_RECORD]) {
    uint8_t list[3][BALZENOH_RUN_RECORD];
    memcpy(list[1], records[2], 2 * BALZENOH_RUN_RECORD);
    return balzenoh_join(records[0], BALZENOH_RUN_RECORD, records[1], BALZENOH_RUN_RECORD, list[0], BALZENOH_RUN_RECORD) == 0
        && balzenoh_join_list(list[0], sizeof list, whole, BALZENOH_RUN_RECORD) == 0;
}

/* The IV before the ciphertext, the tag after it. */
static int lay_out(const uint8_t whole[BALZENOH_RUN_RECORD]) {
    memcpy(sealed, iv, sizeof iv);
    return balzenoh_close(key, sizeof key, iv, sizeof iv, whole, BALZENOH_RUN_RECORD, sealed + tag_place(), BALZENOH_TAG) == 0;
}

static int same_as_in_one_piece(void) {
    uint8_t piece[sizeof sealed];
    size_t length;
    return balzenoh_seal(key, sizeof key, iv, sizeof iv, message, sizeof message, piece, sizeof piece, &length) == 0
        && length == sizeof sealed && memcmp(piece, sealed, sizeof sealed) == 0;
}

/* The runs and their record do not know the finish: the ciphertext stays, and the tag of 20 bytes comes after it. */
static int same_with_the_hash_finish(const uint8_t whole[BALZENOH_RUN_RECORD]) {
    uint8_t hashed[BALZENOH_SEALED_LENGTH_SHA1(MESSAGE)], piece[BALZENOH_SEALED_LENGTH_SHA1(MESSAGE)];
    size_t length;
    memcpy(hashed, sealed, tag_place());
    return balzenoh_close_sha1(key, sizeof key, iv, sizeof iv, whole, BALZENOH_RUN_RECORD, hashed + tag_place(), BALZENOH_TAG_SHA1) == 0
        && balzenoh_seal_sha1(key, sizeof key, iv, sizeof iv, message, sizeof message, piece, sizeof piece, &length) == 0
        && length == sizeof hashed && memcmp(piece, hashed, sizeof hashed) == 0;
}

/* The message's length is known here, and no more is lent. */
static int opens_to_the_message(void) {
    uint8_t opened[MESSAGE];
    size_t length;
    return balzenoh_open(key, sizeof key, sealed, sizeof sealed, opened, sizeof opened, &length) == 0
        && length == MESSAGE && memcmp(opened, message, MESSAGE) == 0;
}

static int is_refused_with_zeros(void) {
    uint8_t opened[BALZENOH_PADDED_LENGTH(MESSAGE)], any = 0;
    size_t length = 1;
    memset(opened, 0xff, sizeof opened);
    uint8_t refusal = balzenoh_open(key, sizeof key, sealed, sizeof sealed, opened, sizeof opened, &length);
    for (size_t i = 0; i < sizeof opened; i++)
        any |= opened[i];
    return refusal == BALZENOH_TAG_DIFFERS && length == 0 && any == 0;
}

int main(void) {
    uint8_t whole[BALZENOH_RUN_RECORD];
    for (int i = 0; i < MESSAGE; i++)
        message[i] = (uint8_t)("Route 7, cage 12. "[i % 18]);
    must(seal_runs(), "four runs sealed, in the order 2, 0, 3, 1");
    must(join_runs(whole), "records joined: a pair, then a list of three");
    must(lay_out(whole), "closed, and laid out as IV, ciphertext, tag");
    must(same_as_in_one_piece(), "the same bytes as balzenoh_seal gives");
    must(same_with_the_hash_finish(whole), "the same record closed with the hash finish: the same bytes as balzenoh_seal_sha1 gives");
    must(opens_to_the_message(), "opened: the message is back");
    sealed[tag_place() - 1] ^= 1;
    must(is_refused_with_zeros(), "one bit flipped: refusal 6, and the output is all zeros");
    return 0;
}
