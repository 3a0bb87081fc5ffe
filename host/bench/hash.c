/* SHA-1 of the library beside SHA-1 in C, and the hash finish beside the cipher finish, one after the other in each round. A list
   costs one SHA-1 more with the hash finish, of 48 bytes, and one block of AES less; nothing of that goes by its length.

       hash ROUNDS
*/
#include "expect.h"
#include "finishes.h"
#include "input.h"
#include "sha1.h"
#include "timing.h"

#include <stdio.h>
#include <stdlib.h>
#include <string.h>

enum { LONG_TEXT = 64000, SHORT_TEXT = 48 };
enum { LONG, SHORT, SIZES };
enum { OURS, PLAIN, PLAIN_SCALAR, FIVE, FIVE_SCALAR, HASHES };
enum { SEAL, OPEN, TASKS };

static uint8_t list_key[16], list_iv[16], text[LONG_TEXT], out[LONG_TEXT + 36], run[BALZENOH_RUN_RECORD];
static uint8_t sealed[FINISHES][SIZES][LONG_TEXT + 36];
static size_t length;

static const size_t text_lengths[SIZES] = {LONG_TEXT, SHORT_TEXT}, blocks_of[SIZES] = {LONG_LIST, SHORT_LIST};

/* The best times, in nanoseconds a call. */
static struct {
    double hash[HASHES][SIZES], list[FINISHES][TASKS][SIZES], close[FINISHES];
} best;

/* ---- the pieces of work. No contestant does them; the number is that of bytes or blocks. */

static void digest_by_library(const struct contestant *none, size_t bytes) {
    (void)none;
    balzenoh_sha1(text, bytes, out, 20);
}

#define DIGEST_BY(name)                                                       \
    static void digest_by_##name(const struct contestant *none, size_t bytes) { \
        (void)none;                                                           \
        name##_sha1(text, bytes, out);                                        \
    }
DIGEST_BY(plain)
DIGEST_BY(plain_scalar)
DIGEST_BY(five)
DIGEST_BY(five_scalar)

static int size_of(size_t blocks) {
    return blocks == LONG_LIST ? LONG : SHORT;
}

static void seal_cipher(const struct contestant *none, size_t blocks) {
    (void)none;
    balzenoh_seal(list_key, 16, list_iv, 16, text, 16 * blocks - 1, out, 16 * blocks + around[CIPHER], &length);
}

static void seal_hash(const struct contestant *none, size_t blocks) {
    (void)none;
    balzenoh_seal_sha1(list_key, 16, list_iv, 16, text, 16 * blocks - 1, out, 16 * blocks + around[HASH], &length);
}

static void open_cipher(const struct contestant *none, size_t blocks) {
    (void)none;
    balzenoh_open(list_key, 16, sealed[CIPHER][size_of(blocks)], 16 * blocks + around[CIPHER], out, 16 * blocks, &length);
}

static void open_hash(const struct contestant *none, size_t blocks) {
    (void)none;
    balzenoh_open_sha1(list_key, 16, sealed[HASH][size_of(blocks)], 16 * blocks + around[HASH], out, 16 * blocks, &length);
}

static void close_cipher(const struct contestant *none, size_t blocks) {
    (void)none, (void)blocks;
    balzenoh_close(list_key, 16, list_iv, 16, run, sizeof run, out, BALZENOH_TAG);
}

static void close_hash(const struct contestant *none, size_t blocks) {
    (void)none, (void)blocks;
    balzenoh_close_sha1(list_key, 16, list_iv, 16, run, sizeof run, out, BALZENOH_TAG_SHA1);
}

static work *const digests[HASHES] = {digest_by_library, digest_by_plain, digest_by_plain_scalar, digest_by_five, digest_by_five_scalar};
static work *const tasks[FINISHES][TASKS] = {{seal_cipher, open_cipher}, {seal_hash, open_hash}};
static work *const closings[FINISHES] = {close_cipher, close_hash};

/* ---- what is worked on, and whether all results are right */

static void prepare_input(void) {
    fill(text, sizeof text);
    for (size_t i = 0; i < 16; i++) {
        list_key[i] = (uint8_t)i;
        list_iv[i] = text[7 * i];
    }
}

/* Each finish seals both lists, and they open; the record of the short one is closed below. */
static void seal_lists(void) {
    for (int finish = 0; finish < FINISHES; finish++)
        for (int size = 0; size < SIZES; size++) {
            size_t blocks = blocks_of[size];
            tasks[finish][SEAL](NULL, blocks);
            must(length == 16 * blocks + around[finish], "a list is not sealed");
            memcpy(sealed[finish][size], out, length);
            tasks[finish][OPEN](NULL, blocks);
            must(length == 16 * blocks - 1 && memcmp(out, text, length) == 0, "a list is not opened");
        }
    balzenoh_check_run(list_key, 16, list_iv, 16, 0, sealed[CIPHER][SHORT] + 16, 16 * SHORT_LIST, run, sizeof run);
}

static void compare_digests(size_t bytes) {
    uint8_t first[20];
    for (int who = 0; who < HASHES; who++) {
        digests[who](NULL, bytes);
        if (who == OURS)
            memcpy(first, out, 20);
        must(memcmp(first, out, 20) == 0, "the digests differ");
    }
}

/* ---- the times */

static void measure_round(void) {
    for (int size = 0; size < SIZES; size++) {
        int turns = size == LONG ? 1 : 100;
        for (int who = 0; who < HASHES; who++)
            measure(&best.hash[who][size], turns, digests[who], NULL, text_lengths[size]);
        for (int task = 0; task < TASKS; task++)
            for (int finish = 0; finish < FINISHES; finish++)
                measure(&best.list[finish][task][size], turns, tasks[finish][task], NULL, blocks_of[size]);
    }
    for (int finish = 0; finish < FINISHES; finish++)
        measure(&best.close[finish], 100, closings[finish], NULL, SHORT_LIST);
}

/* How many times as fast as the faster build of the C from `who` on the library is. */
static double ratio(int who, int size) {
    double one = best.hash[who][size], other = best.hash[who + 1][size];
    return (one < other ? one : other) / best.hash[OURS][size];
}

static void print_digests(void) {
    static const char *const names[HASHES] = {"Balzenoh", "plain C", "  no vectorizer", "five steps at a time", "  no vectorizer"};
    printf("%-26s%14s%14s%10s\n", "SHA-1, ns a text", "64000 bytes", "48 bytes", "MB/s");
    for (int who = 0; who < HASHES; who++)
        printf("  %-24s%14.0f%14.0f%10.1f\n", names[who], best.hash[who][LONG], best.hash[who][SHORT],
               1e3 * LONG_TEXT / best.hash[who][LONG]);
    printf("  %-24s%14.3f%14.3f\n", "to plain C", ratio(PLAIN, LONG), ratio(PLAIN, SHORT));
    printf("  %-24s%14.3f%14.3f\n", "to five steps at a time", ratio(FIVE, LONG), ratio(FIVE, SHORT));
}

static void print_finishes(void) {
    static const char *const names[FINISHES] = {"cipher finish", "hash finish"};
    printf("%-26s%14s%14s%14s%14s%10s\n", "lists, ns a call", "seal, 64000", "open, 64000", "seal, 64", "open, 64", "close");
    for (int finish = 0; finish < FINISHES; finish++)
        printf("  %-24s%14.0f%14.0f%14.0f%14.0f%10.0f\n", names[finish], best.list[finish][SEAL][LONG], best.list[finish][OPEN][LONG],
               best.list[finish][SEAL][SHORT], best.list[finish][OPEN][SHORT], best.close[finish]);
    printf("  %-24s", "difference");
    for (int size = 0; size < SIZES; size++)
        for (int task = 0; task < TASKS; task++)
            printf("%14.0f", best.list[HASH][task][size] - best.list[CIPHER][task][size]);
    printf("%10.0f\n", best.close[HASH] - best.close[CIPHER]);
}

static void print_expectations(void) {
    printf("expected\n");
    expect("SHA-1, 64000 bytes, to plain C", ratio(PLAIN, LONG), 0.9);
    expect("SHA-1, 48 bytes, to plain C", ratio(PLAIN, SHORT), 0.9);
    /* One SHA-1 of 48 bytes more, and nothing for a block. */
    expect_ns_at_most("seal, 64 bytes, hash finish less cipher finish, ns", best.list[HASH][SEAL][SHORT] - best.list[CIPHER][SEAL][SHORT],
                      best.hash[OURS][SHORT]);
    expect_at_most("seal, 64000 bytes, hash finish over cipher finish", best.list[HASH][SEAL][LONG] / best.list[CIPHER][SEAL][LONG], 1.01);
}

int main(int count, char **arguments) {
    if (count != 2) {
        fprintf(stderr, "usage: hash ROUNDS\n");
        return 2;
    }
    prepare_input();
    seal_lists();
    for (size_t bytes = 0; bytes <= 200; bytes++)
        compare_digests(bytes);
    compare_digests(LONG_TEXT);
    for (int round = atoi(arguments[1]); round > 0; round--)
        measure_round();
    print_digests();
    print_finishes();
    print_expectations();
    return 0;
}
