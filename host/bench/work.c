#include "work.h"

#include "input.h"

#include <stdio.h>
#include <stdlib.h>
#include <string.h>

uint8_t key[32], iv[16], message[16 * LONG_LIST], output[16 * LONG_LIST + 32];
static const uint8_t zeros[32];
static uint8_t sealed_long[16 * LONG_LIST + 32], sealed_short[16 * SHORT_LIST + 32], sealed_zeros[16 * SHORT_LIST + 32];

const uint8_t *sealed_record(size_t blocks) {
    return blocks == LONG_LIST ? sealed_long : sealed_short;
}

void prepare(void) {
    fill(message, sizeof message);
    for (size_t i = 0; i < sizeof key; i++)
        key[i] = (uint8_t)i;
    for (size_t i = 0; i < sizeof iv; i++)
        iv[i] = message[7 * i];
    seal_records(&ours);
}

void seal_records(const struct contestant *who) {
    who->seal(key, iv, message, 16 * LONG_LIST - 1, sealed_long);
    who->seal(key, iv, message, 16 * SHORT_LIST - 1, sealed_short);
    who->seal(zeros, iv, message, 16 * SHORT_LIST - 1, sealed_zeros);
}

void seal_list(const struct contestant *who, size_t blocks) {
    who->seal(key, iv, message, 16 * blocks - 1, output);
}

void open_list(const struct contestant *who, size_t blocks) {
    who->open(key, sealed_record(blocks), 16 * blocks + 32, output);
}

void check_list(const struct contestant *who, size_t blocks) {
    who->check(key, iv, sealed_record(blocks) + 16, 16 * blocks, output);
}

void seal_under_zeros(const struct contestant *who, size_t blocks) {
    who->seal(zeros, iv, message, 16 * blocks - 1, output);
}

void open_under_zeros(const struct contestant *who, size_t blocks) {
    who->open(zeros, sealed_zeros, 16 * blocks + 32, output);
}

void check_under_zeros(const struct contestant *who, size_t blocks) {
    who->check(zeros, iv, sealed_zeros + 16, 16 * blocks, output);
}

void encrypt_blocks(const struct contestant *who, size_t blocks) {
    who->encrypt(key, message, 16 * blocks, output);
}

void decrypt_blocks(const struct contestant *who, size_t blocks) {
    who->decrypt(key, message, 16 * blocks, output);
}

void differs(const char *what, const char *who) {
    fprintf(stderr, "the results differ: %s, %s\n", what, who);
    exit(1);
}

/* Does the work with every contestant on noise, and holds the whole output to the first one's. */
static void compare(const char *what, work *do_it, size_t blocks, const struct contestant *const *contestants, int count) {
    static uint8_t first[sizeof output];
    for (int i = 0; i < count; i++) {
        memset(output, 0xa5, sizeof output);
        do_it(contestants[i], blocks);
        if (i == 0)
            memcpy(first, output, sizeof output);
        else if (memcmp(first, output, sizeof output) != 0)
            differs(what, contestants[i]->name);
    }
}

void compare_results(const struct contestant *const *contestants, int count) {
    for (size_t blocks = SHORT_LIST; blocks <= LONG_LIST; blocks += LONG_LIST - SHORT_LIST) {
        compare("seal", seal_list, blocks, contestants, count);
        compare("open", open_list, blocks, contestants, count);
        compare("check", check_list, blocks, contestants, count);
        compare("AES encrypt", encrypt_blocks, blocks, contestants, count);
        compare("AES decrypt", decrypt_blocks, blocks, contestants, count);
    }
    compare("seal under zeros", seal_under_zeros, SHORT_LIST, contestants, count);
    compare("open under zeros", open_under_zeros, SHORT_LIST, contestants, count);
    compare("check under zeros", check_under_zeros, SHORT_LIST, contestants, count);
    open_list(contestants[0], LONG_LIST);
    if (memcmp(output, message, 16 * LONG_LIST - 1) != 0)
        differs("the opened list", "the message");
}
