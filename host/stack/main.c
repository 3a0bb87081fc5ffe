/* Prints the stack that each call was seen to use: the deepest over lists of 1 to 4,000 blocks and of 1,048,576, under a key and under a key of
   zeros, whose start mask is looked at before all work, each of 16 bytes and of 32. */
#include "balzenoh.h"
#include "paint.h"

#include <stdio.h>

static const struct {
    uint8_t bytes[32];
    size_t length;
} keys[] = {{{1, 2, 3}, 16}, {{0}, 16}, {{1, 2, 3}, 32}, {{0}, 32}};
static const uint8_t iv[16] = {4, 5, 6}, *key;
static size_t key_length;
static uint8_t message[BALZENOH_LONGEST_MESSAGE], sealed[BALZENOH_LONGEST_SEALED_SHA1], out[BALZENOH_LONGEST_SEALED_SHA1];
static uint8_t records[3][BALZENOH_RUN_RECORD], run[BALZENOH_RUN_RECORD], tag[BALZENOH_TAG], tag_sha1[BALZENOH_TAG_SHA1], mask[16] = {7, 8, 9};
static uint8_t answer;
static size_t length;
/* The number of blocks: of the list, of the run at its end, of the right record, of the jump; of 16 bytes, less one, of the text for SHA-1,
   as far as it takes that. */
static uint32_t blocks;

/* What a call works on is made before it is measured. A record of blocks `first` to `end`, with any pre-authenticator: */
static void make_record(uint32_t first, uint32_t end, uint8_t *record) {
    for (int i = 0; i < 4; i++) {
        record[i] = (uint8_t)(first >> (24 - 8 * i));
        record[4 + i] = (uint8_t)((end - first) >> (24 - 8 * i));
    }
    for (int i = 8; i < BALZENOH_RUN_RECORD; i++)
        record[i] = (uint8_t)(37 * i + 11);
}

static void prepare_sealed(void) {
    answer |= balzenoh_seal(key, key_length, iv, 16, message, 16 * (size_t)blocks - 1, sealed, sizeof sealed, &length);
}

static void prepare_sealed_sha1(void) {
    answer |= balzenoh_seal_sha1(key, key_length, iv, 16, message, 16 * (size_t)blocks - 1, sealed, sizeof sealed, &length);
}

static void prepare_records(void) {
    make_record(0, BALZENOH_LIMIT - blocks, records[0]);
    make_record(BALZENOH_LIMIT - blocks, BALZENOH_LIMIT, records[1]);
    make_record(BALZENOH_LIMIT, BALZENOH_LIMIT, records[2]);
}

static void prepare_whole(void) {
    make_record(0, blocks, run);
    answer |= balzenoh_close(key, key_length, iv, 16, run, sizeof run, tag, sizeof tag);
    answer |= balzenoh_close_sha1(key, key_length, iv, 16, run, sizeof run, tag_sha1, sizeof tag_sha1);
}

static void prepare_nothing(void) {}

static void seal(void) {
    CALLER();
    answer |= balzenoh_seal(key, key_length, iv, 16, message, 16 * (size_t)blocks - 1, out, sizeof out, &length);
}

/* Lent the message's length, and more than enough: the deeper one counts. */
static void open(void) {
    CALLER();
    answer |= balzenoh_open(key, key_length, sealed, 16 * (size_t)blocks + 32, out, 16 * (size_t)blocks - 1, &length);
    answer |= balzenoh_open(key, key_length, sealed, 16 * (size_t)blocks + 32, out, sizeof out, &length);
}

static void seal_run(void) {
    CALLER();
    answer |= balzenoh_seal_run(key, key_length, iv, 16, BALZENOH_LIMIT - blocks, 1, message, 16 * (size_t)blocks - 1, out, sizeof out, &length,
                                run, sizeof run);
}

static void check_run(void) {
    CALLER();
    answer |= balzenoh_check_run(key, key_length, iv, 16, BALZENOH_LIMIT - blocks, sealed + 16, 16 * (size_t)blocks, run, sizeof run);
}

static void join(void) {
    CALLER();
    answer |= balzenoh_join(records[0], sizeof records[0], records[1], sizeof records[1], run, sizeof run);
}

static void join_list(void) {
    CALLER();
    answer |= balzenoh_join_list(records[0], sizeof records, run, sizeof run);
}

static void close(void) {
    CALLER();
    answer |= balzenoh_close(key, key_length, iv, 16, run, sizeof run, tag, sizeof tag);
}

static void test(void) {
    CALLER();
    answer |= balzenoh_test(key, key_length, iv, 16, run, sizeof run, tag, sizeof tag);
}

static void seal_sha1(void) {
    CALLER();
    answer |= balzenoh_seal_sha1(key, key_length, iv, 16, message, 16 * (size_t)blocks - 1, out, sizeof out, &length);
}

static void open_sha1(void) {
    CALLER();
    answer |= balzenoh_open_sha1(key, key_length, sealed, 16 * (size_t)blocks + 36, out, 16 * (size_t)blocks - 1, &length);
    answer |= balzenoh_open_sha1(key, key_length, sealed, 16 * (size_t)blocks + 36, out, sizeof out, &length);
}

static void close_sha1(void) {
    CALLER();
    answer |= balzenoh_close_sha1(key, key_length, iv, 16, run, sizeof run, tag_sha1, sizeof tag_sha1);
}

static void test_sha1(void) {
    CALLER();
    answer |= balzenoh_test_sha1(key, key_length, iv, 16, run, sizeof run, tag_sha1, sizeof tag_sha1);
}

static void sha1(void) {
    CALLER();
    size_t text = 16 * (size_t)blocks - 1;
    answer |= balzenoh_sha1(message, text < BALZENOH_LONGEST_TEXT ? text : BALZENOH_LONGEST_TEXT, out, sizeof out);
}

/* Forward and back: the deeper one counts. */
static void jump(void) {
    CALLER();
    answer |= balzenoh_jump(mask, sizeof mask, (int32_t)blocks, out, sizeof out);
    answer |= balzenoh_jump(mask, sizeof mask, -(int32_t)blocks, out, sizeof out);
}

static const struct {
    const char *name;
    void (*prepare)(void), (*call)(void);
} calls[] = {
    {"seal", prepare_nothing, seal},
    {"open", prepare_sealed, open},
    {"seal_run", prepare_nothing, seal_run},
    {"check_run", prepare_nothing, check_run},
    {"join", prepare_records, join},
    {"join_list", prepare_records, join_list},
    {"close", prepare_whole, close},
    {"test", prepare_whole, test},
    {"jump", prepare_nothing, jump},
    {"sha1", prepare_nothing, sha1},
    {"seal_sha1", prepare_nothing, seal_sha1},
    {"open_sha1", prepare_sealed_sha1, open_sha1},
    {"close_sha1", prepare_whole, close_sha1},
    {"test_sha1", prepare_whole, test_sha1},
};

/* Every number up to 64, then every 31st up to 4,000, and the last. */
static uint32_t next(uint32_t number) {
    if (number < 64)
        return number + 1;
    return number < 4000 || number == BALZENOH_LIMIT ? number + 31 : BALZENOH_LIMIT;
}

/* The most that a call was seen to use; 0 where that cannot be seen. */
static size_t deepest(size_t call) {
    size_t most = 0;
    for (size_t i = 0; i < sizeof keys / sizeof *keys; i++) {
        key = keys[i].bytes;
        key_length = keys[i].length;
        for (blocks = 1; blocks <= BALZENOH_LIMIT; blocks = next(blocks)) {
            calls[call].prepare();
            size_t used = stack_used(calls[call].call);
            if (used == 0)
                return 0;
            if (used > most)
                most = used;
        }
    }
    return most;
}

int main(void) {
    for (size_t call = 0; call < sizeof calls / sizeof *calls; call++) {
        size_t most = deepest(call);
        if (most == 0 || answer != 0) {
            fprintf(stderr, "%s: %s\n", calls[call].name, answer != 0 ? "a call was refused" : "the painted stack is too small");
            return 1;
        }
        printf("  %-10s %5zu\n", calls[call].name, most);
    }
    return 0;
}
