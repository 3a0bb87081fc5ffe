/* The records of a whole list's runs joined: as a list, pair by pair from the left, and by single steps in C. */
#include "balzenoh.h"
#include "block.h"
#include "work.h"

#include <string.h>

const struct shape shapes[SHAPES] = {
    [EQUAL_4] = {"1000 of 4 blocks", 1000, {4, 4}},
    [EQUAL_1] = {"1000 of 1 block", 1000, {1, 1}},
    [IN_TURN] = {"1000 of 4 and 3 in turn", 1000, {4, 3}},
    [EQUAL_200] = {"20 of 200 blocks", 20, {200, 200}},
    [EQUAL_500] = {"8 of 500 blocks", 8, {500, 500}},
    [TWO_OF_4] = {"2 of 4 blocks", 2, {4, 4}},
    [TWO_OF_2000] = {"2 of 2000 blocks", 2, {2000, 2000}},
};

typedef uint8_t record[BALZENOH_RUN_RECORD];

static record records[SHAPES][MOST_RECORDS], joined;

static void join_as_list(const struct contestant *who, size_t shape) {
    (void)who;
    balzenoh_join_list(records[shape][0], shapes[shape].records * sizeof(record), joined, sizeof joined);
}

static void join_pair_by_pair(const struct contestant *who, size_t shape) {
    (void)who;
    record both;
    memcpy(joined, records[shape][0], sizeof joined);
    for (size_t i = 1; i < shapes[shape].records; i++) {
        balzenoh_join(joined, sizeof joined, records[shape][i], sizeof(record), both, sizeof both);
        memcpy(joined, both, sizeof joined);
    }
}

/* The pre-authenticator so far goes one step on for each block of the record that comes. A record's first word has its first block in the
   upper half and its count in the lower. */
static void join_by_steps(const struct contestant *who, size_t shape) {
    (void)who;
    uint64_t run = load_word(records[shape][0]);
    block pre = load_block(records[shape][0] + 8);
    for (size_t i = 1; i < shapes[shape].records; i++) {
        uint32_t count = (uint32_t)load_word(records[shape][i]);
        for (uint32_t step = 0; step < count; step++)
            pre = times_x(pre);
        pre = add(pre, load_block(records[shape][i] + 8));
        run += count;
    }
    store_word(joined, run);
    store_block(joined + 8, pre);
}

work *const joins[JOINS] = {join_as_list, join_pair_by_pair, join_by_steps};

/* ---- the records: from block 0 on, each where the last one ends; their pre-authenticators are bytes of the message */

static void make_records(int shape) {
    uint64_t first = 0;
    for (size_t i = 0; i < shapes[shape].records; i++) {
        uint64_t count = shapes[shape].counts[i % 2];
        store_word(records[shape][i], first << 32 | count);
        memcpy(records[shape][i] + 8, message + 16 * i, 16);
        first += count;
    }
}

/* ---- the results */

void compare_joins(void) {
    record first;
    for (int shape = 0; shape < SHAPES; shape++) {
        make_records(shape);
        for (int way = 0; way < JOINS; way++) {
            memset(joined, 0xa5, sizeof joined);
            joins[way](NULL, (size_t)shape);
            if (way == AS_LIST)
                memcpy(first, joined, sizeof first);
            else if (memcmp(first, joined, sizeof first) != 0)
                differs("joins", shapes[shape].name);
        }
    }
}
