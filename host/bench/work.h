/* The pieces of work that are timed. Each takes its input from the same buffers, whoever does it. */
#ifndef WORK_H
#define WORK_H

#include "contestant.h"

enum { LONG_LIST = 4000, SHORT_LIST = 4, LISTS = 8 };

/* A piece of work on a list of so many blocks. */
typedef void work(const struct contestant *who, size_t blocks);

work seal_list, open_list, check_list, encrypt_blocks, decrypt_blocks;

/* The first three on a short list, under the key of zeros, whose start mask the library looks at before all work. */
work seal_under_zeros, open_under_zeros, check_under_zeros;

/* The ways to take a mask over so many blocks, forward and back: a jump by the library, or as many single steps in C. Forward a step is a
   multiplication by the polynomial's variable, back a division; `who` is not used. */
enum { FORWARD, BACK, DIRECTIONS };
enum { JUMP, STEPS_BY_BYTES, STEPS_BY_WORDS, WAYS };
extern work *const ways[DIRECTIONS][WAYS];

/* The ways to join the records of a list's runs: by the library in one call or a pair at a time, or by single steps in C, by 64-bit words.
   Each is given the shape in the place of the blocks; `who` is not used. */
enum { AS_LIST, PAIR_BY_PAIR, BY_STEPS, JOINS };
extern work *const joins[JOINS];

/* How a list is cut into runs: so many records, whose counts of blocks are these two in turn. */
struct shape {
    const char *name;
    size_t records, counts[2];
};
enum { EQUAL_4, EQUAL_1, IN_TURN, EQUAL_200, EQUAL_500, LIST_SHAPES, TWO_OF_4 = LIST_SHAPES, TWO_OF_2000, SHAPES };
enum { MOST_RECORDS = 1000 };
extern const struct shape shapes[SHAPES];

/* So many long lists sealed in two runs each, by one thread or by two; `who` is not used. */
work seal_on_one_thread, seal_on_two_threads;

/* One long list sealed in two runs, with a second thread that runs from start_helper to stop_helper and waits for work. */
work seal_with_helper;
void start_helper(void);
void stop_helper(void);

/* The input: a key, an IV and a message, from which the library makes the sealed record of each length. A contestant with a short key takes
   the first 16 bytes of the key. */
void prepare(void);

/* Makes the sealed records anew, under the key as this contestant takes it. */
void seal_records(const struct contestant *who);

extern uint8_t key[32], iv[16], message[16 * LONG_LIST];

/* The sealed record of the first 16 * blocks - 1 bytes of the message. */
const uint8_t *sealed_record(size_t blocks);

/* What the last piece of work wrote, which the next one writes over. */
extern uint8_t output[16 * LONG_LIST + 32];

/* Stops the program where the contestants' results differ, or the runs' from the whole list's. compare_joins makes its records first. */
void compare_results(const struct contestant *const *contestants, int count);
void compare_jumps(void);
void compare_joins(void);
void compare_threads(void);

/* Says what differs, and stops the program. */
void differs(const char *what, const char *who);

#endif
