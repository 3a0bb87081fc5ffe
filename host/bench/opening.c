/* Opening by two builds of the library, one after the other in each round: `before` goes over the ciphertext once, and is lent as much as there is
   ciphertext; `now` goes over it twice, and is lent that or the message's length. Checking a run stands beside them: it is one pass that deciphers
   half of each block, which is what the first of two passes does.

       opening ROUNDS
*/
#include "build.h"
#include "input.h"
#include "timing.h"

#include <stdio.h>
#include <stdlib.h>
#include <string.h>

extern const struct build build_1, build_2;

enum { SIZES = 4 };
static const size_t blocks_of[SIZES] = {4, 32, 256, LONG_LIST};
static const char *const finishes[FINISHES] = {"cipher finish", "hash finish"};

enum { BEFORE, NOW, NOW_EXACT, REFUSED_BEFORE, REFUSED_NOW, CHECK, TASKS, OPENED = REFUSED_BEFORE };
static const char *const names[TASKS] = {"before", "now", "now, lent the message's length",
                                         "before, tag wrong", "now, tag wrong", "checking a run, now"};
static double best[FINISHES][TASKS][SIZES];

/* The records are genuine, or have a wrong tag. */
typedef uint8_t records[FINISHES][SIZES][16 * LONG_LIST + 36];
static records sealed, damaged;
static uint8_t list_key[16], list_iv[16], list[16 * LONG_LIST], out[16 * LONG_LIST];

/* What the pieces of work work on, and the refusal and the length that opening gave. */
static int finish, size;
static uint8_t refusal;
static size_t length;

/* ---- the pieces of work. No contestant does them. */

static void open_into(const struct build *build, records from, size_t blocks, size_t room) {
    refusal = build->open[finish](list_key, sizeof list_key, from[finish][size], 16 * blocks + around[finish], out, room, &length);
}

static void open_before(const struct contestant *none, size_t blocks) {
    (void)none;
    open_into(&build_1, sealed, blocks, 16 * blocks);
}

static void open_now(const struct contestant *none, size_t blocks) {
    (void)none;
    open_into(&build_2, sealed, blocks, 16 * blocks);
}

static void open_exactly(const struct contestant *none, size_t blocks) {
    (void)none;
    open_into(&build_2, sealed, blocks, 16 * blocks - 1);
}

static void refuse_before(const struct contestant *none, size_t blocks) {
    (void)none;
    open_into(&build_1, damaged, blocks, 16 * blocks);
}

static void refuse_now(const struct contestant *none, size_t blocks) {
    (void)none;
    open_into(&build_2, damaged, blocks, 16 * blocks);
}

static void check(const struct contestant *none, size_t blocks) {
    (void)none;
    build_2.check_run(list_key, sizeof list_key, list_iv, sizeof list_iv, 0, sealed[finish][size] + 16, 16 * blocks, out, BALZENOH_RUN_RECORD);
}

static work *const tasks[TASKS] = {open_before, open_now, open_exactly, refuse_before, refuse_now, check};

/* ---- what is worked on, and whether all results are right */

/* The list of this size by this finish: 16 bytes for each block, less one. */
static void seal_list_at_hand(void) {
    size_t blocks = blocks_of[size];
    build_1.seal[finish](list_key, sizeof list_key, list_iv, sizeof list_iv, list, 16 * blocks - 1,
                         sealed[finish][size], sizeof sealed[finish][size], &length);
    must(length == 16 * blocks + around[finish], "a list is not sealed");
    memcpy(damaged[finish][size], sealed[finish][size], length);
    damaged[finish][size][length - 1] ^= 1;
    for (int task = BEFORE; task < CHECK; task++) {
        memset(out, 0xa5, sizeof out);
        tasks[task](NULL, blocks);
        must(task < OPENED ? refusal == 0 && length == 16 * blocks - 1 && memcmp(out, list, length) == 0 : refusal == 6,
             "a list is not opened, or a wrong tag not refused");
    }
}

/* ---- the times */

static void for_each_list(void (*act)(void)) {
    for (finish = 0; finish < FINISHES; finish++)
        for (size = 0; size < SIZES; size++)
            act();
}

/* As many turns as make some hundreds of blocks. */
static void measure_list_at_hand(void) {
    size_t blocks = blocks_of[size];
    int turns = blocks < 400 ? (int)(400 / blocks) : 1;
    for (int task = 0; task < TASKS; task++)
        measure(&best[finish][task][size], turns, tasks[task], NULL, blocks);
}

static void print_row(const char *name, int decimals, const double *figures) {
    printf("  %-32s", name);
    for (int i = 0; i < SIZES; i++)
        printf("%13.*f", decimals, figures[i]);
    printf("\n");
}

static void print_ratios(const char *name, const double *times, const double *more, const double *before) {
    double ratios[SIZES];
    for (int i = 0; i < SIZES; i++)
        ratios[i] = (times[i] + (more == NULL ? 0 : more[i])) / before[i];
    print_row(name, 3, ratios);
}

static void print_times(void) {
    double(*times)[SIZES] = best[finish];
    char head[80];
    snprintf(head, sizeof head, "%s, ns a call", finishes[finish]);
    printf("%-34s", head);
    for (int i = 0; i < SIZES; i++)
        printf("%7zu bytes", 16 * blocks_of[i]);
    printf("\n");
    for (int task = 0; task < TASKS; task++)
        print_row(names[task], 0, times[task]);
    print_ratios("now to before", times[NOW], NULL, times[BEFORE]);
    print_ratios("now to before, tag wrong", times[REFUSED_NOW], NULL, times[REFUSED_BEFORE]);
    print_ratios("before and checking, to before", times[BEFORE], times[CHECK], times[BEFORE]);
}

int main(int count, char **arguments) {
    if (count != 2) {
        fprintf(stderr, "usage: opening ROUNDS\n");
        return 2;
    }
    fill(list, sizeof list);
    memcpy(list_key, list + 100, sizeof list_key);
    memcpy(list_iv, list + 200, sizeof list_iv);
    for_each_list(seal_list_at_hand);
    for (int round = atoi(arguments[1]); round > 0; round--)
        for_each_list(measure_list_at_hand);
    for (finish = 0; finish < FINISHES; finish++)
        print_times();
    return 0;
}
