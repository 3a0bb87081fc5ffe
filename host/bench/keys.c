/* The library under a key of 16 bytes and under one of 32, one after the other in each round. AES-256 has 14 rounds where AES-128 has 10: what
   goes by the rounds alone takes 1.4 times as long.

       keys ROUNDS
*/
#include "rows.h"

#include <stdio.h>
#include <stdlib.h>

extern const struct contestant long_key;
enum { SHORT_KEY, LONG_KEY, KEYS };
static const struct contestant *const keys[KEYS] = {&ours, &long_key};
static times best[KEYS];

/* Each key opens and checks what was sealed under it. */
static void measure_round(void) {
    for (int key = 0; key < KEYS; key++) {
        seal_records(keys[key]);
        measure_tasks(best[key], keys[key]);
    }
}

static void print_times(int size) {
    double ratios[TASKS], rounds[TASKS];
    for (int task = 0; task < TASKS; task++) {
        ratios[task] = best[LONG_KEY][size][task] / best[SHORT_KEY][size][task];
        rounds[task] = 14.0 / 10.0;
    }
    print_head(size, "ns a call");
    for (int key = 0; key < KEYS; key++)
        print_row(keys[key]->name, 0, best[key][size]);
    print_row("long to short", 3, ratios);
    print_row("rounds, 14 to 10", 3, rounds);
}

int main(int count, char **arguments) {
    if (count != 2) {
        fprintf(stderr, "usage: keys ROUNDS\n");
        return 2;
    }
    prepare();
    for (int key = 0; key < KEYS; key++) {
        seal_records(keys[key]);
        compare_results(&keys[key], 1);
    }
    for (int round = atoi(arguments[1]); round > 0; round--)
        measure_round();
    for (int size = 0; size < SIZES; size++)
        print_times(size);
    return 0;
}
