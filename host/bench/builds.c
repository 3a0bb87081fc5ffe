/* Several builds of the library beside each other, on the same work, one after the other in each round. BUILDS has BUILD(name) for each;
   the first is what the others are held to.

       builds ROUNDS
*/
#include "rows.h"

#include <stdio.h>
#include <stdlib.h>

#define BUILD(name) extern const struct contestant name;
BUILDS
#undef BUILD
#define BUILD(name) &name,
static const struct contestant *const builds[] = {BUILDS};
enum { COUNT = sizeof builds / sizeof builds[0] };

static times best[COUNT];

static void print_rates(int size) {
    double figures[TASKS];
    char name[80];
    print_head(size, "MB/s");
    for (int build = 0; build < COUNT; build++) {
        for (int task = 0; task < TASKS; task++)
            figures[task] = 16000.0 * (double)blocks_of[size] / best[build][size][task];
        print_row(builds[build]->name, 1, figures);
    }
    for (int build = 1; build < COUNT; build++) {
        for (int task = 0; task < TASKS; task++)
            figures[task] = best[0][size][task] / best[build][size][task];
        snprintf(name, sizeof name, "%s, times as fast", builds[build]->name);
        print_row(name, 3, figures);
    }
}

int main(int count, char **arguments) {
    if (count != 2) {
        fprintf(stderr, "usage: builds ROUNDS\n");
        return 2;
    }
    prepare();
    compare_results(builds, COUNT);
    for (int round = atoi(arguments[1]); round > 0; round--)
        for (int build = 0; build < COUNT; build++)
            measure_tasks(best[build], builds[build]);
    for (int size = 0; size < SIZES; size++)
        print_rates(size);
    return 0;
}
