#include "rows.h"

#include "timing.h"

#include <stdio.h>

static work *const tasks[TASKS] = {seal_list, open_list, check_list, encrypt_blocks, decrypt_blocks};

void measure_tasks(times best, const struct contestant *who) {
    for (int task = 0; task < TASKS; task++) {
        measure(&best[LONG][task], 1, tasks[task], who, LONG_LIST);
        measure(&best[SHORT][task], 100, tasks[task], who, SHORT_LIST);
    }
}

void print_head(int size, const char *unit) {
    char what[80];
    snprintf(what, sizeof what, "%zu bytes, %s", 16 * blocks_of[size], unit);
    printf("%-28s", what);
    for (int task = 0; task < TASKS; task++)
        printf("%13s", task_names[task]);
    printf("\n");
}

void print_row(const char *name, int decimals, const double figures[TASKS]) {
    printf("  %-26s", name);
    for (int task = 0; task < TASKS; task++)
        printf("%13.*f", decimals, figures[task]);
    printf("\n");
}
