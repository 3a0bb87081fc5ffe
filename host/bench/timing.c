#define _POSIX_C_SOURCE 200809L
#include "timing.h"

#include <time.h>

static double now(void) {
    struct timespec t;
    clock_gettime(CLOCK_MONOTONIC, &t);
    return 1e9 * (double)t.tv_sec + (double)t.tv_nsec;
}

void measure(double *best, int turns, work *do_it, const struct contestant *who, size_t blocks) {
    double start = now();
    for (int turn = 0; turn < turns; turn++)
        do_it(who, blocks);
    double took = (now() - start) / turns;
    if (*best == 0 || took < *best)
        *best = took;
}
