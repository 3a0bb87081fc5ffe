/* The best time of a piece of work. */
#ifndef TIMING_H
#define TIMING_H

#include "work.h"

/* Does the work `turns` times, and keeps the time of one turn, in nanoseconds, where it is the best so far; 0 stands for none. */
void measure(double *best, int turns, work *do_it, const struct contestant *who, size_t blocks);

#endif
