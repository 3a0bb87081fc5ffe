/* Contestants beside each other, a row for each: their times on all work, and how a row is shown. */
#ifndef ROWS_H
#define ROWS_H

#include "report.h"

/* The best times of one contestant, in nanoseconds a call; 0 stands for none. */
typedef double times[SIZES][TASKS];

/* Does each piece of work on a long list and on short ones, and keeps its times where they are the best so far. */
void measure_tasks(times best, const struct contestant *who);

/* The head of a table: the length of its lists, what is shown, and the tasks. */
void print_head(int size, const char *unit);

/* A row of figures, one for each task. */
void print_row(const char *name, int decimals, const double figures[TASKS]);

#endif
