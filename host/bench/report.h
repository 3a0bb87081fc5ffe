/* What was measured, and how it is shown. */
#ifndef REPORT_H
#define REPORT_H

#include "work.h"

enum { OURS, BYTES_O3, BYTES_NO_SLP, WORDS, CONTESTANTS };
enum { SEAL, OPEN, CHECK, MODE_TASKS, ENCRYPT = MODE_TASKS, DECRYPT, TASKS };
enum { LONG, SHORT, SIZES };

/* The best times, in nanoseconds a call. */
struct figures {
    double task[SIZES][TASKS][CONTESTANTS];
    double under_zeros[MODE_TASKS];
    double far[DIRECTIONS][WAYS], jump_one[DIRECTIONS];
    double join[SHAPES][JOINS];
    double one_thread, two_threads, with_helper, one_thread_lists, two_threads_lists;
};

static const size_t blocks_of[SIZES] = {LONG_LIST, SHORT_LIST};
static const char *const task_names[TASKS] = {"seal", "open", "check", "AES encrypt", "AES decrypt"};

/* Millions of bytes a second; `who` being OURS, BYTES_O3 for the faster build of the byte tables, or WORDS. */
double rate(const struct figures *f, int size, int task, int who);

void print_table(const struct figures *f);
void print_expectations(const struct figures *f);

/* Writes the chart; 0 where the file cannot be written. */
int write_chart(const struct figures *f, const char *path);

#endif
