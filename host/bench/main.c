/* The benchmark: times every contestant on the same work, one after the other in each round, and prints the best times as a table.

       bench ROUNDS [CHART.svg]
*/
#include "report.h"
#include "tables.h"
#include "timing.h"

#include <stdio.h>
#include <stdlib.h>

static const struct contestant *const contestants[CONTESTANTS] = {&ours, &bytes_o3, &bytes_no_slp, &words};
static work *const tasks[TASKS] = {seal_list, open_list, check_list, encrypt_blocks, decrypt_blocks};
static work *const tasks_under_zeros[MODE_TASKS] = {seal_under_zeros, open_under_zeros, check_under_zeros};

static void measure_threads(struct figures *f) {
    measure(&f->one_thread, 1, seal_on_one_thread, NULL, 1);
    measure(&f->two_threads, 1, seal_on_two_threads, NULL, 1);
    measure(&f->one_thread_lists, 1, seal_on_one_thread, NULL, LISTS);
    measure(&f->two_threads_lists, 1, seal_on_two_threads, NULL, LISTS);
    start_helper();
    measure(&f->with_helper, 1, seal_with_helper, NULL, 1);
    stop_helper();
}

static void measure_masks(struct figures *f, int direction) {
    for (int way = 0; way < WAYS; way++)
        measure(&f->far[direction][way], way == JUMP ? 10 : 1, ways[direction][way], NULL, LONG_LIST);
    measure(&f->jump_one[direction], 10, ways[direction][JUMP], NULL, 1);
}

/* As many turns as make the same number of records in every shape. */
static void measure_joins(struct figures *f) {
    for (int shape = 0; shape < SHAPES; shape++)
        for (int way = 0; way < JOINS; way++)
            measure(&f->join[shape][way], (int)(MOST_RECORDS / shapes[shape].records), joins[way], NULL, (size_t)shape);
}

static void measure_round(struct figures *f) {
    for (int task = 0; task < TASKS; task++)
        for (int who = 0; who < CONTESTANTS; who++) {
            measure(&f->task[LONG][task][who], 1, tasks[task], contestants[who], LONG_LIST);
            measure(&f->task[SHORT][task][who], 100, tasks[task], contestants[who], SHORT_LIST);
        }
    for (int task = 0; task < MODE_TASKS; task++)
        measure(&f->under_zeros[task], 100, tasks_under_zeros[task], &ours, SHORT_LIST);
    measure_threads(f);
    measure_masks(f, FORWARD);
    measure_masks(f, BACK);
    measure_joins(f);
}

int main(int count, char **arguments) {
    static struct figures figures;
    if (count != 2 && count != 3) {
        fprintf(stderr, "usage: bench ROUNDS [CHART.svg]\n");
        return 2;
    }
    make_sboxes();
    make_word_tables();
    prepare();
    compare_results(contestants, CONTESTANTS);
    compare_jumps();
    compare_joins();
    compare_threads();
    for (int round = atoi(arguments[1]); round > 0; round--)
        measure_round(&figures);
    print_table(&figures);
    print_expectations(&figures);
    if (count == 3 && !write_chart(&figures, arguments[2])) {
        fprintf(stderr, "cannot write %s\n", arguments[2]);
        return 1;
    }
    return 0;
}
