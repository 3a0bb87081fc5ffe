#include "expect.h"
#include "report.h"

#include <stdio.h>

double rate(const struct figures *f, int size, int task, int who) {
    const double *times = f->task[size][task];
    double time = times[who];
    if (who == BYTES_O3 && times[BYTES_NO_SLP] < time)
        time = times[BYTES_NO_SLP];
    return 16000.0 * (double)blocks_of[size] / time;
}

static double against(const struct figures *f, int size, int task, int who) {
    return rate(f, size, task, OURS) / rate(f, size, task, who);
}

static double over_aes(const struct figures *f, int task, int aes, int who) {
    return rate(f, LONG, task, who) / rate(f, LONG, aes, who);
}

/* Opening goes over the ciphertext twice: once as checking does, and once as AES decrypts. What both take, over what opening takes. */
static double over_two_passes(const struct figures *f) {
    return (f->task[LONG][CHECK][OURS] + f->task[LONG][DECRYPT][OURS]) / f->task[LONG][OPEN][OURS];
}

static void print_rates(const struct figures *f, int size) {
    printf("%zu bytes, MB/s\n", 16 * blocks_of[size]);
    for (int task = 0; task < TASKS; task++) {
        printf("  %-22s", task_names[task]);
        for (int who = 0; who < CONTESTANTS; who++)
            printf("%10.1f", 16000.0 * (double)blocks_of[size] / f->task[size][task][who]);
        printf("%12.2f%12.2f\n", against(f, size, task, BYTES_O3), against(f, size, task, WORDS));
    }
}

static void print_under_zeros(const struct figures *f) {
    printf("the key of zeros, 64 bytes, ns a call%17s%12s%10s\n", "another key", "zeros", "ratio");
    for (int task = 0; task < MODE_TASKS; task++) {
        double other = f->task[SHORT][task][OURS], zeros = f->under_zeros[task];
        printf("  %-42s%10.0f%12.0f%10.2f\n", task_names[task], other, zeros, zeros / other);
    }
}

static void print_over_aes(const struct figures *f, int task, int aes) {
    printf("  %-4s over %-13s%10.3f%10.3f%20.3f\n", task_names[task], task_names[aes],
           over_aes(f, task, aes, OURS), over_aes(f, task, aes, BYTES_O3), over_aes(f, task, aes, WORDS));
}

/* How many times the jump the single steps take. */
static double over_jump(const struct figures *f, int direction, int way) {
    return f->far[direction][way] / f->far[direction][JUMP];
}

static void print_steps(const struct figures *f, const char *what, int way) {
    printf("  %-32s", what);
    for (int direction = 0; direction < DIRECTIONS; direction++)
        printf("%10.0f%16.1f", f->far[direction][way], over_jump(f, direction, way));
    printf("\n");
}

static void print_masks(const struct figures *f) {
    printf("%-34s%10s%16s%10s%16s\n", "masks, ns", "forward", "times the jump", "back", "times the jump");
    printf("  %-32s%10.0f%26.0f\n", "jump by 4000", f->far[FORWARD][JUMP], f->far[BACK][JUMP]);
    printf("  %-32s%10.0f%26.0f\n", "jump by 1", f->jump_one[FORWARD], f->jump_one[BACK]);
    print_steps(f, "4000 steps in C, by bytes", STEPS_BY_BYTES);
    print_steps(f, "4000 steps in C, by 64-bit words", STEPS_BY_WORDS);
}

/* How many times the join as a list another way takes. */
static double over_list(const struct figures *f, int shape, int way) {
    return f->join[shape][way] / f->join[shape][AS_LIST];
}

static void print_joins(const struct figures *f) {
    printf("%-26s%10s%8s%16s%12s%16s\n", "joins, ns a record", "as a list", "pairs", "times the list", "C by words", "times the list");
    for (int shape = 0; shape < LIST_SHAPES; shape++) {
        double records = (double)shapes[shape].records;
        const double *times = f->join[shape];
        printf("  %-24s%10.0f%8.0f%16.2f%12.1f%16.3f\n", shapes[shape].name, times[AS_LIST] / records, times[PAIR_BY_PAIR] / records,
               over_list(f, shape, PAIR_BY_PAIR), times[BY_STEPS] / records, over_list(f, shape, BY_STEPS));
    }
}

/* Two records pair by pair are one join. */
static void print_one_join(const struct figures *f) {
    printf("%-26s%18s%28s%16s\n", "one join, ns", "join", "C by words", "times the join");
    for (int shape = LIST_SHAPES; shape < SHAPES; shape++) {
        double join = f->join[shape][PAIR_BY_PAIR], steps = f->join[shape][BY_STEPS];
        printf("  %-24s%18.0f%28.1f%16.3f\n", shapes[shape].name, join, steps, steps / join);
    }
}

static void print_threads(const char *what, double one, double two, int lists) {
    printf("  %-41s%10.0f%12.0f%10.2f\n", what, one / (1e3 * lists), two / (1e3 * lists), one / two);
}

void print_table(const struct figures *f) {
    printf("%-24s%10s%10s%10s%10s%12s%12s\n", "", "Balzenoh", "bytes", "no SLP", "32-bit", "to bytes", "to 32-bit");
    print_rates(f, LONG);
    print_rates(f, SHORT);
    print_under_zeros(f);
    printf("the mode over bare AES, 64000 bytes (the paper's figure: 0.884)\n");
    print_over_aes(f, SEAL, ENCRYPT);
    print_over_aes(f, OPEN, DECRYPT);
    printf("  %-22s%10.3f\n", "open over check + AES", over_two_passes(f));
    print_masks(f);
    print_joins(f);
    print_one_join(f);
    printf("64000 bytes in two runs, us a list%19s%12s%10s\n", "one thread", "two", "ratio");
    print_threads("one list, with the second thread's start", f->one_thread, f->two_threads, 1);
    print_threads("eight lists in turn, with its start", f->one_thread_lists, f->two_threads_lists, LISTS);
    print_threads("one list, second thread waiting", f->one_thread, f->with_helper, 1);
}

void print_expectations(const struct figures *f) {
    char what[80];
    printf("expected\n");
    for (int size = 0; size < SIZES; size++)
        for (int task = 0; task < TASKS; task++) {
            snprintf(what, sizeof what, "%s, %zu bytes, to C byte tables", task_names[task], 16 * blocks_of[size]);
            expect(what, against(f, size, task, BYTES_O3), 0.95);
        }
    expect("seal over AES encrypt, Balzenoh", over_aes(f, SEAL, ENCRYPT, OURS), 0.95);
    expect("open over AES decrypt, Balzenoh", over_aes(f, OPEN, DECRYPT, OURS), 0.95);
    expect_ns_at_most("jump by 4000, ns", f->far[FORWARD][JUMP], 450);
    expect_ns_at_most("jump by -4000, ns", f->far[BACK][JUMP], 450);
    expect("4000 steps by bytes over jump by 4000", over_jump(f, FORWARD, STEPS_BY_BYTES), 8);
    expect("4000 steps by 64-bit words over jump by 4000", over_jump(f, FORWARD, STEPS_BY_WORDS), 8);
    expect("4000 divisions by bytes over jump by -4000", over_jump(f, BACK, STEPS_BY_BYTES), 8);
    expect("4000 divisions by 64-bit words over jump by -4000", over_jump(f, BACK, STEPS_BY_WORDS), 8);
    expect_at_most("jump by -4000 over jump by 4000", f->far[BACK][JUMP] / f->far[FORWARD][JUMP], 1.1);
    /* By bytes a power of x cost several products, in words about one: a list that keeps its power saves less. */
    expect("1000 records of 4 blocks, pairs over the list", over_list(f, EQUAL_4, PAIR_BY_PAIR), 1);
    /* Where no power serves twice the list is no slower than working out each anew. */
    expect("1000 of 4 and 3 in turn, pairs over the list", over_list(f, IN_TURN, PAIR_BY_PAIR), 0.95);
    expect("one thread over two, one list", f->one_thread / f->two_threads, 1.8);
    expect("one thread over two, eight lists", f->one_thread_lists / f->two_threads_lists, 1.8);
    expect("one thread over two, one list, second waiting", f->one_thread / f->with_helper, 1.8);
}
