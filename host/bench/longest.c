/* The longest list: 16,777,215 bytes, which are 1,048,576 blocks, by every contestant in one piece, and by the library in runs of 2,048 blocks on
   one thread and on two. Beside it the library on 4,000 blocks.

       longest ROUNDS
*/
#include "balzenoh.h"
#include "expect.h"
#include "input.h"
#include "tables.h"
#include "timing.h"

#include <pthread.h>
#include <stdio.h>
#include <stdlib.h>
#include <string.h>

enum { BLOCKS = BALZENOH_LIMIT, RUN = 2048, RUNS = BLOCKS / RUN, RUN_BYTES = 16 * RUN, FEW_BLOCKS = 4000, THREADS = 2 };

enum { OURS, BYTES_O3, BYTES_NO_SLP, WORDS, CONTESTANTS };
static const struct contestant *const contestants[CONTESTANTS] = {&ours, &bytes_o3, &bytes_no_slp, &words};

enum { SEAL, OPEN, CHECK, ENCRYPT, DECRYPT, TASKS };
static const char *const task_names[TASKS] = {"seal", "open", "check", "AES encrypt", "AES decrypt"};

static uint8_t list_key[16], list_iv[16], list[16 * BLOCKS], sealed[16 * BLOCKS + 32], few_sealed[16 * FEW_BLOCKS + 32], out[16 * BLOCKS + 32];

/* ---- in one piece */

static const uint8_t *record_of(size_t blocks) {
    return blocks == BLOCKS ? sealed : few_sealed;
}

static void seal(const struct contestant *who, size_t blocks) {
    who->seal(list_key, list_iv, list, 16 * blocks - 1, out);
}

static void open(const struct contestant *who, size_t blocks) {
    who->open(list_key, record_of(blocks), 16 * blocks + 32, out);
}

static void check(const struct contestant *who, size_t blocks) {
    who->check(list_key, list_iv, record_of(blocks) + 16, 16 * blocks, out);
}

static void encrypt(const struct contestant *who, size_t blocks) {
    who->encrypt(list_key, list, 16 * blocks, out);
}

static void decrypt(const struct contestant *who, size_t blocks) {
    who->decrypt(list_key, list, 16 * blocks, out);
}

static work *const tasks[TASKS] = {seal, open, check, encrypt, decrypt};

/* ---- in runs, on so many threads: each takes the next run that is left */

static uint8_t records[RUNS][BALZENOH_RUN_RECORD], whole[BALZENOH_RUN_RECORD];
static int taken;

static void seal_run(int run) {
    size_t length, last = run == RUNS - 1, at = (size_t)run * RUN_BYTES;
    balzenoh_seal_run(list_key, 16, list_iv, 16, (uint32_t)(run * RUN), (uint8_t)last, list + at, RUN_BYTES - last, out + 16 + at, RUN_BYTES, &length,
                      records[run], BALZENOH_RUN_RECORD);
}

static void check_run(int run) {
    const uint8_t *bytes = sealed + 16 + (size_t)run * RUN_BYTES;
    balzenoh_check_run(list_key, 16, list_iv, 16, (uint32_t)(run * RUN), bytes, RUN_BYTES, records[run], BALZENOH_RUN_RECORD);
}

static void (*run_by)(int);

static void *take_runs(void *unused) {
    for (int run; (run = __atomic_fetch_add(&taken, 1, __ATOMIC_RELAXED)) < RUNS;)
        run_by(run);
    return unused;
}

/* All runs, and their records joined. */
static void work_in_runs(void (*by)(int), size_t threads) {
    pthread_t others[THREADS];
    run_by = by;
    taken = 0;
    for (size_t i = 1; i < threads; i++)
        must(pthread_create(&others[i], NULL, take_runs, NULL) == 0, "no second thread");
    take_runs(NULL);
    for (size_t i = 1; i < threads; i++)
        pthread_join(others[i], NULL);
    must(balzenoh_join_list(records[0], sizeof records, whole, sizeof whole) == 0, "records are not joined");
}

static void seal_in_runs(const struct contestant *none, size_t threads) {
    (void)none;
    work_in_runs(seal_run, threads);
    memcpy(out, list_iv, 16);
    balzenoh_close(list_key, 16, list_iv, 16, whole, sizeof whole, out + 16 + 16 * (size_t)BLOCKS, 16);
}

static void check_in_runs(const struct contestant *none, size_t threads) {
    (void)none;
    work_in_runs(check_run, threads);
    must(balzenoh_test(list_key, 16, list_iv, 16, whole, sizeof whole, sealed + sizeof sealed - 16, 16) == 0, "the tag differs");
}

/* As the program opens with --threads: the tag is tested first. */
static void open_after_check(const struct contestant *none, size_t threads) {
    (void)none;
    check_in_runs(NULL, threads);
    open(&ours, BLOCKS);
}

enum { SEAL_RUNS, CHECK_RUNS, OPEN_RUNS, SPREADS };
static work *const spreads[SPREADS] = {seal_in_runs, check_in_runs, open_after_check};
static const char *const spread_names[SPREADS] = {"seal", "check", "check, then open in one piece"};
static const int as_one_piece[SPREADS] = {SEAL, CHECK, OPEN};

/* ---- masks and records */

static void jump(const struct contestant *none, size_t distance) {
    (void)none;
    balzenoh_jump(list_iv, 16, (int32_t)distance, out, 16);
}

static void jump_back(const struct contestant *none, size_t distance) {
    (void)none;
    balzenoh_jump(list_iv, 16, -(int32_t)distance, out, 16);
}

static void join(const struct contestant *none, size_t count) {
    (void)none;
    balzenoh_join_list(records[0], 24 * count, whole, sizeof whole);
}

/* ---- whether all results are the same */

static void compare(int task) {
    static uint8_t first[sizeof out];
    for (int who = 0; who < CONTESTANTS; who++) {
        memset(out, 0xa5, sizeof out);
        tasks[task](contestants[who], BLOCKS);
        if (who == 0)
            memcpy(first, out, sizeof out);
        must(memcmp(first, out, sizeof out) == 0, "the contestants' results differ");
    }
}

static void compare_all(void) {
    for (int task = 0; task < TASKS; task++)
        compare(task);
    for (size_t threads = 1; threads <= THREADS; threads++) {
        memset(out, 0xa5, sizeof out);
        seal_in_runs(NULL, threads);
        must(memcmp(out, sealed, sizeof sealed) == 0, "the list in runs is another than that in one piece");
    }
    open_after_check(NULL, THREADS);
    must(memcmp(out, list, 16 * (size_t)BLOCKS - 1) == 0, "the opened list is another");
}

/* ---- the times */

static double best[TASKS][CONTESTANTS], few[TASKS], spread[SPREADS][THREADS], jumps[2], joined;

static void measure_round(void) {
    for (int task = 0; task < TASKS; task++) {
        for (int who = 0; who < CONTESTANTS; who++)
            measure(&best[task][who], 1, tasks[task], contestants[who], BLOCKS);
        measure(&few[task], 20, tasks[task], &ours, FEW_BLOCKS);
    }
    for (int i = 0; i < SPREADS; i++)
        for (size_t threads = 1; threads <= THREADS; threads++)
            measure(&spread[i][threads - 1], 1, spreads[i], NULL, threads);
    measure(&jumps[0], 100, jump, NULL, BLOCKS);
    measure(&jumps[1], 100, jump_back, NULL, BLOCKS);
    measure(&joined, 1, join, NULL, RUNS);
}

static double rate(size_t blocks, double time) {
    return 16000.0 * (double)blocks / time;
}

static double faster_bytes(int task) {
    return best[task][BYTES_O3] < best[task][BYTES_NO_SLP] ? best[task][BYTES_O3] : best[task][BYTES_NO_SLP];
}

static void print_rates(void) {
    printf("%-22s%10s%10s%10s%10s%12s%12s%12s\n", "16777215 bytes, MB/s", "Balzenoh", "bytes", "no SLP", "32-bit", "to bytes", "to 32-bit",
           "to 64000");
    for (int task = 0; task < TASKS; task++) {
        double time = best[task][OURS];
        printf("  %-20s", task_names[task]);
        for (int who = 0; who < CONTESTANTS; who++)
            printf("%10.1f", rate(BLOCKS, best[task][who]));
        printf("%12.2f%12.2f%12.3f\n", faster_bytes(task) / time, best[task][WORDS] / time, rate(BLOCKS, time) / rate(FEW_BLOCKS, few[task]));
    }
}

static void print_spreads(void) {
    printf("in %d runs of %d blocks, ms%17s%13s%13s%13s\n", RUNS, RUN, "one piece", "one thread", "two", "ratio");
    for (int i = 0; i < SPREADS; i++)
        printf("  %-32s%13.1f%13.1f%13.1f%13.2f\n", spread_names[i], best[as_one_piece[i]][OURS] / 1e6, spread[i][0] / 1e6, spread[i][1] / 1e6,
               spread[i][0] / spread[i][1]);
}

static void print_expectations(void) {
    char what[80];
    printf("expected\n");
    for (int task = 0; task < TASKS; task++) {
        snprintf(what, sizeof what, "%s, rate to that of 64000 bytes", task_names[task]);
        expect(what, rate(BLOCKS, best[task][OURS]) / rate(FEW_BLOCKS, few[task]), 0.95);
    }
    expect("seal in runs over seal in one piece, one thread", best[SEAL][OURS] / spread[SEAL_RUNS][0], 0.95);
    expect("seal, one thread over two", spread[SEAL_RUNS][0] / spread[SEAL_RUNS][1], 1.8);
    expect("check, one thread over two", spread[CHECK_RUNS][0] / spread[CHECK_RUNS][1], 1.8);
}

int main(int count, char **arguments) {
    if (count != 2) {
        fprintf(stderr, "usage: longest ROUNDS\n");
        return 2;
    }
    make_sboxes();
    make_word_tables();
    fill(list, sizeof list);
    memcpy(list_key, list + 100, sizeof list_key);
    memcpy(list_iv, list + 200, sizeof list_iv);
    ours.seal(list_key, list_iv, list, sizeof list - 1, sealed);
    ours.seal(list_key, list_iv, list, 16 * FEW_BLOCKS - 1, few_sealed);
    compare_all();
    for (int round = atoi(arguments[1]); round > 0; round--)
        measure_round();
    print_rates();
    print_spreads();
    printf("jump by %d and by %d, ns%17.0f%13.0f\n", BLOCKS, -BLOCKS, jumps[0], jumps[1]);
    printf("%d records of %d blocks joined as a list, ns%13.0f\n", RUNS, RUN, joined);
    print_expectations();
    return 0;
}
