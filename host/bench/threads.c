/* A list of 4,000 blocks sealed in two runs of 2,000, on one thread or on two, the calling thread being one of them. */
#include "balzenoh.h"
#include "work.h"

#include <pthread.h>
#include <string.h>

enum { HALF = LONG_LIST / 2, HALF_BYTES = 16 * HALF };

static uint8_t lists[LISTS][16 * LONG_LIST + 32];
static uint8_t records[LISTS][2][BALZENOH_RUN_RECORD];

static void seal_half(size_t list, int right) {
    uint8_t *out = lists[list] + 16 + right * HALF_BYTES;
    size_t length;
    balzenoh_seal_run(key, 16, iv, 16, (uint32_t)(right * HALF), (uint8_t)right, message + right * HALF_BYTES,
                      (size_t)(HALF_BYTES - right), out, HALF_BYTES, &length, records[list][right], BALZENOH_RUN_RECORD);
}

/* Joins the two records, and puts IV and tag in their places. */
static void finish(size_t list) {
    uint8_t whole[BALZENOH_RUN_RECORD];
    balzenoh_join_list(records[list][0], sizeof records[list], whole, sizeof whole);
    balzenoh_close(key, 16, iv, 16, whole, sizeof whole, lists[list] + 16 + 16 * LONG_LIST, 16);
    memcpy(lists[list], iv, 16);
}

static void *seal_right_halves(void *count) {
    for (size_t list = 0; list < *(size_t *)count; list++)
        seal_half(list, 1);
    return NULL;
}

void seal_on_one_thread(const struct contestant *who, size_t count) {
    (void)who;
    for (size_t list = 0; list < count; list++) {
        seal_half(list, 0);
        seal_half(list, 1);
        finish(list);
    }
}

void seal_on_two_threads(const struct contestant *who, size_t count) {
    (void)who;
    pthread_t second;
    if (pthread_create(&second, NULL, seal_right_halves, &count) != 0)
        differs("two threads", "no second thread");
    for (size_t list = 0; list < count; list++)
        seal_half(list, 0);
    pthread_join(second, NULL);
    for (size_t list = 0; list < count; list++)
        finish(list);
}

/* ---- a second thread that is there already, and waits for work without sleeping */

enum { WAIT, WORK, STOP };

static pthread_t helper;
static int order;

static int current_order(void) {
    return __atomic_load_n(&order, __ATOMIC_ACQUIRE);
}

static void give_order(int next) {
    __atomic_store_n(&order, next, __ATOMIC_RELEASE);
}

static void *seal_when_told(void *unused) {
    (void)unused;
    for (int now = current_order(); now != STOP; now = current_order())
        if (now == WORK) {
            seal_half(0, 1);
            give_order(WAIT);
        }
    return NULL;
}

/* The first order is given and waited for here, so that the thread is running when this returns. */
void start_helper(void) {
    give_order(WORK);
    if (pthread_create(&helper, NULL, seal_when_told, NULL) != 0)
        differs("two threads", "no second thread");
    while (current_order() != WAIT)
        ;
}

void stop_helper(void) {
    give_order(STOP);
    pthread_join(helper, NULL);
}

void seal_with_helper(const struct contestant *who, size_t count) {
    (void)who;
    (void)count;
    give_order(WORK);
    seal_half(0, 0);
    while (current_order() != WAIT)
        ;
    finish(0);
}

/* ---- the results */

static void compare_lists(size_t count) {
    for (size_t list = 0; list < count; list++)
        if (memcmp(lists[list], sealed_record(LONG_LIST), sizeof lists[list]) != 0)
            differs("runs on threads", "the whole list");
    memset(lists, 0xa5, sizeof lists);
}

void compare_threads(void) {
    seal_on_one_thread(NULL, LISTS);
    compare_lists(LISTS);
    seal_on_two_threads(NULL, LISTS);
    compare_lists(LISTS);
    start_helper();
    seal_with_helper(NULL, 1);
    stop_helper();
    compare_lists(1);
}
