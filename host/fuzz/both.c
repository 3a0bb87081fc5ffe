#include "both.h"

#include "balzenoh.h"
#include "bytes.h"

#include <stdio.h>
#include <stdlib.h>
#include <string.h>

/* The calls with a finish by the cipher, each with its namesake by the hash beside it, and the others. */
enum kind { SEAL, SEAL_SHA1, OPEN, OPEN_SHA1, SEAL_RUN, CHECK_RUN, JOIN, JOIN_LIST, CLOSE, CLOSE_SHA1, TEST, TEST_SHA1, JUMP, SHA1, KINDS };
enum { REFUSALS = 25 };

static const char *const names[KINDS] = {"seal", "seal_sha1", "open", "open_sha1", "seal_run", "check_run", "join", "join_list",
                                         "close", "close_sha1", "test", "test_sha1", "jump", "sha1"};
static unsigned long counts[KINDS][REFUSALS];

uint8_t answer[LONGEST], answer_run[LONGEST];
size_t answer_length;

/* The library's outputs, and how much of each kind of output both were lent. */
static uint8_t *out, *run;
static size_t out_room, run_room;
static struct {
    size_t before, length, after;
} lent;

/* Lends both sides their outputs, full of noise, and not of the same noise. */
static void lend(size_t room, size_t record_room) {
    out_room = room;
    run_room = record_room;
    out = guard_output(0, room);
    run = guard_output(1, record_room);
    memset(answer, 0x33, room);
    memset(answer_run, 0x33, record_room);
    memset(&lent, 0x77, sizeof lent);
    answer_length = lent.length;
}

static void fail(const char *call, const char *what) {
    fprintf(stderr, "\nDIFFERENCE in %s: %s\n", call, what);
    abort();
}

void must_be_same(const char *what, const uint8_t *a, const uint8_t *b, size_t len) {
    char where[80];
    if (len == 0 || memcmp(a, b, len) == 0)
        return;
    size_t i = 0;
    while (a[i] == b[i])
        i++;
    snprintf(where, sizeof where, "byte %zu of %zu is %02x, and should be %02x", i, len, a[i], b[i]);
    fail(what, where);
}

void must_not_be_same(const char *what, const uint8_t *a, const uint8_t *b, size_t len) {
    if (memcmp(a, b, len) == 0)
        fail(what, "the same bytes, and should be others");
}

static uint8_t compare(int kind, uint8_t got, uint8_t right) {
    const char *fault = guard_fault();
    char what[80];
    if (got != right) {
        snprintf(what, sizeof what, "returned %d, and should have returned %d", got, right);
        fail(names[kind], what);
    }
    if (fault != NULL)
        fail(names[kind], fault);
    if (lent.before != lent.after)
        fail(names[kind], "written beside the length");
    if (lent.length != answer_length)
        fail(names[kind], "the length differs");
    must_be_same(names[kind], out, answer, out_room);
    must_be_same(names[kind], run, answer_run, run_room);
    counts[kind][right]++;
    return right;
}

uint8_t both_seal(enum finish by, slice key, slice iv, slice message, size_t room) {
    lend(room, 0);
    uint8_t got = (by == BY_HASH ? balzenoh_seal_sha1 : balzenoh_seal)(guard_input(0, key), key.len, guard_input(1, iv), iv.len,
                                                                       guard_input(2, message), message.len, out, room, &lent.length);
    return compare(SEAL + by, got, reference_seal(by, key.bytes, key.len, iv.bytes, iv.len, message.bytes, message.len,
                                                  answer, room, &answer_length));
}

uint8_t both_open(enum finish by, slice key, slice sealed, size_t room) {
    lend(room, 0);
    uint8_t got = (by == BY_HASH ? balzenoh_open_sha1 : balzenoh_open)(guard_input(0, key), key.len, guard_input(1, sealed), sealed.len,
                                                                       out, room, &lent.length);
    return compare(OPEN + by, got, reference_open(by, key.bytes, key.len, sealed.bytes, sealed.len, answer, room, &answer_length));
}

uint8_t both_seal_run(slice key, slice iv, uint32_t first, uint8_t last, slice bytes, size_t room, size_t record_room) {
    lend(room, record_room);
    uint8_t got = balzenoh_seal_run(guard_input(0, key), key.len, guard_input(1, iv), iv.len, first, last,
                                    guard_input(2, bytes), bytes.len, out, room, &lent.length, run, record_room);
    return compare(SEAL_RUN, got, reference_seal_run(key.bytes, key.len, iv.bytes, iv.len, first, last, bytes.bytes, bytes.len,
                                                     answer, room, &answer_length, answer_run, record_room));
}

uint8_t both_check_run(slice key, slice iv, uint32_t first, slice bytes, size_t record_room) {
    lend(0, record_room);
    uint8_t got = balzenoh_check_run(guard_input(0, key), key.len, guard_input(1, iv), iv.len, first,
                                     guard_input(2, bytes), bytes.len, run, record_room);
    return compare(CHECK_RUN, got, reference_check_run(key.bytes, key.len, iv.bytes, iv.len, first, bytes.bytes, bytes.len,
                                                       answer_run, record_room));
}

/* The answered record's pre-authenticator is what the records, and the others after them, come to byte by byte. */
static uint8_t compare_bytes_joined(uint8_t refusal, slice records, slice others) {
    uint8_t pre[16];
    if (refusal != 0)
        return refusal;
    memcpy(pre, records.bytes + 8, 16);
    for (size_t i = 24; i < records.len; i += 24)
        bytes_join(pre, records.bytes + i);
    for (size_t i = 0; i < others.len; i += 24)
        bytes_join(pre, others.bytes + i);
    must_be_same("joining in words", answer_run + 8, pre, 16);
    return refusal;
}

uint8_t both_join(slice left, slice right, size_t record_room) {
    lend(0, record_room);
    uint8_t got = balzenoh_join(guard_input(0, left), left.len, guard_input(1, right), right.len, run, record_room);
    uint8_t refusal = compare(JOIN, got, reference_join(left.bytes, left.len, right.bytes, right.len, answer_run, record_room));
    return compare_bytes_joined(refusal, left, right);
}

uint8_t both_join_list(slice records, size_t record_room) {
    static const slice none;
    lend(0, record_room);
    uint8_t got = balzenoh_join_list(guard_input(0, records), records.len, run, record_room);
    uint8_t refusal = compare(JOIN_LIST, got, reference_join_list(records.bytes, records.len, answer_run, record_room));
    return compare_bytes_joined(refusal, records, none);
}

uint8_t both_close(enum finish by, slice key, slice iv, slice record, size_t room) {
    lend(room, 0);
    uint8_t got = (by == BY_HASH ? balzenoh_close_sha1 : balzenoh_close)(guard_input(0, key), key.len, guard_input(1, iv), iv.len,
                                                                         guard_input(2, record), record.len, out, room);
    return compare(CLOSE + by, got, reference_close(by, key.bytes, key.len, iv.bytes, iv.len, record.bytes, record.len, answer, room));
}

uint8_t both_test(enum finish by, slice key, slice iv, slice record, slice tag) {
    lend(0, 0);
    uint8_t got = (by == BY_HASH ? balzenoh_test_sha1 : balzenoh_test)(guard_input(0, key), key.len, guard_input(1, iv), iv.len,
                                                                       guard_input(2, record), record.len, guard_input(3, tag), tag.len);
    return compare(TEST + by, got, reference_test(by, key.bytes, key.len, iv.bytes, iv.len, record.bytes, record.len, tag.bytes, tag.len));
}

uint8_t both_jump(slice mask, int32_t distance, size_t room) {
    uint8_t moved[16];
    lend(room, 0);
    uint8_t got = balzenoh_jump(guard_input(0, mask), mask.len, distance, out, room);
    uint8_t refusal = compare(JUMP, got, reference_jump(mask.bytes, mask.len, distance, answer, room));
    if (refusal == 0) {
        memcpy(moved, mask.bytes, 16);
        bytes_jump(moved, distance);
        must_be_same("jumping in words", answer, moved, 16);
    }
    return refusal;
}

uint8_t both_sha1(slice text, size_t room) {
    lend(room, 0);
    uint8_t got = balzenoh_sha1(guard_input(0, text), text.len, out, room);
    return compare(SHA1, got, reference_sha1(text.bytes, text.len, answer, room));
}

void print_counts(void) {
    static const int shown[] = {0, 24, 1, 2, 3, 4, 8, 9, 10, 5, 6, 7};
    unsigned long all = 0;
    fprintf(stderr, "%-10s%10s", "compared", "calls");
    for (size_t i = 0; i < sizeof shown / sizeof shown[0]; i++)
        fprintf(stderr, "%9d", shown[i]);
    for (int kind = 0; kind < KINDS; kind++) {
        unsigned long calls = 0;
        for (int refusal = 0; refusal < REFUSALS; refusal++)
            calls += counts[kind][refusal];
        fprintf(stderr, "\n%-10s%10lu", names[kind], calls);
        for (size_t i = 0; i < sizeof shown / sizeof shown[0]; i++)
            fprintf(stderr, "%9lu", counts[kind][shown[i]]);
        all += calls;
    }
    fprintf(stderr, "\n%-10s%10lu\n", "together", all);
}
