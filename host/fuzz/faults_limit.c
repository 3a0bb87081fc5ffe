/* The faults of the limit (ticket P7), in each call that has one. The fault's name is that of the call and one of these:

       -takes-one-block-more    1,048,577 blocks are let through
       -keeps-the-old-limit     more than 4,000 blocks are refused
       -adds-at-32-bits         first block and count are added at 32 bits, and a sum that is small again is let through
*/
#include "faults.h"

#include <stdlib.h>
#include <string.h>

enum { LIMIT = 1048576, OLD_LIMIT = 4000, RECORD = 24 };

static int is_fault_of(const char *call, const char *fault) {
    static const char *chosen;
    if (chosen == NULL && (chosen = getenv("FAULT")) == NULL)
        chosen = "";
    size_t len = strlen(call);
    return strncmp(chosen, call, len) == 0 && strcmp(chosen + len, fault) == 0;
}

/* Whether the call takes blocks that end there for too many. */
static int are_too_many(const char *call, uint64_t end) {
    if (is_fault_of(call, "-takes-one-block-more"))
        return end > LIMIT + 1;
    if (is_fault_of(call, "-keeps-the-old-limit"))
        return end > OLD_LIMIT;
    if (is_fault_of(call, "-adds-at-32-bits"))
        return (uint32_t)end > LIMIT;
    return end > LIMIT;
}

/* Blocks that are too many get the row, unless one above it was told; those that are no longer too many are taken. */
static uint8_t judge(uint8_t refusal, uint8_t row, int too_many, int rightly) {
    int above = refusal == 24 || refusal == 1 || refusal == 2 || (row == 4 && refusal == 3);
    if (too_many && !rightly && !above)
        return row;
    return !too_many && rightly && refusal == row ? 0 : refusal;
}

uint8_t fault_of_limit(const char *call, uint8_t refusal, uint8_t row, uint64_t first, uint64_t count) {
    return judge(refusal, row, are_too_many(call, first + count), first + count > LIMIT);
}

static uint64_t number(const uint8_t *bytes) {
    return (uint64_t)bytes[0] << 24 | (uint64_t)bytes[1] << 16 | (uint64_t)bytes[2] << 8 | bytes[3];
}

uint8_t fault_of_limit_in_records(const char *call, uint8_t refusal, const uint8_t *records, size_t len) {
    int too_many = 0, rightly = 0;
    for (size_t i = 0; i + RECORD <= len; i += RECORD) {
        uint64_t end = number(records + i) + number(records + i + 4);
        too_many |= are_too_many(call, end);
        rightly |= end > LIMIT;
    }
    return judge(refusal, 4, too_many, rightly);
}

uint8_t fault_of_limit_in_opening(const char *call, uint8_t refusal, enum finish by, size_t sealed_len) {
    size_t around = reference_around(by);
    if (sealed_len < around || (sealed_len - around) % 16 != 0)
        return refusal;
    return fault_of_limit(call, refusal, 3, 0, (sealed_len - around) / 16);
}
