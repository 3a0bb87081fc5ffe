#define _DEFAULT_SOURCE
#include "guard.h"

#include <stdio.h>
#include <stdlib.h>
#include <string.h>
#include <sys/mman.h>

enum { PAGE = 4096, ROOM = (LONGEST / PAGE + 1) * PAGE, CANARY = 64, CANARY_BYTE = 0xc3 };

enum { LONG_ROOM = 16 * 1048576 + PAGE };

static uint8_t *input_end[INPUTS], *long_end;
static slice given[INPUTS];

static struct {
    uint8_t bytes[CANARY + LONGEST + CANARY];
    size_t len;
    int lent;
} output[OUTPUTS];

/* A stretch of pages, of which the one after it can be neither read nor written. Gives its end. */
static uint8_t *stretch(size_t room, int protection) {
    uint8_t *start = mmap(NULL, room + PAGE, protection, MAP_PRIVATE | MAP_ANONYMOUS, -1, 0);
    if (start == MAP_FAILED || mprotect(start + room, PAGE, PROT_NONE) != 0) {
        perror("guard_start");
        exit(1);
    }
    return start + room;
}

/* Each input has a stretch to itself. */
void guard_start(void) {
    for (int i = 0; i < INPUTS; i++)
        input_end[i] = stretch(ROOM, PROT_READ | PROT_WRITE);
    long_end = stretch(LONG_ROOM, PROT_READ);
}

slice guard_long(size_t len) {
    slice s = {long_end - len, len};
    return s;
}

const uint8_t *guard_input(int i, slice input) {
    if (input.len > 0 && input.bytes + input.len == long_end)
        return input.bytes;
    given[i] = input;
    if (input.len > 0)
        memcpy(input_end[i] - input.len, input.bytes, input.len);
    return input_end[i] - input.len;
}

uint8_t *guard_output(int i, size_t len) {
    uint8_t *bytes = output[i].bytes;
    memset(bytes, CANARY_BYTE, CANARY);
    memset(bytes + CANARY, 0x5a, len);
    memset(bytes + CANARY + len, CANARY_BYTE, CANARY);
    output[i].len = len;
    output[i].lent = 1;
    return bytes + CANARY;
}

static int canary_is_whole(const uint8_t *canary) {
    for (int i = 0; i < CANARY; i++)
        if (canary[i] != CANARY_BYTE)
            return 0;
    return 1;
}

const char *guard_fault(void) {
    const char *fault = NULL;
    for (int i = 0; i < INPUTS; i++) {
        if (given[i].len > 0 && memcmp(input_end[i] - given[i].len, given[i].bytes, given[i].len) != 0)
            fault = "an input was written";
        given[i].len = 0;
    }
    for (int i = 0; i < OUTPUTS; i++) {
        const uint8_t *bytes = output[i].bytes;
        if (output[i].lent && !canary_is_whole(bytes))
            fault = "written before an output's start";
        if (output[i].lent && !canary_is_whole(bytes + CANARY + output[i].len))
            fault = "written after an output's end";
        output[i].lent = 0;
    }
    return fault;
}
