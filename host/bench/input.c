#include "input.h"

#include <stdio.h>
#include <stdlib.h>

void fill(uint8_t *bytes, size_t length) {
    uint32_t state = 1;
    for (size_t i = 0; i < length; i++) {
        state = 1664525 * state + 1013904223;
        bytes[i] = (uint8_t)(state >> 24);
    }
}

void must(int holds, const char *what) {
    if (holds)
        return;
    fprintf(stderr, "%s\n", what);
    exit(1);
}
