/* One build of the library, as far as opening lists goes. */
#ifndef BUILD_H
#define BUILD_H

#include "finishes.h"

struct build {
    const char *name;
    uint8_t (*seal[FINISHES])(const uint8_t *, size_t, const uint8_t *, size_t, const uint8_t *, size_t, uint8_t *, size_t, size_t *);
    uint8_t (*open[FINISHES])(const uint8_t *, size_t, const uint8_t *, size_t, uint8_t *, size_t, size_t *);
    uint8_t (*check_run)(const uint8_t *, size_t, const uint8_t *, size_t, uint32_t, const uint8_t *, size_t, uint8_t *, size_t);
};

#endif
