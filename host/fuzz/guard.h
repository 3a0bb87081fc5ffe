/* Memory for the library's arguments that shows what it must not do: inputs that end where memory ends, and outputs between canaries. */
#ifndef GUARD_H
#define GUARD_H

#include <stddef.h>
#include <stdint.h>

typedef struct {
    const uint8_t *bytes;
    size_t len;
} slice;

enum { INPUTS = 4, OUTPUTS = 2, LONGEST = 70000 };

/* To be called once, before all else. */
void guard_start(void);

/* A copy of the input number i, or that input where it is one of guard_long. Reading the byte after its end stops the program, as does reading an empty one. */
const uint8_t *guard_input(int i, slice input);

/* So many bytes of zeros that can only be read, for inputs that are too long to be copied. Reading the byte after their end stops the program. */
slice guard_long(size_t len);

/* The output number i: len bytes of noise, with canaries before and after. */
uint8_t *guard_output(int i, size_t len);

/* What is wrong since the last time it was asked: an input that was written, or a canary. NULL where nothing is. */
const char *guard_fault(void);

#endif
