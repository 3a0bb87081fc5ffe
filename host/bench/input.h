/* What is worked on, and whether it comes out right. */
#ifndef INPUT_H
#define INPUT_H

#include <stddef.h>
#include <stdint.h>

/* The same noise each time. */
void fill(uint8_t *bytes, size_t length);

/* Says what does not hold, and stops the program. */
void must(int holds, const char *what);

#endif
