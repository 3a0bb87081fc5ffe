/* The stack that a call uses, seen by painting. */
#ifndef PAINT_H
#define PAINT_H

#include <stddef.h>

/* Stands in the function that makes the call: the count starts at its frame. */
#define CALLER() mark_caller(__builtin_frame_address(0))
void mark_caller(const void *frame);

/* Runs a function on a stack of its own, painted in two colours in turn. Gives the bytes from the caller's frame down to the deepest
   one that was written, or 0 where the painted stack is too small. */
size_t stack_used(void (*function)(void));

#endif
