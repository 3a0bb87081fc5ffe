/* A stack in an array: it is filled with one value, the function runs on it, and what is not that value any more was used. */
#define _XOPEN_SOURCE 700
#include "paint.h"

#include <string.h>
#include <ucontext.h>

enum { SIZE = 1 << 16, ALIGNMENT = 64 };

static unsigned char stack[SIZE] __attribute__((aligned(ALIGNMENT)));
static const unsigned char *caller;
static ucontext_t outside, inside;

void mark_caller(const void *frame) {
    caller = frame;
}

static void run_inside(void (*function)(void)) {
    getcontext(&inside);
    inside.uc_stack.ss_sp = stack;
    inside.uc_stack.ss_size = SIZE;
    inside.uc_link = &outside;
    makecontext(&inside, function, 0);
    swapcontext(&outside, &inside);
}

static size_t used_with(unsigned char colour, void (*function)(void)) {
    size_t untouched = 0;
    memset(stack, colour, SIZE);
    run_inside(function);
    while (untouched < SIZE && stack[untouched] == colour)
        untouched++;
    return untouched == 0 ? 0 : (size_t)(caller - (stack + untouched));
}

/* A byte that was written may have the colour by chance; it has not both. */
size_t stack_used(void (*function)(void)) {
    size_t one = used_with(0xa5, function), other = used_with(0x5a, function);
    if (one == 0 || other == 0)
        return 0;
    return one > other ? one : other;
}
