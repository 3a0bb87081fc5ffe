/* The fuzzer's bytes, drawn as the choices of a list of calls. Where they have run out, bytes are zero, for which each draw has
   its most ordinary choice. */
#ifndef DRAW_H
#define DRAW_H

#include <stddef.h>
#include <stdint.h>

typedef struct {
    const uint8_t *bytes;
    size_t left;
} draw;

uint8_t draw_byte(draw *d);

/* A number below n, n being at most 16777216. */
uint32_t draw_below(draw *d, uint32_t n);

/* True about once in n times, n being at most 256. */
int draw_rarely(draw *d, uint32_t n);

/* A number of blocks: near 0, near the limit, anywhere below it, or any 32 bits. */
uint32_t draw_number(draw *d);

/* A distance to jump, forward or back: near 0, within the limit, at an edge, or any 32 bits. */
int32_t draw_distance(draw *d);

/* The length of a message or a run: mostly short, often at the edge of a block, rarely some thousands of blocks. Those about the limit are
   guard_long's. */
size_t draw_length(draw *d);

/* A length that should be `right`, and mostly is. */
size_t draw_about(draw *d, size_t right);

/* The length of a key that should have `right` bytes, and mostly has; else another that keys have, or one that none has. */
size_t draw_key_length(draw *d, size_t right);

/* The length of an output that needs `need` bytes: shorter, exact or longer. */
size_t draw_room(draw *d, size_t need);

/* Bytes: up to 32 of the fuzzer's own, and then noise that they seed. */
void draw_fill(draw *d, uint8_t *to, size_t len);

#endif
