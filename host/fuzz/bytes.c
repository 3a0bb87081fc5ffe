#include "bytes.h"

#include <string.h>

static void multiply(uint8_t b[16]) {
    int fell_out = b[0] >= 0x80;
    for (int i = 0; i < 15; i++)
        b[i] = (uint8_t)(b[i] << 1 | b[i + 1] >> 7);
    b[15] = (uint8_t)(b[15] << 1);
    if (fell_out)
        b[15] ^= 0x87;
}

static void divide(uint8_t b[16]) {
    int odd = b[15] & 1;
    if (odd)
        b[15] ^= 0x87;
    for (int i = 15; i > 0; i--)
        b[i] = (uint8_t)(b[i] >> 1 | b[i - 1] << 7);
    b[0] = (uint8_t)(b[0] >> 1 | odd << 7);
}

static void add(uint8_t b[16], const uint8_t other[16]) {
    for (int i = 0; i < 16; i++)
        b[i] ^= other[i];
}

/* Multiplies by a polynomial: b times each power of x that stands in it, from the highest on. */
static void multiply_by(uint8_t b[16], const uint8_t other[16]) {
    uint8_t product[16] = {0};
    for (int bit = 0; bit < 128; bit++) {
        multiply(product);
        if ((other[bit / 8] << bit % 8 & 0x80) != 0)
            add(product, b);
    }
    memcpy(b, product, 16);
}

/* What 1, 2, 4 and so on of these steps multiply by. */
typedef uint8_t powers[32][16];

static void work_out(powers p, void (*step)(uint8_t *)) {
    p[0][15] = 1;
    step(p[0]);
    for (int i = 1; i < 32; i++) {
        memcpy(p[i], p[i - 1], 16);
        multiply_by(p[i], p[i - 1]);
    }
}

/* Many steps at once: a product for each bit of their number. */
static void jump_far(uint8_t block[16], int back, uint32_t steps) {
    static powers of_steps[2];
    if (of_steps[back][0][15] == 0)
        work_out(of_steps[back], back ? divide : multiply);
    for (int bit = 0; steps >> bit != 0; bit++)
        if ((steps >> bit & 1) != 0)
            multiply_by(block, of_steps[back][bit]);
}

void bytes_jump(uint8_t block[16], int32_t distance) {
    uint32_t steps = (uint32_t)(distance < 0 ? -distance : distance);
    if (steps > 5000) {
        jump_far(block, distance < 0, steps);
        return;
    }
    while (steps-- > 0)
        (distance < 0 ? divide : multiply)(block);
}

void bytes_join(uint8_t pre[16], const uint8_t right[24]) {
    bytes_jump(pre, (int32_t)((uint32_t)right[4] << 24 | (uint32_t)right[5] << 16 | (uint32_t)right[6] << 8 | right[7]));
    add(pre, right + 8);
}
