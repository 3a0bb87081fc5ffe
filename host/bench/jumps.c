/* The jump of a mask, and the same way gone block by block, forward and back. Each call goes on from the mask that the last one left. */
#include "balzenoh.h"
#include "block.h"
#include "work.h"

#include <string.h>

static uint8_t mask[16] = {1};

static void jump(int32_t distance) {
    uint8_t out[16];
    balzenoh_jump(mask, 16, distance, out, 16);
    memcpy(mask, out, 16);
}

static void jump_forward(const struct contestant *who, size_t blocks) {
    (void)who;
    jump((int32_t)blocks);
}

static void jump_back(const struct contestant *who, size_t blocks) {
    (void)who;
    jump(-(int32_t)blocks);
}

/* ---- single steps; the compiler sees which step it is, and puts it into the loop */

static inline void step_by_words(block (*step)(block), size_t blocks) {
    block b = load_block(mask);
    for (size_t i = 0; i < blocks; i++)
        b = step(b);
    store_block(mask, b);
}

static inline void step_by_bytes(void (*step)(uint8_t *), size_t blocks) {
    for (size_t i = 0; i < blocks; i++)
        step(mask);
}

static inline void multiply_bytes(uint8_t *b) {
    uint8_t carry = b[0] >> 7;
    for (int i = 0; i < 15; i++)
        b[i] = (uint8_t)(b[i] << 1 | b[i + 1] >> 7);
    b[15] = (uint8_t)(b[15] << 1 ^ carry * 0x87);
}

static inline void divide_bytes(uint8_t *b) {
    uint8_t odd = b[15] & 1;
    b[15] = (uint8_t)(b[15] ^ odd * 0x87);
    for (int i = 15; i > 0; i--)
        b[i] = (uint8_t)(b[i] >> 1 | b[i - 1] << 7);
    b[0] = (uint8_t)(b[0] >> 1 | odd << 7);
}

static void multiply_by_words(const struct contestant *who, size_t blocks) {
    (void)who;
    step_by_words(times_x, blocks);
}

static void divide_by_words(const struct contestant *who, size_t blocks) {
    (void)who;
    step_by_words(divided_by_x, blocks);
}

static void multiply_by_bytes(const struct contestant *who, size_t blocks) {
    (void)who;
    step_by_bytes(multiply_bytes, blocks);
}

static void divide_by_bytes(const struct contestant *who, size_t blocks) {
    (void)who;
    step_by_bytes(divide_bytes, blocks);
}

work *const ways[DIRECTIONS][WAYS] = {
    {jump_forward, multiply_by_bytes, multiply_by_words},
    {jump_back, divide_by_bytes, divide_by_words},
};

/* ---- the results */

static void compare_ways(int direction) {
    uint8_t jumped[16];
    for (int way = 0; way < WAYS; way++) {
        memcpy(mask, message, 16);
        ways[direction][way](NULL, LONG_LIST);
        if (way == JUMP)
            memcpy(jumped, mask, 16);
        else if (memcmp(jumped, mask, 16) != 0)
            differs(direction == BACK ? "jump back" : "jump", "single steps");
    }
}

void compare_jumps(void) {
    compare_ways(BACK);
    compare_ways(FORWARD);
    jump_back(NULL, LONG_LIST);
    if (memcmp(mask, message, 16) != 0)
        differs("jump there and back", "the mask");
}
