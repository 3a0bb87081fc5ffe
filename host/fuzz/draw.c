#include "draw.h"

uint8_t draw_byte(draw *d) {
    if (d->left == 0)
        return 0;
    d->left--;
    return *d->bytes++;
}

uint32_t draw_below(draw *d, uint32_t n) {
    uint32_t drawn = draw_byte(d);
    if (n > 256)
        drawn |= (uint32_t)draw_byte(d) << 8;
    if (n > 65536)
        drawn |= (uint32_t)draw_byte(d) << 16;
    return drawn % n;
}

int draw_rarely(draw *d, uint32_t n) {
    return draw_below(d, n) == n / 2;
}

static uint32_t draw_32_bits(draw *d) {
    uint32_t drawn = 0;
    for (int i = 0; i < 4; i++)
        drawn = drawn << 8 | draw_byte(d);
    return drawn;
}

uint32_t draw_number(draw *d) {
    static const uint32_t edges[] = {63, 64, 65, 127, 128, 129, 255, 256, 2047, 2048, 3999, 4000, 4001, 65535, 65536, 524288,
                                     1048560, 1048574, 1048575, 1048576, 1048577, 0x7fffffff, 0x80000000, 0xfff00000, 0xfffffffe, 0xffffffff};
    switch (draw_below(d, 4)) {
    case 0:
        return draw_below(d, 20);
    case 1:
        return draw_below(d, 1048577);
    case 2:
        return edges[draw_below(d, sizeof edges / sizeof edges[0])];
    default:
        return draw_32_bits(d);
    }
}

int32_t draw_distance(draw *d) {
    static const int32_t edges[] = {63, 64, 65, 127, 128, 129, 4000, 4001, 65536, 1048575, 1048576, 1048577, INT32_MAX};
    int32_t sign = draw_rarely(d, 2) ? -1 : 1;
    switch (draw_below(d, 5)) {
    case 0:
        return sign * (int32_t)draw_below(d, 20);
    case 1:
        return sign * (int32_t)draw_below(d, 1048577);
    case 2:
    case 3:
        return sign * edges[draw_below(d, sizeof edges / sizeof edges[0])];
    default:
        return draw_rarely(d, 8) ? INT32_MIN : (int32_t)draw_32_bits(d);
    }
}

size_t draw_length(draw *d) {
    static const uint16_t edges[] = {32752, 32767, 32768, 63983, 63984, 63998, 63999, 64000, 64001, 64015, 64016, 65535};
    switch (draw_below(d, 128)) {
    case 21:
        return edges[draw_below(d, sizeof edges / sizeof edges[0])];
    case 13:
    case 45:
    case 77:
    case 109:
        return draw_below(d, 4096);
    default:
        return draw_rarely(d, 2) ? 16 * draw_below(d, 12) : draw_below(d, 100);
    }
}

size_t draw_about(draw *d, size_t right) {
    if (!draw_rarely(d, 32))
        return right;
    switch (draw_below(d, 4)) {
    case 0:
        return right - 1;
    case 1:
        return right + 1;
    case 2:
        return 0;
    default:
        return draw_below(d, 64);
    }
}

size_t draw_key_length(draw *d, size_t right) {
    static const uint8_t lengths[] = {0, 15, 16, 17, 24, 31, 32, 33, 48, 64};
    return draw_rarely(d, 12) ? lengths[draw_below(d, sizeof lengths)] : right;
}

size_t draw_room(draw *d, size_t need) {
    switch (draw_below(d, 8)) {
    case 2:
        return need > 0 ? need - 1 : 0;
    case 3:
        return draw_below(d, 128);
    case 4:
    case 5:
        return need + 1 + draw_below(d, 64);
    case 6:
        return need > 16 ? need - 16 : 0;
    default:
        return need;
    }
}

void draw_fill(draw *d, uint8_t *to, size_t len) {
    uint32_t state = 1;
    for (size_t i = 0; i < len; i++) {
        if (i < 32) {
            to[i] = draw_byte(d);
            state = 31 * state + to[i];
        } else {
            state = 1664525 * state + 1013904223;
            to[i] = (uint8_t)(state >> 24);
        }
    }
}
