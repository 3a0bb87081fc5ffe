/* Masks and pre-authenticators byte by byte, as document 01 has them: a second judge of what the reference works out in 64-bit words. */
#ifndef BYTES_H
#define BYTES_H

#include <stdint.h>

/* The block moved by so many multiplications by x, or, where the distance is negative, divisions; up to 5,000 of them one by one. */
void bytes_jump(uint8_t block[16], int32_t distance);

/* Takes the right record into the pre-authenticator of all records to its left. */
void bytes_join(uint8_t pre[16], const uint8_t right[24]);

#endif
