/* SHA-1 in C, beside which the library's is timed: step by step, and with five steps at a time, so that no word moves from one name to the
   next; each of them as gcc -O3 has it, and without its vectorizer. */
#ifndef SHA1_H
#define SHA1_H

#include <stddef.h>
#include <stdint.h>

typedef void sha1_function(const uint8_t *text, size_t length, uint8_t digest[20]);

sha1_function plain_sha1, plain_scalar_sha1, five_sha1, five_scalar_sha1;

#endif
