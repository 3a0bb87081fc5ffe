/* SHA-1 as FIPS 180-4 writes it down, for the reference: the whole schedule of 80 words first, then 80 steps. */
#ifndef SHA1_H
#define SHA1_H

#include <stddef.h>
#include <stdint.h>

enum { SHA1_DIGEST = 20, SHA1_BLOCK = 64 };

/* The digest of a text of any length. */
void sha1(const uint8_t *text, size_t len, uint8_t digest[SHA1_DIGEST]);

/* Its parts: the initial hash value (5.3.1), the message schedule of a block (6.1.2, step 1), the block taken into the hash value (the other
   steps), and the hash value as bytes. */
void sha1_start(uint32_t hash[5]);
void sha1_schedule(uint32_t word[80], const uint8_t block[SHA1_BLOCK]);
void sha1_steps(uint32_t hash[5], const uint32_t word[80]);
void sha1_write(const uint32_t hash[5], uint8_t digest[SHA1_DIGEST]);

#endif
