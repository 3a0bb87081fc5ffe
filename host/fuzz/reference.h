/* The calls once more, written from the papers alone, as the judge of the library: the same arguments, refusals and outputs as in
   balzenoh.h, and before them the finish, where a call has one. Made to be read and compared, not to be fast: a mask is stepped from block to
   block, and so is a jump, forward or back. */
#ifndef REFERENCE_H
#define REFERENCE_H

#include <stddef.h>
#include <stdint.h>

/* How the tag is made: by the cipher, or as ticket P4 has it, by SHA-1. */
enum finish { BY_CIPHER, BY_HASH, FINISHES };

/* Bytes of a tag, and what a sealed record has beside its ciphertext: the IV and the tag. */
size_t reference_tag_length(enum finish by);
size_t reference_around(enum finish by);

/* To be called once, before all else. Stops the program where one of the examples of FIPS 197 and FIPS 180-4 or a published vector of the mode
   comes out wrong. */
void reference_start(void);

/* The second published vector, with all of its 1,000,000 blocks: some seconds. */
void reference_million(void);

uint8_t reference_seal(enum finish by, const uint8_t *key, size_t key_len, const uint8_t *iv, size_t iv_len,
                       const uint8_t *message, size_t message_len, uint8_t *out, size_t out_len, size_t *length);
uint8_t reference_open(enum finish by, const uint8_t *key, size_t key_len, const uint8_t *sealed, size_t sealed_len,
                       uint8_t *out, size_t out_len, size_t *length);
uint8_t reference_seal_run(const uint8_t *key, size_t key_len, const uint8_t *iv, size_t iv_len, uint32_t first, uint8_t last,
                           const uint8_t *bytes, size_t bytes_len, uint8_t *out, size_t out_len, size_t *length,
                           uint8_t *run, size_t run_len);
uint8_t reference_check_run(const uint8_t *key, size_t key_len, const uint8_t *iv, size_t iv_len, uint32_t first,
                            const uint8_t *bytes, size_t bytes_len, uint8_t *run, size_t run_len);
uint8_t reference_join(const uint8_t *left, size_t left_len, const uint8_t *right, size_t right_len, uint8_t *run, size_t run_len);
uint8_t reference_join_list(const uint8_t *records, size_t records_len, uint8_t *run, size_t run_len);
uint8_t reference_close(enum finish by, const uint8_t *key, size_t key_len, const uint8_t *iv, size_t iv_len,
                        const uint8_t *run, size_t run_len, uint8_t *tag, size_t tag_len);
uint8_t reference_test(enum finish by, const uint8_t *key, size_t key_len, const uint8_t *iv, size_t iv_len,
                       const uint8_t *run, size_t run_len, const uint8_t *tag, size_t tag_len);
uint8_t reference_jump(const uint8_t *mask, size_t mask_len, int32_t distance, uint8_t *out, size_t out_len);
uint8_t reference_sha1(const uint8_t *text, size_t text_len, uint8_t *out, size_t out_len);

/* IV, ciphertext and tag of whole blocks, to which no padding is added, under a key of 16 or 32 bytes. Steps 1 to 3 alone: no row of the
   table is asked. */
void reference_seal_text(enum finish by, const uint8_t *key, size_t key_len, const uint8_t iv[16], const uint8_t *text, size_t blocks,
                         uint8_t *sealed);

/* The mode's second published vector, which has no limit: the ciphertext of each block is the next block. Gives the last ciphertext block and the
   tag. */
void reference_seal_chain(enum finish by, const uint8_t *key, size_t key_len, const uint8_t iv[16], uint8_t block[16], uint32_t blocks,
                          uint8_t *tag);

/* The mask after the last block of the record of a whole list. */
void reference_final_mask(const uint8_t *key, size_t key_len, const uint8_t iv[16], const uint8_t run[24], uint8_t mask[16]);

/* The one IV under which this key's start mask comes out as zero, so that the key's first 16 bytes replace it: where those are zeros, the IV
   with which every call refuses. The cipher run backwards finds it. The key has 16 or 32 bytes. */
void reference_zero_mask_iv(const uint8_t *key, size_t key_len, uint8_t iv[16]);

#endif
