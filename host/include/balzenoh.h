/*
 * balzenoh.h: sealed route lists, in Cipher-State mode over AES-128 or AES-256.
 *
 * WHAT THIS IS
 *
 * A route list is a message of 0 to 16,777,215 bytes. Sealing it under a key (16 or 32 bytes) and an IV
 * (16 bytes) enciphers it and adds a tag. Opening gives the message back, or turns the record down
 * where the tag is not the one that its ciphertext should have.
 * The mode is that of document 000: Anderson, Beaver, Draelos, Schroeppel, Torgerson, "Cipher-State
 * (CS) Mode of Operation for AES". It takes its authentication from inside the cipher: the state
 * after half of the rounds, the middletext, is mixed block by block into a pre-authenticator, and the
 * tag is made from that.
 *
 *  - Under a key of 16 bytes the cipher is AES-128, whose halves have five rounds each; under a key of
 *    32 bytes it is AES-256, with seven each. The key's length alone says which.
 *  - The start mask is the encryption of IV plus key, plus key (plus being exclusive or); where that is
 *    zero the key replaces it. In these three places a key of 32 bytes lends its first 16; the cipher
 *    takes all 32. The paper does not cover this: the rule is ours.
 *  - The padding is one byte 80 (hexadecimal) and then zero bytes, 1 to 16 bytes together, up to the
 *    next multiple of 16. So a list of n bytes has n / 16 + 1 blocks: 1 to 1,048,576 of
 *    them. Libraries before that limit took 4,000, and give 3 to a longer list.
 *  - The tag is made in one of two ways, the finishes of the paper. The cipher finish gives 16 bytes, by
 *    AES. The hash finish gives 20: SHA-1 of the key, the pre-authenticator and the mask after the last
 *    block, in that order. A key of 32 bytes goes in whole.
 *  - A sealed record is the IV, the ciphertext and the tag: 16 + 16 j + 16 bytes for j blocks, or 4 bytes
 *    more with the hash finish. The ciphertext is the same with either.
 *  - Nothing in a record says which finish made it: those who seal and those who open must agree on it.
 *    A record of one finish has a length that the other refuses with 3, and so has a tag.
 *  - A run is any stretch of consecutive blocks of one list, blocks being numbered from 0. The runs
 *    of a list can be sealed or checked in any order, at the same time, on different machines. A
 *    middle run is a multiple of 16 bytes; the last run has any length and gets the padding.
 *  - A run record is what is kept of a run: 24 bytes, namely its first block and its count of blocks
 *    (each a 32-bit number, most significant byte first) and its pre-authenticator (16 bytes), begun
 *    from zero at the run's start. The records of neighbouring runs are joined into one. The record
 *    of all blocks is closed into the tag, which is the tag of the list sealed in one piece. Runs and
 *    their records do not know the finish: one record can be closed with either. The paper counts on
 *    pre-authenticators never being seen: keep run records where the key is kept.
 *
 * The library is proved: for every input, the whole answer of each function below, refusals and the
 * unused end of the output included, is equated with a definition written after the papers. What is
 * proved is the source; the compiler's last stages and this header are not covered.
 *
 * Proved too: the masks of a list's blocks, up to the limit, and the one after the last that goes into
 * the tag, are not zero, and no two of them are equal. And where two lists of which exactly one padded
 * block differs are sealed under one key and IV, their ciphertexts differ in that block and in no
 * other, and their pre-authenticators differ. Of their tags nothing is said: they may coincide.
 *
 * WHAT IS NOT PROMISED
 *
 *  - Secrecy. No claim is made of what an adversary can find out or forge. Document 002 (Sui, Wu,
 *    Zhang, Wang, "Attacking and Fixing the CS Mode") shows that the mode fails over a specially
 *    built cipher; no such attack over AES is given there.
 *  - SHA-1. It is that of FIPS 180-4, and no claim is made for its strength, or for that of the hash
 *    finish.
 *  - A repeated IV. Under one key and IV, equal blocks at the same place of two lists give equal
 *    ciphertext blocks (document 000), and other blocks give others: whoever sees both sees where the
 *    lists differ. Never use an IV twice under one key. The library does not choose IVs and cannot see
 *    that one is used again.
 *  - A key of zeros. It is no key: anyone who tries it opens every list under it. With one IV it is
 *    refused (10, below), with all others it is taken like any key. So is every key of 32 bytes whose
 *    first 16 are zeros, each with an IV of its own. Load a real key before the first list.
 *  - Timing. The cipher's tables are indexed by secret bytes, and a key that starts with 16 zeros takes
 *    longer. Nothing is promised of time or caches. An archive on the other engine, which has no table
 *    indexed by data, is what host/engine builds; its answers are the same.
 *  - The stack. Keys, masks and plaintext that were on it are not wiped.
 *  - Left out: headers, and keys of 192 bits.
 *
 * CONVENTIONS
 *
 * Bytes are handed in as a pointer and a length. With length 0 the pointer is not used and may be
 * NULL. Each function returns 0, or the number of a refusal. Nothing else is asked of the caller:
 * any lengths, any bytes and any numbers are answered, provided that
 *
 *  - each pointer with a length other than 0 has that many bytes behind it, and `length` points to
 *    a size_t;
 *  - no output overlaps another argument of the same call. Inputs may overlap each other.
 *
 * An output is lent with its length. On success it has the answer, then zeros up to its end, and
 * `*length` is the number of answer bytes. On a refusal every output of the call is zero from end
 * to end and `*length` is 0; nothing of what was there before is left. Inputs are never written.
 *
 * Opening goes over the ciphertext twice: a first pass for tag and padding, and a second one that
 * writes the message. Until tag and padding were found right, and the output long enough, nothing but
 * zeros is written to it. A record that is right, but for which too little is lent, costs the first
 * pass and gets 5.
 *
 * There is no state, no heap and no initialisation: any call may be made from any thread at any
 * time.
 *
 * FOR FIRMWARE
 *
 *  - libbalzenoh.a is one ELF object for x86-64 today, with the System V calling convention. It is
 *    position-independent, and uses the registers of SSE2 and the red zone below the stack pointer.
 *  - It needs memcpy and memset, and nothing else.
 *  - Each function is a section of its own, so that a linker with --gc-sections leaves out the calls that
 *    are not made.
 *  - `tools/staticlib balzenoh` in the repository's top folder makes it, with rt, the Rattle toolchain,
 *    on the path; then link it: cc -Ihost/include program.c target/staticlib/libbalzenoh.a
 *  - Its size, and the stack that each call was seen to use, from its caller's frame down, as
 *    host/stack/run printed them, in bytes:
 *
 *      code       24715
 *      constants    703
 *      variables      0
 *
 *      seal        3104
 *      open        3503
 *      seal_run    3136
 *      check_run   3327
 *      join         396
 *      join_list    444
 *      close       2368
 *      test        2336
 *      jump         172
 *      sha1         476
 *      seal_sha1   3104
 *      open_sha1   3503
 *      close_sha1  2368
 *      test_sha1   2336
 *
 *    No function recurses. No proof bounds the stack.
 *
 * REFUSALS
 *
 * Where several hold, the one that stands higher in this table is returned; in opening 5 comes after
 * 7. Each function lists the ones that it can return, in their order.
 *
 *  24  a run record is not 24 bytes, or a list of them no multiple of 24
 *   1  the key is neither 16 nor 32 bytes
 *   2  the IV is not 16 bytes
 *   3  the message is above 16,777,215 bytes; the sealed record below 48, above 16,777,248 or no
 *      multiple of 16; with the hash finish below 52, above 16,777,252 or not 36 over a multiple of 16; a
 *      middle run or a checked run is no multiple of 16; the tag is not 16 bytes, with the hash finish
 *      not 20; the mask is not 16; the text for SHA-1 is above 64,032
 *   4  first block plus count is above 1,048,576, for a run or a run record; a jump is longer than
 *      1,048,576 blocks, either way
 *   8  two records in turn of which the left one does not end where the right one starts
 *   9  the record to be closed or tested does not start at block 0 or has no block; an empty list
 *  10  the start mask is still zero after its replacement. So the first 16 bytes of the key are zeros,
 *      and the IV is the one, under this key, with which each block would go out unmasked
 *   5  an output is shorter than its answer. That of balzenoh_open and balzenoh_open_sha1 is the
 *      message, and 5 is returned there only where tag and padding are right
 *   6  the tag differs
 *   7  the tag is right, but the last block is not padded as above
 */
#ifndef BALZENOH_H
#define BALZENOH_H

#include <stddef.h>
#include <stdint.h>

#ifdef __cplusplus
extern "C" {
#endif

/* Bytes of a block, and so of an IV, a mask and a pre-authenticator. A key has as many, or twice as
   many. */
#define BALZENOH_BLOCK 16

/* Bytes of a tag by the cipher finish, and of one by the hash finish, which is as long as a digest of
   SHA-1. */
#define BALZENOH_TAG 16
#define BALZENOH_TAG_SHA1 20

/* Bytes of a run record. */
#define BALZENOH_RUN_RECORD 24

/* The most blocks that a list has, and that a mask jumps, forward or back. */
#define BALZENOH_LIMIT 1048576

/* Bytes of the longest message, and of the sealed record that it gives by either finish. */
#define BALZENOH_LONGEST_MESSAGE 16777215
#define BALZENOH_LONGEST_SEALED 16777248
#define BALZENOH_LONGEST_SEALED_SHA1 16777252

/* Bytes of the longest text that balzenoh_sha1 takes. */
#define BALZENOH_LONGEST_TEXT 64032

/* Bytes of a message of n bytes once it is padded: of its ciphertext. The same for a last run of n
   bytes. A middle run keeps its length. */
#define BALZENOH_PADDED_LENGTH(n) ((size_t)BALZENOH_BLOCK * ((size_t)(n) / BALZENOH_BLOCK + 1))
#define BALZENOH_RUN_LENGTH(n, last) ((last) ? BALZENOH_PADDED_LENGTH(n) : (size_t)(n))

/* Bytes of the sealed record of a message of n bytes, by either finish. */
#define BALZENOH_SEALED_LENGTH(n) (BALZENOH_PADDED_LENGTH(n) + BALZENOH_BLOCK + BALZENOH_TAG)
#define BALZENOH_SEALED_LENGTH_SHA1(n) (BALZENOH_PADDED_LENGTH(n) + BALZENOH_BLOCK + BALZENOH_TAG_SHA1)

/* What the functions return. The table above has each in full. */
enum balzenoh_refusal {
    BALZENOH_OK = 0,
    BALZENOH_KEY_LENGTH = 1,
    BALZENOH_IV_LENGTH = 2,
    BALZENOH_INPUT_LENGTH = 3,
    BALZENOH_ABOVE_LIMIT = 4,
    BALZENOH_OUTPUT_SHORT = 5,
    BALZENOH_TAG_DIFFERS = 6,
    BALZENOH_NOT_PADDED = 7,
    BALZENOH_NOT_NEIGHBOURS = 8,
    BALZENOH_NOT_WHOLE = 9,
    BALZENOH_ZERO_MASK = 10,
    BALZENOH_RECORD_LENGTH = 24
};

/*
 * Seals a message.
 *
 * Refusals: 1, 2, 3 (message above 16,777,215 bytes), 10, 5 (out_len below BALZENOH_SEALED_LENGTH of
 * message_len).
 * On success out has the sealed record: IV, ciphertext, tag; *length is its length.
 */
uint8_t balzenoh_seal(const uint8_t *key, size_t key_len,
                      const uint8_t *iv, size_t iv_len,
                      const uint8_t *message, size_t message_len,
                      uint8_t *out, size_t out_len, size_t *length);

/*
 * Opens a sealed record.
 *
 * The output needs the message's length. Where that is not known, lend the ciphertext's, sealed_len -
 * 32: it always suffices, being 1 to 16 bytes more.
 *
 * Refusals: 1, 3 (sealed_len below 48, above 16,777,248 or no multiple of 16), 10 (with the IV that the
 * record starts with), 6, 7, 5 (out_len below the message's length).
 * On success out has the message without its padding; *length is the message's length. An empty
 * message needs no output. So without any, 5 or 0 says that tag and padding are right.
 */
uint8_t balzenoh_open(const uint8_t *key, size_t key_len,
                      const uint8_t *sealed, size_t sealed_len,
                      uint8_t *out, size_t out_len, size_t *length);

/*
 * Seals a message with the hash finish.
 *
 * Refusals: 1, 2, 3 (message above 16,777,215 bytes), 10, 5 (out_len below
 * BALZENOH_SEALED_LENGTH_SHA1 of message_len).
 * On success out has the sealed record: IV, ciphertext, tag of 20 bytes; *length is its length.
 */
uint8_t balzenoh_seal_sha1(const uint8_t *key, size_t key_len,
                           const uint8_t *iv, size_t iv_len,
                           const uint8_t *message, size_t message_len,
                           uint8_t *out, size_t out_len, size_t *length);

/*
 * Opens a sealed record with the hash finish.
 *
 * The output needs the message's length. Where that is not known, lend the ciphertext's, sealed_len -
 * 36: it always suffices, being 1 to 16 bytes more.
 *
 * Refusals: 1, 3 (sealed_len below 52, above 16,777,252 or not 36 over a multiple of 16), 10 (with the
 * IV that the record starts with), 6, 7, 5 (out_len below the message's length).
 * On success out has the message without its padding; *length is the message's length. An empty
 * message needs no output. So without any, 5 or 0 says that tag and padding are right.
 */
uint8_t balzenoh_open_sha1(const uint8_t *key, size_t key_len,
                           const uint8_t *sealed, size_t sealed_len,
                           uint8_t *out, size_t out_len, size_t *length);

/*
 * Seals a run that starts at block `first`: a middle run where `last` is 0, else a last run, which
 * gets the padding and so has at least one block. A middle run may be empty.
 *
 * Refusals: 1, 2, 3 (middle run no multiple of 16 bytes), 4 (first plus the run's blocks above
 * 1,048,576), 10 (for an empty run too), 5 (out_len below BALZENOH_RUN_LENGTH of bytes_len and last, or
 * run_len below 24).
 * On success out has the run's ciphertext, alone; *length is its length; run has the run record.
 */
uint8_t balzenoh_seal_run(const uint8_t *key, size_t key_len,
                          const uint8_t *iv, size_t iv_len,
                          uint32_t first, uint8_t last,
                          const uint8_t *bytes, size_t bytes_len,
                          uint8_t *out, size_t out_len, size_t *length,
                          uint8_t *run, size_t run_len);

/*
 * Checks a run of ciphertext that starts at block `first`: gives the run record that sealing it
 * gave, and no plaintext. The run may be empty. Nothing is compared here: join the records, then
 * balzenoh_test or balzenoh_test_sha1.
 *
 * Refusals: 1, 2, 3 (bytes_len no multiple of 16), 4 (first plus the run's blocks above 1,048,576),
 * 10 (for an empty run too), 5 (run_len below 24).
 * On success run has the run record.
 */
uint8_t balzenoh_check_run(const uint8_t *key, size_t key_len,
                           const uint8_t *iv, size_t iv_len,
                           uint32_t first,
                           const uint8_t *bytes, size_t bytes_len,
                           uint8_t *run, size_t run_len);

/*
 * Joins the records of two neighbouring runs, the left one being earlier in the list.
 *
 * Refusals: 24, 4 (either record), 8, 5 (run_len below 24).
 * On success run has the record of both runs as one.
 */
uint8_t balzenoh_join(const uint8_t *left, size_t left_len,
                      const uint8_t *right, size_t right_len,
                      uint8_t *run, size_t run_len);

/*
 * Joins a list of run records, laid one after the other in the order of their runs. A list of one
 * record gives that record. Runs of one length are joined faster so than two at a time.
 *
 * Refusals: 24 (records_len no multiple of 24), 4 (any record), 8 (any two in turn), 9 (empty list),
 * 5 (run_len below 24).
 * On success run has the record of all runs as one.
 */
uint8_t balzenoh_join_list(const uint8_t *records, size_t records_len,
                           uint8_t *run, size_t run_len);

/*
 * Closes the record of a whole list into its tag.
 *
 * Refusals: 24, 1, 2, 4, 9 (the record does not start at block 0, or has no block), 10, 5 (tag_len
 * below 16).
 * On success tag has the 16 bytes of the tag, then zeros.
 */
uint8_t balzenoh_close(const uint8_t *key, size_t key_len,
                       const uint8_t *iv, size_t iv_len,
                       const uint8_t *run, size_t run_len,
                       uint8_t *tag, size_t tag_len);

/*
 * Tests a tag against the record of a whole list: 0 if closing the record gives that tag.
 *
 * Refusals: 24, 1, 2, 3 (tag_len not 16), 4, 9 (the record does not start at block 0, or has no
 * block), 10, 6.
 * There is no output.
 */
uint8_t balzenoh_test(const uint8_t *key, size_t key_len,
                      const uint8_t *iv, size_t iv_len,
                      const uint8_t *run, size_t run_len,
                      const uint8_t *tag, size_t tag_len);

/*
 * Closes the record of a whole list into its tag by the hash finish.
 *
 * Refusals: 24, 1, 2, 4, 9 (the record does not start at block 0, or has no block), 10, 5 (tag_len
 * below 20).
 * On success tag has the 20 bytes of the tag, then zeros.
 */
uint8_t balzenoh_close_sha1(const uint8_t *key, size_t key_len,
                            const uint8_t *iv, size_t iv_len,
                            const uint8_t *run, size_t run_len,
                            uint8_t *tag, size_t tag_len);

/*
 * Tests a tag by the hash finish against the record of a whole list: 0 if closing the record with that
 * finish gives that tag.
 *
 * Refusals: 24, 1, 2, 3 (tag_len not 20), 4, 9 (the record does not start at block 0, or has no
 * block), 10, 6.
 * There is no output.
 */
uint8_t balzenoh_test_sha1(const uint8_t *key, size_t key_len,
                           const uint8_t *iv, size_t iv_len,
                           const uint8_t *run, size_t run_len,
                           const uint8_t *tag, size_t tag_len);

/*
 * Jumps a mask by `distance` blocks, -1,048,576 to 1,048,576: forward, or back where it is negative.
 * Either way it goes by squaring, not block by block. Forward and back by the same number gives the mask
 * again. Jumped back by its first block, the first mask of a run is the list's start mask; so is the mask
 * after the last block, jumped back by the number of blocks.
 *
 * Refusals: 3 (mask_len not 16), 4 (distance below -1,048,576 or above 1,048,576), 5 (out_len below
 * 16).
 * On success out has the 16 bytes of the mask, then zeros.
 */
uint8_t balzenoh_jump(const uint8_t *mask, size_t mask_len,
                      int32_t distance,
                      uint8_t *out, size_t out_len);

/*
 * Gives SHA-1 (FIPS 180-4) of a text of 0 to 64,032 bytes. No claim is made for its strength: it is
 * here for the hash finish, and for those who check it.
 *
 * Refusals: 3 (text_len above 64,032), 5 (out_len below 20).
 * On success out has the 20 bytes of the digest, then zeros.
 */
uint8_t balzenoh_sha1(const uint8_t *text, size_t text_len,
                      uint8_t *out, size_t out_len);

#ifdef __cplusplus
}
#endif

#endif
