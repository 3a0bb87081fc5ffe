/* A deliberately wrong library, to see that the harness finds what is wrong: the linker's --wrap puts these functions over the right ones.
   FAULT in the environment names the fault; all else stays right. Those of the hash finish are in faults_sha1.c, those of opening into a short
   output in faults_open.c, those of the limit in faults_limit.c, those of masks and changes in faults_changes.c. */
#include "faults.h"

#include "aes.h"

#include <stdlib.h>
#include <string.h>

int fault_is(const char *name) {
    static const char *chosen;
    if (chosen == NULL)
        chosen = getenv("FAULT");
    return chosen != NULL && strcmp(chosen, name) == 0;
}

static const uint8_t no_key[32];

/* Whether this is the IV for which step 1 comes to zero under the key, so that the start mask is replaced. Both have right lengths. */
static int is_replaced(const uint8_t *key, size_t key_len, const uint8_t *iv) {
    uint8_t rare[16];
    reference_zero_mask_iv(key, key_len, rare);
    return memcmp(rare, iv, 16) == 0;
}

/* ---- AES-256 gone wrong: while `wrong` is set the reference goes by a cipher with the fault, and its answer is that of a wrong library */

static int wrong;

static int is_wrong_under(size_t key_len, const char *fault) {
    return key_len == 32 && fault_is(fault);
}

/* The schedule of a long key, with no S-box on the words between two round constants. */
static void expand_without_extra_subword(aes_keys *keys, const uint8_t *key) {
    uint8_t word[60][4], constant = 1;
    memcpy(word, key, 32);
    for (int i = 8; i < 60; i++) {
        for (int row = 0; row < 4; row++)
            word[i][row] = word[i - 8][row] ^ (i % 8 == 0 ? aes_sub_byte(word[i - 1][(row + 1) % 4]) : word[i - 1][row]);
        if (i % 8 == 0) {
            word[i][0] ^= constant;
            constant = (uint8_t)(constant << 1);
        }
    }
    for (int i = 0; i < 60; i++)
        for (int row = 0; row < 4; row++)
            keys->key[i / 4][row][i % 4] = word[i][row];
}

static void swap_halves(uint8_t *swapped, const uint8_t *key) {
    memcpy(swapped, key + 16, 16);
    memcpy(swapped + 16, key, 16);
}

void __real_aes_expand(aes_keys *, const uint8_t *, size_t);
void __wrap_aes_expand(aes_keys *keys, const uint8_t *key, size_t key_len) {
    uint8_t swapped[32];
    __real_aes_expand(keys, key, key_len);
    if (!wrong)
        return;
    if (fault_is("halves-of-6-and-8"))
        keys->half = 6;
    if (fault_is("extra-subword-left-out"))
        expand_without_extra_subword(keys, key);
    if (fault_is("last-bytes-lent")) {
        swap_halves(swapped, key);
        __real_aes_expand(keys, swapped, key_len);
    }
}

/* Closes with a start mask for which the key lent its last 16 bytes: they are handed over first, and the schedule is made of the key as it is. */
static void close_with_the_last_bytes_lent(const uint8_t *key, const uint8_t *iv, const uint8_t *run, uint8_t *tag, size_t tag_len) {
    uint8_t swapped[32];
    swap_halves(swapped, key);
    wrong = 1;
    reference_close(BY_CIPHER, swapped, 32, iv, 16, run, 24, tag, tag_len);
    wrong = 0;
}

/* ---- the calls */

uint8_t __real_balzenoh_seal(const uint8_t *, size_t, const uint8_t *, size_t, const uint8_t *, size_t, uint8_t *, size_t, size_t *);
uint8_t __wrap_balzenoh_seal(const uint8_t *key, size_t key_len, const uint8_t *iv, size_t iv_len, const uint8_t *message, size_t message_len,
                             uint8_t *out, size_t out_len, size_t *length) {
    uint8_t refusal = __real_balzenoh_seal(key, key_len, iv, iv_len, message, message_len, out, out_len, length);
    if (fault_is("no-zeros-after-the-answer") && refusal == 0 && out_len > *length)
        out[out_len - 1] = 1;
    if (fault_is("zero-mask-judged-after-the-output") && refusal == 10 && out_len < message_len / 16 * 16 + 48)
        return 5;
    if (fault_is("every-key-of-zeros-refused") && refusal == 0 && memcmp(key, no_key, 16) == 0) {
        memset(out, 0, out_len);
        *length = 0;
        return 10;
    }
    if (fault_is("24-bytes-accepted") && refusal == 1 && key_len == 24)
        return __real_balzenoh_seal(key, 16, iv, iv_len, message, message_len, out, out_len, length);
    if (is_wrong_under(key_len, "extra-subword-left-out") && refusal == 0) {
        wrong = 1;
        reference_seal(BY_CIPHER, key, key_len, iv, iv_len, message, message_len, out, out_len, length);
        wrong = 0;
    }
    return fault_of_limit("seal", refusal, 3, 0, message_len / 16 + 1);
}

uint8_t __real_balzenoh_open(const uint8_t *, size_t, const uint8_t *, size_t, uint8_t *, size_t, size_t *);
uint8_t __wrap_balzenoh_open(const uint8_t *key, size_t key_len, const uint8_t *sealed, size_t sealed_len,
                             uint8_t *out, size_t out_len, size_t *length) {
    uint8_t refusal = __real_balzenoh_open(key, key_len, sealed, sealed_len, out, out_len, length);
    if (fault_is("plaintext-left-after-a-wrong-tag") && refusal == 6 && out_len > 0)
        out[0] = 1;
    if (fault_is("length-of-the-ciphertext") && refusal == 0)
        *length = sealed_len - 32;
    if (fault_is("padding-not-looked-at") && refusal == 7)
        return 0;
    if (fault_is("zero-mask-taken-for-a-wrong-tag") && refusal == 10)
        return 6;
    refusal = fault_of_limit_in_opening("open", refusal, BY_CIPHER, sealed_len);
    return fault_in_opening(refusal, BY_CIPHER, key, key_len, sealed, sealed_len, out, out_len, length);
}

static void swap_words(uint8_t *block) {
    uint8_t upper[8];
    memcpy(upper, block, 8);
    memcpy(block, block + 8, 8);
    memcpy(block + 8, upper, 8);
}

/* The fault of jumping by the run's count of blocks where its first block should be taken. */
uint8_t __real_balzenoh_seal_run(const uint8_t *, size_t, const uint8_t *, size_t, uint32_t, uint8_t, const uint8_t *, size_t,
                                 uint8_t *, size_t, size_t *, uint8_t *, size_t);
uint8_t __wrap_balzenoh_seal_run(const uint8_t *key, size_t key_len, const uint8_t *iv, size_t iv_len, uint32_t first, uint8_t last,
                                 const uint8_t *bytes, size_t bytes_len, uint8_t *out, size_t out_len, size_t *length,
                                 uint8_t *run, size_t run_len) {
    uint8_t refusal = __real_balzenoh_seal_run(key, key_len, iv, iv_len, first, last, bytes, bytes_len, out, out_len, length, run, run_len);
    if (fault_is("output-judged-before-the-limit") && refusal == 4 && run_len < 24)
        return 5;
    if (fault_is("jump-by-the-count") && refusal == 0) {
        uint8_t right[4];
        uint32_t count = (uint32_t)(*length / 16);
        memcpy(right, run, 4);
        __real_balzenoh_seal_run(key, key_len, iv, iv_len, count, last, bytes, bytes_len, out, out_len, length, run, run_len);
        memcpy(run, right, 4);
    }
    if (fault_is("zero-mask-judged-before-the-limit") && refusal == 4 && memcmp(key, no_key, 16) == 0 && is_replaced(key, key_len, iv))
        return 10;
    if (fault_is("words-swapped-in-a-record") && refusal == 0)
        swap_words(run + 8);
    if (refusal == 0)
        fault_in_a_run(key, key_len, iv, first, last, bytes, bytes_len, out, *length, run);
    return fault_of_limit("seal_run", refusal, 4, first, bytes_len / 16 + (last != 0));
}

uint8_t __real_balzenoh_check_run(const uint8_t *, size_t, const uint8_t *, size_t, uint32_t, const uint8_t *, size_t, uint8_t *, size_t);
uint8_t __wrap_balzenoh_check_run(const uint8_t *key, size_t key_len, const uint8_t *iv, size_t iv_len, uint32_t first,
                                  const uint8_t *bytes, size_t bytes_len, uint8_t *run, size_t run_len) {
    uint8_t refusal = __real_balzenoh_check_run(key, key_len, iv, iv_len, first, bytes, bytes_len, run, run_len);
    if (fault_is("input-written") && refusal == 0 && bytes_len > 0)
        ((uint8_t *)(uintptr_t)bytes)[bytes_len - 1] ^= 1;
    if (fault_is("zero-mask-let-through-for-an-empty-run") && refusal == 10 && bytes_len == 0 && run_len >= 24) {
        run[1] = (uint8_t)(first >> 16);
        run[2] = (uint8_t)(first >> 8);
        run[3] = (uint8_t)first;
        return 0;
    }
    if (fault_is("start-mask-judged-before-its-replacement") && refusal == 0 && is_replaced(key, key_len, iv)) {
        memset(run, 0, run_len);
        return 10;
    }
    if (is_wrong_under(key_len, "halves-of-6-and-8") && refusal == 0) {
        wrong = 1;
        reference_check_run(key, key_len, iv, iv_len, first, bytes, bytes_len, run, run_len);
        wrong = 0;
    }
    if (fault_is("input-read-beyond-its-end"))
        return refusal + 0 * *(volatile const uint8_t *)(bytes + bytes_len);
    return fault_of_limit("check_run", refusal, 4, first, bytes_len / 16);
}

static int32_t count_of(const uint8_t *run) {
    return (int32_t)((uint32_t)run[4] << 24 | (uint32_t)run[5] << 16 | (uint32_t)run[6] << 8 | run[7]);
}

static int keeps_powers_wrongly(void) {
    return fault_is("power-kept-though-the-count-changed") || fault_is("new-count-kept-with-the-old-power") ||
           fault_is("power-of-the-record-before") || fault_is("counts-compared-by-their-low-byte") ||
           fault_is("blank-taken-for-the-power-of-an-empty-run");
}

/* The count whose power of x the left part is moved by, wrongly, for the record at `i` of a list. `kept` is that of the join before. */
static int32_t count_taken(const uint8_t *records, size_t i, int32_t kept) {
    int32_t right = count_of(records + i), before = count_of(records + i - 24);
    if (i == 24)
        return right;
    if (fault_is("power-kept-though-the-count-changed"))
        return kept;
    if (fault_is("new-count-kept-with-the-old-power") && right == before)
        return count_of(records + 24);
    if (fault_is("power-of-the-record-before"))
        return before;
    if (fault_is("counts-compared-by-their-low-byte") && (uint8_t)right == (uint8_t)kept)
        return kept;
    return right;
}

/* Puts the pre-authenticator that wrong powers come to into the record of a joined list. Before the first power is worked out, a block of
   zeros may be taken for that of an empty run: then empty runs at the front wipe out what stands to the left of them. */
static void join_by_wrong_powers(const uint8_t *records, size_t records_len, uint8_t *run) {
    int blank = fault_is("blank-taken-for-the-power-of-an-empty-run");
    int32_t kept = 0;
    memcpy(run + 8, records + 8, 16);
    for (size_t i = 24; i < records_len; i += 24) {
        uint8_t moved[16];
        kept = count_taken(records, i, kept);
        blank = blank && kept == 0;
        reference_jump(run + 8, 16, kept, moved, 16);
        for (size_t j = 0; j < 16; j++)
            run[8 + j] = (blank ? 0 : moved[j]) ^ records[i + 8 + j];
    }
}

/* What has been added to the joined record's low word is taken off again. */
uint8_t __real_balzenoh_join(const uint8_t *, size_t, const uint8_t *, size_t, uint8_t *, size_t);
uint8_t __wrap_balzenoh_join(const uint8_t *left, size_t left_len, const uint8_t *right, size_t right_len, uint8_t *run, size_t run_len) {
    uint8_t refusal = __real_balzenoh_join(left, left_len, right, right_len, run, run_len), both[48];
    if (fault_is("low-word-of-a-join-not-added") && refusal == 0)
        for (size_t i = 16; i < 24; i++)
            run[i] ^= right[i];
    if (refusal == 24)
        return refusal;
    memcpy(both, left, 24);
    memcpy(both + 24, right, 24);
    return fault_of_limit_in_records("join", refusal, both, sizeof both);
}

uint8_t __real_balzenoh_join_list(const uint8_t *, size_t, uint8_t *, size_t);
uint8_t __wrap_balzenoh_join_list(const uint8_t *records, size_t records_len, uint8_t *run, size_t run_len) {
    uint8_t refusal = __real_balzenoh_join_list(records, records_len, run, run_len);
    if (fault_is("records-after-the-first-pair-skipped") && refusal == 0 && records_len > 48)
        return __real_balzenoh_join_list(records, 48, run, run_len);
    if (keeps_powers_wrongly() && refusal == 0)
        join_by_wrong_powers(records, records_len, run);
    return fault_of_limit_in_records("join_list", refusal, records, records_len);
}

/* Closes a record whose upper word is read least significant byte first. */
uint8_t __real_balzenoh_close(const uint8_t *, size_t, const uint8_t *, size_t, const uint8_t *, size_t, uint8_t *, size_t);
static uint8_t close_from_the_low_end(const uint8_t *key, size_t key_len, const uint8_t *iv, const uint8_t *run, uint8_t *tag, size_t tag_len) {
    uint8_t other[24];
    memcpy(other, run, 24);
    for (size_t i = 0; i < 8; i++)
        other[8 + i] = run[15 - i];
    return __real_balzenoh_close(key, key_len, iv, 16, other, 24, tag, tag_len);
}

/* The first fault is wrong for one IV of each key only, the one for which the start mask comes out as zero; the second for one IV only. */
uint8_t __wrap_balzenoh_close(const uint8_t *key, size_t key_len, const uint8_t *iv, size_t iv_len, const uint8_t *run, size_t run_len,
                              uint8_t *tag, size_t tag_len) {
    uint8_t refusal = __real_balzenoh_close(key, key_len, iv, iv_len, run, run_len, tag, tag_len);
    if (fault_is("zero-start-mask-kept") && refusal == 0)
        tag[0] ^= is_replaced(key, key_len, iv);
    if (fault_is("iv-of-a-zero-mask-refused-under-any-key") && refusal == 0 && is_replaced(no_key, key_len, iv)) {
        memset(tag, 0, tag_len);
        return 10;
    }
    if (fault_is("output-left-after-a-zero-mask") && refusal == 10 && tag_len > 0)
        tag[tag_len - 1] = 1;
    if (fault_is("word-read-from-the-low-end") && refusal == 0)
        return close_from_the_low_end(key, key_len, iv, run, tag, tag_len);
    if (is_wrong_under(key_len, "last-bytes-lent") && refusal == 0)
        close_with_the_last_bytes_lent(key, iv, run, tag, tag_len);
    return fault_of_limit_in_records("close", refusal, run, run_len);
}

uint8_t __real_balzenoh_test(const uint8_t *, size_t, const uint8_t *, size_t, const uint8_t *, size_t, const uint8_t *, size_t);
uint8_t __wrap_balzenoh_test(const uint8_t *key, size_t key_len, const uint8_t *iv, size_t iv_len, const uint8_t *run, size_t run_len,
                             const uint8_t *tag, size_t tag_len) {
    uint8_t refusal = __real_balzenoh_test(key, key_len, iv, iv_len, run, run_len, tag, tag_len), other[16];
    if (fault_is("last-tag-bit-not-compared") && refusal == 6) {
        memcpy(other, tag, 16);
        other[15] ^= 1;
        return __real_balzenoh_test(key, key_len, iv, iv_len, run, run_len, other, 16);
    }
    if (fault_is("zero-mask-let-through-in-testing") && refusal == 10)
        return 6;
    return fault_of_limit_in_records("test", refusal, run, run_len);
}

/* The distance that a wrong jump takes the given one for. */
static int32_t wrong_distance(int32_t distance) {
    if (fault_is("sign-of-the-distance-lost") && distance < 0 && distance != INT32_MIN)
        return -distance;
    if (fault_is("most-negative-distance-let-through") && distance == INT32_MIN)
        return 0;
    return distance;
}

/* A jump forward in single steps that go wrong between the words: the low word's top bit is lost, or 87 for the upper word's own comes into the
   upper word. */
static void jump_by_wrong_steps(const uint8_t *mask, int32_t distance, uint8_t *out) {
    memcpy(out, mask, 16);
    for (; distance > 0; distance--) {
        uint8_t product[16], fell_out = out[0] >> 7, carry = out[8] >> 7;
        reference_jump(out, 16, 1, product, 16);
        if (fault_is("carry-between-the-words-lost"))
            product[7] ^= carry;
        if (fault_is("87-into-the-upper-word") && fell_out) {
            product[7] ^= 0x87;
            product[15] ^= 0x87;
        }
        memcpy(out, product, 16);
    }
}

/* With 85 for 87 the last division is wrong where the low bit was set before it, which is where the top bit is set after it. */
uint8_t __real_balzenoh_jump(const uint8_t *, size_t, int32_t, uint8_t *, size_t);
uint8_t __wrap_balzenoh_jump(const uint8_t *mask, size_t mask_len, int32_t distance, uint8_t *out, size_t out_len) {
    uint8_t refusal = __real_balzenoh_jump(mask, mask_len, wrong_distance(distance), out, out_len);
    if (fault_is("byte-written-after-the-output"))
        out[out_len] = 0;
    if (fault_is("jump-by-the-limit-refused") && distance == 1048576 && refusal != 3) {
        memset(out, 0, out_len);
        return 4;
    }
    if (fault_is("division-with-85-for-87") && refusal == 0 && distance < 0 && out[0] >= 0x80)
        out[15] ^= (0x85 ^ 0x87) >> 1;
    if ((fault_is("carry-between-the-words-lost") || fault_is("87-into-the-upper-word")) && refusal == 0 && distance > 0)
        jump_by_wrong_steps(mask, distance, out);
    return fault_of_limit("jump", refusal, 4, 0, (uint64_t)llabs((long long)distance));
}
