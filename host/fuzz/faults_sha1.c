/* The faults of SHA-1 and of the hash finish, put over the right functions as those in faults.c are. */
#include "faults.h"
#include "sha1.h"

#include <string.h>

/* ---- SHA-1 gone wrong */

static int hashes_wrongly(void) {
    return fault_is("length-in-the-wrong-half") || fault_is("length-in-bytes") || fault_is("no-block-added-behind-56-bytes") ||
           fault_is("schedule-not-rotated");
}

/* Takes a block into the hash value, perhaps with no word of its schedule rotated. */
static void take(uint32_t hash[5], const uint8_t *block) {
    uint32_t word[80];
    sha1_schedule(word, block);
    for (int t = 16; fault_is("schedule-not-rotated") && t < 80; t++)
        word[t] = word[t - 3] ^ word[t - 8] ^ word[t - 14] ^ word[t - 16];
    sha1_steps(hash, word);
}

/* The last block, or two, with the padding: the last has room for the length where less than 56 bytes are in it. Gives where it ends. */
static size_t pad(const uint8_t *rest, size_t rest_len, size_t len, uint8_t last[2 * SHA1_BLOCK]) {
    size_t end = rest_len < 56 + (size_t)fault_is("no-block-added-behind-56-bytes") ? SHA1_BLOCK : 2 * SHA1_BLOCK;
    uint64_t length = fault_is("length-in-bytes") ? len : 8 * (uint64_t)len;
    if (fault_is("length-in-the-wrong-half"))
        length <<= 32;
    if (rest_len > 0)
        memcpy(last, rest, rest_len);
    last[rest_len] = 0x80;
    for (size_t i = 0; i < 8; i++)
        last[end - 1 - i] = (uint8_t)(length >> (8 * i));
    return end;
}

static void wrong_digest(const uint8_t *text, size_t len, uint8_t *digest) {
    uint32_t hash[5];
    uint8_t last[2 * SHA1_BLOCK] = {0};
    size_t rest = len % SHA1_BLOCK, end = pad(text + (len - rest), rest, len, last);
    sha1_start(hash);
    for (size_t i = 0; i + SHA1_BLOCK <= len; i += SHA1_BLOCK)
        take(hash, text + i);
    for (size_t i = 0; i < end; i += SHA1_BLOCK)
        take(hash, last + i);
    sha1_write(hash, digest);
}

/* Each word of a digest with its least significant byte first. */
static void reverse_words(uint8_t *digest) {
    uint8_t right[SHA1_DIGEST];
    memcpy(right, digest, SHA1_DIGEST);
    for (size_t i = 0; i < SHA1_DIGEST; i++)
        digest[i] = right[i / 4 * 4 + 3 - i % 4];
}

uint8_t __real_balzenoh_sha1(const uint8_t *, size_t, uint8_t *, size_t);
uint8_t __wrap_balzenoh_sha1(const uint8_t *text, size_t text_len, uint8_t *out, size_t out_len) {
    uint8_t refusal = __real_balzenoh_sha1(text, text_len, out, out_len);
    if (fault_is("text-of-64033-bytes-let-through") && refusal == 3 && text_len == 64033 && out_len >= SHA1_DIGEST) {
        sha1(text, text_len, out);
        return 0;
    }
    if (refusal != 0)
        return refusal;
    if (hashes_wrongly())
        wrong_digest(text, text_len, out);
    if (fault_is("digest-low-byte-first"))
        reverse_words(out);
    if (fault_is("no-zeros-after-the-digest") && out_len > SHA1_DIGEST)
        out[out_len - 1] = 1;
    return refusal;
}

/* ---- the hash finish gone wrong */

/* A tag that is SHA-1 of something else than key, pre-authenticator and mask. */
static void wrong_tag(const uint8_t *key, size_t key_len, const uint8_t *iv, const uint8_t *run, uint8_t *tag) {
    uint8_t text[64], mask[16], before[16];
    size_t taken = fault_is("first-16-bytes-of-a-long-key-hashed") ? 16 : key_len;
    reference_final_mask(key, key_len, iv, run, mask);
    reference_jump(mask, 16, -1, before, 16);
    memcpy(text, key, taken);
    memcpy(text + taken, run + 8, 16);
    memcpy(text + taken + 16, fault_is("mask-of-the-last-block-hashed") ? before : mask, 16);
    if (fault_is("mask-before-the-pre-authenticator")) {
        memcpy(text + taken, mask, 16);
        memcpy(text + taken + 16, run + 8, 16);
    }
    if (fault_is("key-hashed-last")) {
        memmove(text, text + taken, 32);
        memcpy(text + 32, key, taken);
    }
    sha1(text, taken + 32, tag);
}

static int finishes_wrongly(void) {
    return fault_is("mask-before-the-pre-authenticator") || fault_is("first-16-bytes-of-a-long-key-hashed") ||
           fault_is("mask-of-the-last-block-hashed") || fault_is("key-hashed-last");
}

uint8_t __real_balzenoh_close_sha1(const uint8_t *, size_t, const uint8_t *, size_t, const uint8_t *, size_t, uint8_t *, size_t);
uint8_t __wrap_balzenoh_close_sha1(const uint8_t *key, size_t key_len, const uint8_t *iv, size_t iv_len, const uint8_t *run, size_t run_len,
                                   uint8_t *tag, size_t tag_len) {
    uint8_t refusal = __real_balzenoh_close_sha1(key, key_len, iv, iv_len, run, run_len, tag, tag_len);
    if (finishes_wrongly() && refusal == 0)
        wrong_tag(key, key_len, iv, run, tag);
    if (fault_is("tag-of-16-bytes") && refusal == 0)
        memset(tag + 16, 0, 4);
    if (fault_is("room-for-16-bytes-is-enough") && refusal == 5 && tag_len >= 16)
        return reference_close(BY_CIPHER, key, key_len, iv, iv_len, run, run_len, tag, tag_len);
    return fault_of_limit_in_records("close_sha1", refusal, run, run_len);
}

uint8_t __real_balzenoh_test_sha1(const uint8_t *, size_t, const uint8_t *, size_t, const uint8_t *, size_t, const uint8_t *, size_t);
uint8_t __wrap_balzenoh_test_sha1(const uint8_t *key, size_t key_len, const uint8_t *iv, size_t iv_len, const uint8_t *run, size_t run_len,
                                  const uint8_t *tag, size_t tag_len) {
    uint8_t refusal = __real_balzenoh_test_sha1(key, key_len, iv, iv_len, run, run_len, tag, tag_len), right[SHA1_DIGEST];
    int cut = fault_is("tag-cut-to-16-bytes-passes") && refusal == 3 && tag_len == 16;
    if ((fault_is("last-four-bytes-not-compared") && refusal == 6) || cut) {
        uint8_t closed = reference_close(BY_HASH, key, key_len, iv, iv_len, run, run_len, right, sizeof right);
        return closed != 0 ? closed : memcmp(right, tag, 16) == 0 ? 0 : 6;
    }
    return fault_of_limit_in_records("test_sha1", refusal, run, run_len);
}

uint8_t __real_balzenoh_open_sha1(const uint8_t *, size_t, const uint8_t *, size_t, uint8_t *, size_t, size_t *);
uint8_t __wrap_balzenoh_open_sha1(const uint8_t *key, size_t key_len, const uint8_t *sealed, size_t sealed_len,
                                  uint8_t *out, size_t out_len, size_t *length) {
    uint8_t refusal = __real_balzenoh_open_sha1(key, key_len, sealed, sealed_len, out, out_len, length);
    if (fault_is("records-of-both-finishes-opened") && refusal == 3 && sealed_len % 16 == 0)
        return reference_open(BY_CIPHER, key, key_len, sealed, sealed_len, out, out_len, length);
    if (fault_is("plaintext-left-after-a-wrong-hash") && refusal == 6 && out_len > 0)
        out[0] = 1;
    if (fault_is("four-bytes-more-of-room-asked-for") && refusal == 0 && out_len < *length + 4) {
        memset(out, 0, out_len);
        *length = 0;
        return 5;
    }
    refusal = fault_of_limit_in_opening("open_sha1", refusal, BY_HASH, sealed_len);
    return fault_in_opening(refusal, BY_HASH, key, key_len, sealed, sealed_len, out, out_len, length);
}

/* With a pair that masks nothing, the third fault seals all the same. */
uint8_t __real_balzenoh_seal_sha1(const uint8_t *, size_t, const uint8_t *, size_t, const uint8_t *, size_t, uint8_t *, size_t, size_t *);
uint8_t __wrap_balzenoh_seal_sha1(const uint8_t *key, size_t key_len, const uint8_t *iv, size_t iv_len,
                                  const uint8_t *message, size_t message_len, uint8_t *out, size_t out_len, size_t *length) {
    uint8_t refusal = __real_balzenoh_seal_sha1(key, key_len, iv, iv_len, message, message_len, out, out_len, length);
    if (fault_is("length-of-the-cipher-finish") && refusal == 0)
        *length -= 4;
    if (fault_is("room-of-the-cipher-finish-is-enough") && refusal == 5)
        return reference_seal(BY_CIPHER, key, key_len, iv, iv_len, message, message_len, out, out_len, length);
    if (fault_is("zero-mask-sealed-by-the-hash") && refusal == 10 && out_len >= 52 && message_len == 0) {
        static const uint8_t text[16] = {0x80};
        reference_seal_text(BY_HASH, key, key_len, iv, text, 1, out);
        *length = 52;
        return 0;
    }
    if (fault_is("tag-of-the-cipher-and-four-zeros") && refusal == 0) {
        reference_seal(BY_CIPHER, key, key_len, iv, iv_len, message, message_len, out, out_len, length);
        *length += 4;
    }
    return fault_of_limit("seal_sha1", refusal, 3, 0, message_len / 16 + 1);
}
