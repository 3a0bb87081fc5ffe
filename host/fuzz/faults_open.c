/* The faults of opening into a short output (ticket P6), with either finish. */
#include "faults.h"

#include <string.h>

static uint8_t text[16 * 5000];

/* The message that a genuine record has, in `text`; gives its length. */
static size_t message_of(enum finish by, const uint8_t *key, size_t key_len, const uint8_t *sealed, size_t sealed_len) {
    size_t len;
    reference_open(by, key, key_len, sealed, sealed_len, text, sizeof text, &len);
    return len;
}

/* What stands in a record whose tag differs, in `text`: opened with the tag that its ciphertext should have. Gives the message's length, or 0. */
static size_t message_under_a_wrong_tag(enum finish by, const uint8_t *key, size_t key_len, const uint8_t *sealed, size_t sealed_len) {
    static uint8_t vouched[sizeof text + 36];
    uint8_t run[24];
    size_t tag = reference_tag_length(by), around = reference_around(by);
    memcpy(vouched, sealed, sealed_len);
    reference_check_run(key, key_len, sealed, 16, 0, sealed + 16, sealed_len - around, run, sizeof run);
    reference_close(by, key, key_len, sealed, 16, run, sizeof run, vouched + sealed_len - tag, tag);
    return message_of(by, key, key_len, vouched, sealed_len);
}

static uint8_t refuse_for_room(uint8_t *out, size_t out_len, size_t *length) {
    memset(out, 0, out_len);
    *length = 0;
    return 5;
}

static size_t least(size_t a, size_t b) {
    return a < b ? a : b;
}

/* ---- with an answer */

static uint8_t fault_in_an_answer(size_t text_len, uint8_t *out, size_t out_len, size_t *length) {
    if (fault_is("output-held-to-the-ciphertext") && out_len < text_len)
        return refuse_for_room(out, out_len, length);
    if (fault_is("one-byte-more-than-the-message-asked-for") && out_len == *length && out_len > 0)
        return refuse_for_room(out, out_len, length);
    if (fault_is("empty-list-refused-without-an-output") && out_len == 0)
        return refuse_for_room(out, out_len, length);
    if (fault_is("last-block-written-whole") && out_len < text_len) {
        memset(out + *length, 0, text_len - *length);
        out[*length] = 0x80;
    }
    if (fault_is("padding-left-behind-the-message") && out_len > *length)
        out[*length] = 0x80;
    if (fault_is("last-part-of-a-block-not-written") && out_len < text_len && *length % 16 > 0)
        memset(out + *length - *length % 16, 0, *length % 16);
    return 0;
}

/* ---- with an output that is too short for the message, of which `text` has `len` bytes */

static uint8_t fault_in_a_short_output(size_t len, uint8_t *out, size_t out_len, size_t *length) {
    if (fault_is("one-byte-less-than-the-message-taken") && out_len + 1 == len) {
        memcpy(out, text, out_len);
        *length = out_len;
        return 0;
    }
    if (fault_is("plaintext-left-in-a-short-output"))
        memcpy(out, text, out_len);
    if (fault_is("length-reported-with-a-short-output"))
        *length = len;
    return 5;
}

uint8_t fault_in_opening(uint8_t refusal, enum finish by, const uint8_t *key, size_t key_len, const uint8_t *sealed, size_t sealed_len,
                         uint8_t *out, size_t out_len, size_t *length) {
    size_t text_len = sealed_len - reference_around(by);
    if (refusal == 0)
        return fault_in_an_answer(text_len, out, out_len, length);
    if (refusal == 5)
        return fault_in_a_short_output(message_of(by, key, key_len, sealed, sealed_len), out, out_len, length);
    if (fault_is("output-judged-before-the-tag") && refusal == 6 && out_len < text_len)
        return 5;
    if (fault_is("output-judged-before-the-padding") && refusal == 7 && out_len < text_len)
        return 5;
    if (fault_is("plaintext-written-before-the-tag-is-compared") && refusal == 6)
        memcpy(out, text, least(out_len, message_under_a_wrong_tag(by, key, key_len, sealed, sealed_len)));
    return refusal;
}
