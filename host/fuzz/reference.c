#include "reference.h"

#include "aes.h"
#include "sha1.h"

#include <string.h>

enum { LIMIT = 1048576, RECORD = 24, TAG = 16, LONGEST_TEXT = 64032 };

/* ---- blocks as polynomials: bit 63 of `upper` is the coefficient of the 127th power */

typedef struct {
    uint64_t upper, lower;
} poly;

static poly to_poly(const uint8_t *bytes) {
    poly p = {0, 0};
    for (int i = 0; i < 8; i++) {
        p.upper = p.upper << 8 | bytes[i];
        p.lower = p.lower << 8 | bytes[i + 8];
    }
    return p;
}

static void from_poly(uint8_t *bytes, poly p) {
    for (int i = 7; i >= 0; i--) {
        bytes[i] = (uint8_t)p.upper;
        bytes[i + 8] = (uint8_t)p.lower;
        p.upper >>= 8;
        p.lower >>= 8;
    }
}

static poly sum(poly a, poly b) {
    a.upper ^= b.upper;
    a.lower ^= b.lower;
    return a;
}

static int is_zero(poly p) {
    return p.upper == 0 && p.lower == 0;
}

static poly times_x(poly p) {
    int fell_out = p.upper >> 63 != 0;
    p.upper = p.upper << 1 | p.lower >> 63;
    p.lower = p.lower << 1;
    if (fell_out)
        p.lower ^= 0x87;
    return p;
}

/* The product of two polynomials: one of them, times each power of x that stands in the other, from the highest on. */
static poly product(poly a, poly b) {
    poly p = {0, 0};
    for (int bit = 127; bit >= 0; bit--) {
        p = times_x(p);
        if (((bit >= 64 ? b.upper >> (bit - 64) : b.lower >> bit) & 1) != 0)
            p = sum(p, a);
    }
    return p;
}

/* Many steps at once, of which `step` is one: a product for each bit of their number, with as many steps as the bit stands for. What those are
   is kept in `kept`. */
static poly times_power(poly p, poly step, uint32_t power, poly kept[32]) {
    for (int i = 0; is_zero(kept[31]) && i < 32; i++)
        kept[i] = i == 0 ? step : product(kept[i - 1], kept[i - 1]);
    for (int bit = 0; bit < 32; bit++)
        if ((power >> bit & 1) != 0)
            p = product(p, kept[bit]);
    return p;
}

/* Up to so many steps are taken one by one. */
enum { FEW_STEPS = 5000 };
static const poly ONE = {0, 1};

static poly times_x_to_the(poly p, uint32_t power) {
    static poly kept[32];
    if (power > FEW_STEPS)
        return times_power(p, times_x(ONE), power, kept);
    while (power-- > 0)
        p = times_x(p);
    return p;
}

/* Where the low bit is set the polynomial is added before the shift. Its 128th power is above the block, and comes in with the shift. */
static poly divided_by_x(poly p) {
    uint64_t above = 0;
    if ((p.lower & 1) != 0) {
        p.lower ^= 0x87;
        above = 1;
    }
    p.lower = p.lower >> 1 | p.upper << 63;
    p.upper = p.upper >> 1 | above << 63;
    return p;
}

static poly divided_by_x_to_the(poly p, uint32_t power) {
    static poly kept[32];
    if (power > FEW_STEPS)
        return times_power(p, divided_by_x(ONE), power, kept);
    while (power-- > 0)
        p = divided_by_x(p);
    return p;
}

/* ---- the mode */

static poly encrypt(const aes_keys *keys, poly p) {
    uint8_t block[16];
    from_poly(block, p);
    aes_first_half(keys, block);
    aes_second_half(keys, block);
    return to_poly(block);
}

static int is_key_length(size_t len) {
    return len == 16 || len == 32;
}

/* A key as the mode has it: its bytes, which the hash finish takes whole, and its round keys. */
typedef struct {
    const uint8_t *bytes;
    size_t len;
    aes_keys rounds;
} whole_key;

/* Step 1: makes the round keys, and gives the start mask, which what the key lends replaces where it is zero: the key's first 16 bytes. A
   call refuses, with 10, where it is still zero after that. */
static poly step_1(whole_key *k, const uint8_t *key, size_t key_len, const uint8_t *iv) {
    k->bytes = key;
    k->len = key_len;
    aes_expand(&k->rounds, key, key_len);
    poly lent = to_poly(key);
    poly mask = sum(encrypt(&k->rounds, sum(to_poly(iv), lent)), lent);
    return is_zero(mask) ? lent : mask;
}

/* Step 2 over `blocks` blocks: the pre-authenticator begun from zero. `mask` is moved on. */
static poly seal_blocks(const aes_keys *keys, poly *mask, const uint8_t *text, size_t blocks, uint8_t *ciphertext) {
    poly pre = {0, 0};
    for (size_t i = 0; i < blocks; i++) {
        uint8_t block[16];
        from_poly(block, sum(to_poly(text + 16 * i), *mask));
        aes_first_half(keys, block);
        pre = sum(times_x(pre), to_poly(block));
        aes_second_half(keys, block);
        from_poly(ciphertext + 16 * i, sum(to_poly(block), *mask));
        *mask = times_x(*mask);
    }
    return pre;
}

/* The same from the ciphertext; the text is written where it is not NULL. */
static poly open_blocks(const aes_keys *keys, poly *mask, const uint8_t *ciphertext, size_t blocks, uint8_t *text) {
    poly pre = {0, 0};
    for (size_t i = 0; i < blocks; i++) {
        uint8_t block[16];
        from_poly(block, sum(to_poly(ciphertext + 16 * i), *mask));
        aes_second_half_back(keys, block);
        pre = sum(times_x(pre), to_poly(block));
        if (text != NULL) {
            aes_first_half_back(keys, block);
            from_poly(text + 16 * i, sum(to_poly(block), *mask));
        }
        *mask = times_x(*mask);
    }
    return pre;
}

size_t reference_tag_length(enum finish by) {
    return by == BY_HASH ? SHA1_DIGEST : TAG;
}

size_t reference_around(enum finish by) {
    return 16 + reference_tag_length(by);
}

/* Step 3 by the cipher; `mask` is the one after the last block. */
static void cipher_tag(const whole_key *k, poly pre, poly mask, uint8_t *tag) {
    from_poly(tag, sum(encrypt(&k->rounds, sum(pre, mask)), pre));
}

/* Step 3 by the hash: SHA-1 of the key, the pre-authenticator and the mask after the last block, one after the other. */
static void hash_tag(const whole_key *k, poly pre, poly mask, uint8_t *tag) {
    uint8_t text[32 + 16 + 16];
    memcpy(text, k->bytes, k->len);
    from_poly(text + k->len, pre);
    from_poly(text + k->len + 16, mask);
    sha1(text, k->len + 32, tag);
}

static void write_tag(enum finish by, const whole_key *k, poly pre, poly mask, uint8_t *tag) {
    if (by == BY_HASH)
        hash_tag(k, pre, mask, tag);
    else
        cipher_tag(k, pre, mask, tag);
}

/* Steps 2 and 3 over a whole text: IV, ciphertext and tag. */
static void seal_text(enum finish by, const whole_key *k, poly mask, const uint8_t *iv, const uint8_t *text, size_t blocks, uint8_t *sealed) {
    poly pre = seal_blocks(&k->rounds, &mask, text, blocks, sealed + 16);
    memcpy(sealed, iv, 16);
    write_tag(by, k, pre, mask, sealed + 16 + 16 * blocks);
}

/* The message with its padding, in memory that the next call uses again. */
static const uint8_t *padded(const uint8_t *message, size_t length) {
    static uint8_t text[16 * LIMIT];
    memset(text + length / 16 * 16, 0, 16);
    if (length > 0)
        memcpy(text, message, length);
    text[length] = 0x80;
    return text;
}

/* The message's length in a padded text, or the text's own length where its last block is not padded. */
static size_t message_length(const uint8_t *text, size_t length) {
    for (size_t zeros = 0; zeros < 16; zeros++) {
        uint8_t byte = text[length - 1 - zeros];
        if (byte == 0x80)
            return length - 1 - zeros;
        if (byte != 0)
            return length;
    }
    return length;
}

/* ---- run records */

static uint32_t number(const uint8_t *bytes) {
    return (uint32_t)bytes[0] << 24 | (uint32_t)bytes[1] << 16 | (uint32_t)bytes[2] << 8 | bytes[3];
}

static void write_number(uint8_t *bytes, uint32_t n) {
    for (int i = 0; i < 4; i++)
        bytes[i] = (uint8_t)(n >> (24 - 8 * i));
}

static void write_record(uint8_t *run, uint32_t first, uint32_t count, poly pre) {
    write_number(run, first);
    write_number(run + 4, count);
    from_poly(run + 8, pre);
}

/* The block after the record's last; 64 bits hold every sum of two 32-bit numbers. */
static uint64_t end_of(const uint8_t *run) {
    return (uint64_t)number(run) + number(run + 4);
}

/* Writes the join of two records that are neighbours; `run` may be the left one. */
static void join_two(const uint8_t *left, const uint8_t *right, uint8_t *run) {
    poly pre = sum(times_x_to_the(to_poly(left + 8), number(right + 4)), to_poly(right + 8));
    write_record(run, number(left), number(left + 4) + number(right + 4), pre);
}

static void zero(uint8_t *out, size_t len) {
    for (size_t i = 0; i < len; i++)
        out[i] = 0;
}

/* ---- the calls: zero every output, go down the table, and only then write the answer */

uint8_t reference_seal(enum finish by, const uint8_t *key, size_t key_len, const uint8_t *iv, size_t iv_len,
                       const uint8_t *message, size_t message_len, uint8_t *out, size_t out_len, size_t *length) {
    whole_key k;
    size_t blocks = message_len / 16 + 1, sealed_len = 16 * blocks + reference_around(by);
    zero(out, out_len);
    *length = 0;
    if (!is_key_length(key_len))
        return 1;
    if (iv_len != 16)
        return 2;
    if (message_len > 16777215)
        return 3;
    poly mask = step_1(&k, key, key_len, iv);
    if (is_zero(mask))
        return 10;
    if (out_len < sealed_len)
        return 5;
    seal_text(by, &k, mask, iv, padded(message, message_len), blocks, out);
    *length = sealed_len;
    return 0;
}

/* The length of the ciphertext in a sealed record of this length: 1 to 1,048,576 blocks, or 0 where no record is so long. */
static size_t ciphertext_length(enum finish by, size_t sealed_len) {
    size_t around = reference_around(by);
    if (sealed_len < around + 16 || sealed_len > around + 16 * LIMIT || (sealed_len - around) % 16 != 0)
        return 0;
    return sealed_len - around;
}

/* As ticket P6 has it: 5 comes last, and compares the output with the message. */
uint8_t reference_open(enum finish by, const uint8_t *key, size_t key_len, const uint8_t *sealed, size_t sealed_len,
                       uint8_t *out, size_t out_len, size_t *length) {
    static uint8_t text[16 * LIMIT];
    uint8_t tag[SHA1_DIGEST];
    whole_key k;
    size_t text_len = ciphertext_length(by, sealed_len);
    zero(out, out_len);
    *length = 0;
    if (!is_key_length(key_len))
        return 1;
    if (text_len == 0)
        return 3;
    poly mask = step_1(&k, key, key_len, sealed);
    if (is_zero(mask))
        return 10;
    poly pre = open_blocks(&k.rounds, &mask, sealed + 16, text_len / 16, text);
    write_tag(by, &k, pre, mask, tag);
    if (memcmp(tag, sealed + 16 + text_len, reference_tag_length(by)) != 0)
        return 6;
    size_t end = message_length(text, text_len);
    if (end == text_len)
        return 7;
    if (out_len < end)
        return 5;
    memcpy(out, text, end);
    *length = end;
    return 0;
}

uint8_t reference_seal_run(const uint8_t *key, size_t key_len, const uint8_t *iv, size_t iv_len, uint32_t first, uint8_t last,
                           const uint8_t *bytes, size_t bytes_len, uint8_t *out, size_t out_len, size_t *length,
                           uint8_t *run, size_t run_len) {
    whole_key k;
    size_t blocks = last ? bytes_len / 16 + 1 : bytes_len / 16;
    zero(out, out_len);
    zero(run, run_len);
    *length = 0;
    if (!is_key_length(key_len))
        return 1;
    if (iv_len != 16)
        return 2;
    if (!last && bytes_len % 16 != 0)
        return 3;
    if (first + (uint64_t)blocks > LIMIT)
        return 4;
    poly mask = step_1(&k, key, key_len, iv);
    if (is_zero(mask))
        return 10;
    if (out_len < 16 * blocks || run_len < RECORD)
        return 5;
    mask = times_x_to_the(mask, first);
    poly pre = seal_blocks(&k.rounds, &mask, last ? padded(bytes, bytes_len) : bytes, blocks, out);
    write_record(run, first, (uint32_t)blocks, pre);
    *length = 16 * blocks;
    return 0;
}

uint8_t reference_check_run(const uint8_t *key, size_t key_len, const uint8_t *iv, size_t iv_len, uint32_t first,
                            const uint8_t *bytes, size_t bytes_len, uint8_t *run, size_t run_len) {
    whole_key k;
    zero(run, run_len);
    if (!is_key_length(key_len))
        return 1;
    if (iv_len != 16)
        return 2;
    if (bytes_len % 16 != 0)
        return 3;
    if (first + (uint64_t)(bytes_len / 16) > LIMIT)
        return 4;
    poly mask = step_1(&k, key, key_len, iv);
    if (is_zero(mask))
        return 10;
    if (run_len < RECORD)
        return 5;
    mask = times_x_to_the(mask, first);
    write_record(run, first, (uint32_t)(bytes_len / 16), open_blocks(&k.rounds, &mask, bytes, bytes_len / 16, NULL));
    return 0;
}

uint8_t reference_join(const uint8_t *left, size_t left_len, const uint8_t *right, size_t right_len, uint8_t *run, size_t run_len) {
    zero(run, run_len);
    if (left_len != RECORD || right_len != RECORD)
        return 24;
    if (end_of(left) > LIMIT || end_of(right) > LIMIT)
        return 4;
    if (end_of(left) != number(right))
        return 8;
    if (run_len < RECORD)
        return 5;
    join_two(left, right, run);
    return 0;
}

uint8_t reference_join_list(const uint8_t *records, size_t records_len, uint8_t *run, size_t run_len) {
    zero(run, run_len);
    if (records_len % RECORD != 0)
        return 24;
    for (size_t i = 0; i < records_len; i += RECORD)
        if (end_of(records + i) > LIMIT)
            return 4;
    for (size_t i = RECORD; i < records_len; i += RECORD)
        if (end_of(records + i - RECORD) != number(records + i))
            return 8;
    if (records_len == 0)
        return 9;
    if (run_len < RECORD)
        return 5;
    memcpy(run, records, RECORD);
    for (size_t i = RECORD; i < records_len; i += RECORD)
        join_two(run, records + i, run);
    return 0;
}

/* Step 3 from a record; `start` is the start mask. */
static void closing_tag(enum finish by, const whole_key *k, poly start, const uint8_t *run, uint8_t *tag) {
    write_tag(by, k, to_poly(run + 8), times_x_to_the(start, number(run + 4)), tag);
}

static int is_whole(const uint8_t *run) {
    return number(run) == 0 && number(run + 4) > 0;
}

uint8_t reference_close(enum finish by, const uint8_t *key, size_t key_len, const uint8_t *iv, size_t iv_len,
                        const uint8_t *run, size_t run_len, uint8_t *tag, size_t tag_len) {
    whole_key k;
    zero(tag, tag_len);
    if (run_len != RECORD)
        return 24;
    if (!is_key_length(key_len))
        return 1;
    if (iv_len != 16)
        return 2;
    if (end_of(run) > LIMIT)
        return 4;
    if (!is_whole(run))
        return 9;
    poly mask = step_1(&k, key, key_len, iv);
    if (is_zero(mask))
        return 10;
    if (tag_len < reference_tag_length(by))
        return 5;
    closing_tag(by, &k, mask, run, tag);
    return 0;
}

uint8_t reference_test(enum finish by, const uint8_t *key, size_t key_len, const uint8_t *iv, size_t iv_len,
                       const uint8_t *run, size_t run_len, const uint8_t *tag, size_t tag_len) {
    uint8_t right[SHA1_DIGEST];
    whole_key k;
    if (run_len != RECORD)
        return 24;
    if (!is_key_length(key_len))
        return 1;
    if (iv_len != 16)
        return 2;
    if (tag_len != reference_tag_length(by))
        return 3;
    if (end_of(run) > LIMIT)
        return 4;
    if (!is_whole(run))
        return 9;
    poly mask = step_1(&k, key, key_len, iv);
    if (is_zero(mask))
        return 10;
    closing_tag(by, &k, mask, run, right);
    return memcmp(right, tag, tag_len) == 0 ? 0 : 6;
}

uint8_t reference_jump(const uint8_t *mask, size_t mask_len, int32_t distance, uint8_t *out, size_t out_len) {
    zero(out, out_len);
    if (mask_len != 16)
        return 3;
    if (distance < -LIMIT || distance > LIMIT)
        return 4;
    if (out_len < 16)
        return 5;
    poly p = to_poly(mask);
    from_poly(out, distance < 0 ? divided_by_x_to_the(p, (uint32_t)-distance) : times_x_to_the(p, (uint32_t)distance));
    return 0;
}

uint8_t reference_sha1(const uint8_t *text, size_t text_len, uint8_t *out, size_t out_len) {
    zero(out, out_len);
    if (text_len > LONGEST_TEXT)
        return 3;
    if (out_len < SHA1_DIGEST)
        return 5;
    sha1(text, text_len, out);
    return 0;
}

void reference_seal_text(enum finish by, const uint8_t *key, size_t key_len, const uint8_t iv[16], const uint8_t *text, size_t blocks,
                         uint8_t *sealed) {
    whole_key k;
    poly mask = step_1(&k, key, key_len, iv);
    seal_text(by, &k, mask, iv, text, blocks, sealed);
}

void reference_seal_chain(enum finish by, const uint8_t *key, size_t key_len, const uint8_t iv[16], uint8_t block[16], uint32_t blocks,
                          uint8_t *tag) {
    whole_key k;
    poly mask = step_1(&k, key, key_len, iv), pre = {0, 0};
    for (uint32_t i = 0; i < blocks; i++)
        pre = sum(times_x(pre), seal_blocks(&k.rounds, &mask, block, 1, block));
    write_tag(by, &k, pre, mask, tag);
}

void reference_final_mask(const uint8_t *key, size_t key_len, const uint8_t iv[16], const uint8_t run[24], uint8_t mask[16]) {
    whole_key k;
    from_poly(mask, times_x_to_the(step_1(&k, key, key_len, iv), number(run + 4)));
}

/* The start mask comes out as zero where the cipher takes the IV plus what the key lends to what the key lends. */
void reference_zero_mask_iv(const uint8_t *key, size_t key_len, uint8_t iv[16]) {
    aes_keys keys;
    uint8_t block[16];
    aes_expand(&keys, key, key_len);
    memcpy(block, key, 16);
    aes_second_half_back(&keys, block);
    aes_first_half_back(&keys, block);
    from_poly(iv, sum(to_poly(block), to_poly(key)));
}
