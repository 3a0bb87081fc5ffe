/* The fuzzer's harness. It reads the fuzzer's bytes as a list of calls on one key, IV and message, and makes each of the library and of the
   reference. Many inputs are derived: genuine sealed records, some damaged; tags that are right over a text with no padding; records that
   are neighbours, often of equal or alternating counts; lists cut into runs; pairs of key and IV for which step 1 comes to zero, or nearly. So
   calls get past the refusals that random bytes would end in. The key has 16 bytes or 32, and a tag is by the cipher or by the hash. */
#include "both.h"
#include "draw.h"

#include <stdlib.h>
#include <string.h>

enum { CALLS = 16, LIMIT = 1048576, RECORD = 24, RECORDS = 256, RUNS = 6 };

static uint8_t key[64], iv[64], message[LONGEST], buffer[LONGEST], records[(RECORDS + 3) * RECORD];
static size_t key_len;

static slice bytes_of(const uint8_t *bytes, size_t len) {
    slice s = {bytes, len};
    return s;
}

static slice draw_key(draw *d) {
    return bytes_of(key, draw_key_length(d, key_len));
}

static slice draw_iv(draw *d) {
    return bytes_of(iv, draw_about(d, 16));
}

static enum finish draw_finish(draw *d) {
    return draw_rarely(d, 2) ? BY_HASH : BY_CIPHER;
}

static enum finish other_finish(enum finish by) {
    return by == BY_HASH ? BY_CIPHER : BY_HASH;
}

/* Flips one bit, which may be the last, or leaves the bytes as they are: as likely the one as the other. */
static void maybe_damage(draw *d, uint8_t *bytes, size_t len) {
    uint32_t way = draw_below(d, 6);
    if (len == 0 || way < 3)
        return;
    size_t from_end = way == 3 ? 0 : way == 4 ? draw_below(d, 16) : draw_below(d, 65536);
    bytes[len - 1 - from_end % len] ^= (uint8_t)(way == 3 ? 1 : 1 << draw_below(d, 8));
}

/* ---- whole lists */

static void call_seal(draw *d) {
    enum finish by = draw_finish(d);
    size_t len = draw_length(d);
    slice k = draw_key(d), v = draw_iv(d);
    both_seal(by, k, v, bytes_of(message, len), draw_room(d, len / 16 * 16 + 16 + reference_around(by)));
}

/* The length of an output to open into: none, about the ciphertext's, or about the message's. */
static size_t draw_open_room(draw *d, size_t message_len, size_t text_len) {
    switch (draw_below(d, 8)) {
    case 5:
        return 0;
    case 6:
    case 7:
        return draw_room(d, text_len);
    default:
        return draw_room(d, message_len);
    }
}

/* Opens what is in the buffer, which has a message of that length where it opens. What was sealed by one finish is rarely opened by the other. */
static void open_buffer(draw *d, enum finish by, size_t len, size_t message_len) {
    slice k = draw_key(d);
    if (draw_rarely(d, 16))
        by = other_finish(by);
    size_t around = reference_around(by);
    both_open(by, k, bytes_of(buffer, len), draw_open_room(d, message_len, len < around ? 0 : len - around));
}

/* A record as the mode gives it, perhaps damaged, perhaps of a wrong length. */
static void call_open(draw *d) {
    static uint8_t text[LONGEST];
    enum finish by = draw_finish(d);
    size_t len = draw_length(d), blocks = len / 16 + 1, sealed = 16 * blocks + reference_around(by);
    memset(text, 0, 16 * blocks);
    memcpy(text, message, len);
    text[len] = 0x80;
    reference_seal_text(by, key, key_len, iv, text, blocks, buffer);
    maybe_damage(d, buffer, sealed);
    open_buffer(d, by, draw_about(d, sealed), len);
}

/* A text that ends as drawn, with no padding added: the tag is right, the padding mostly wrong. */
static void call_open_unpadded(draw *d) {
    static uint8_t text[16 * 32];
    enum finish by = draw_finish(d);
    size_t len = 16 * (1 + draw_below(d, 31));
    memcpy(text, message, len);
    memset(text + len - 16, 0, 16);
    size_t place = len - 1 - draw_below(d, 16), other = len - 1 - draw_below(d, 16);
    text[place] ^= draw_rarely(d, 2) ? draw_byte(d) : 0x80;
    text[other] ^= draw_rarely(d, 4) ? draw_byte(d) : 0;
    reference_seal_text(by, key, key_len, iv, text, len / 16, buffer);
    open_buffer(d, by, len + reference_around(by), place);
}

/* Any bytes, of any length near those that opening takes, by the hash four bytes longer. */
static void call_open_noise(draw *d) {
    enum finish by = draw_finish(d);
    size_t len = draw_length(d) + (by == BY_HASH ? 4 : 0);
    memcpy(buffer, message, len);
    open_buffer(d, by, len, len);
}

/* ---- runs */

/* A first block: drawn freely, or so that the run ends at the limit, one before it or one after. */
static uint32_t draw_first(draw *d, size_t blocks) {
    if (draw_rarely(d, 2))
        return draw_number(d);
    uint32_t first = (uint32_t)(LIMIT + 1 - blocks % (LIMIT + 1));
    return first - draw_below(d, 3) % (first + 1);
}

static void call_seal_run(draw *d) {
    slice k = draw_key(d), v = draw_iv(d);
    uint8_t last = draw_rarely(d, 2) ? draw_byte(d) : 0;
    size_t len = draw_length(d);
    if (!last && !draw_rarely(d, 8))
        len -= len % 16;
    size_t need = last ? len / 16 * 16 + 16 : len;
    uint32_t first = draw_first(d, need / 16);
    size_t room = draw_room(d, need);
    both_seal_run(k, v, first, last, bytes_of(message, len), room, draw_about(d, RECORD));
}

static void call_check_run(draw *d) {
    slice k = draw_key(d), v = draw_iv(d);
    size_t len = draw_length(d);
    if (!draw_rarely(d, 8))
        len -= len % 16;
    uint32_t first = draw_first(d, len / 16);
    both_check_run(k, v, first, bytes_of(message, len), draw_room(d, RECORD));
}

/* ---- what is about the limit. No output is lent in which an answer would fit, or a run to be checked goes beyond the limit: the call gets 3, 4
   or 5, or a row above these, without work. */

/* A number of blocks that is the most, or one more, and a length of that many: the last one perhaps not whole. */
static size_t draw_longest(draw *d) {
    return 16 * (LIMIT + (size_t)draw_below(d, 2)) - (draw_rarely(d, 2) ? 1 + draw_below(d, 16) : 0);
}

static void call_longest_list(draw *d) {
    enum finish by = draw_finish(d);
    slice k = draw_key(d), v = draw_iv(d);
    if (draw_rarely(d, 2))
        both_open(by, k, guard_long(16 * (LIMIT + 1 + (size_t)draw_below(d, 2)) + reference_around(by)), draw_below(d, 64));
    else
        both_seal(by, k, v, guard_long(draw_longest(d)), draw_below(d, 64));
}

static int pair_masks_nothing(void) {
    static const uint8_t zeros[16];
    uint8_t rare[16];
    reference_zero_mask_iv(key, key_len, rare);
    return memcmp(key, zeros, 16) == 0 && memcmp(iv, rare, 16) == 0;
}

/* A sealed record of about 4,000 blocks, under a pair that masks nothing: it gets 10, without work. */
static void call_long_record(draw *d) {
    enum finish by = draw_finish(d);
    if (!pair_masks_nothing())
        return;
    slice k = draw_key(d);
    memcpy(buffer, iv, 16);
    both_open(by, k, bytes_of(buffer, 16 * (3980 + (size_t)draw_below(d, 256)) + reference_around(by)), draw_below(d, 64));
}

static void call_longest_run(draw *d) {
    slice k = draw_key(d), v = draw_iv(d), bytes = guard_long(draw_longest(d));
    uint32_t first = draw_below(d, 3);
    if (draw_rarely(d, 2))
        both_check_run(k, v, first + 2, bytes, draw_room(d, RECORD));
    else
        both_seal_run(k, v, first, draw_rarely(d, 2), bytes, draw_below(d, 64), RECORD);
}

/* ---- records */

static void put_number(uint8_t *bytes, uint32_t n) {
    for (int i = 0; i < 4; i++)
        bytes[i] = (uint8_t)(n >> (24 - 8 * i));
}

/* The count of a record that starts at `first`: small, up to the limit or one beyond, or any number. Beyond the limit, often one with which a sum
   of 32 bits is 0 or 1 again. */
static uint32_t draw_count(draw *d, uint32_t first) {
    uint32_t left = first <= LIMIT ? LIMIT - first : 0;
    if (first > LIMIT && draw_rarely(d, 2))
        return 0 - first + draw_below(d, 2);
    switch (draw_below(d, 16)) {
    case 15:
        return draw_number(d);
    case 14:
    case 13:
        return left + draw_below(d, 2);
    case 12:
        return draw_below(d, left + 1);
    default:
        return draw_below(d, 20) % (left + 1);
    }
}

/* How the counts of a chain follow each other. */
typedef struct {
    enum { EACH_FOR_ITSELF, EQUAL, IN_TURN, IN_STRETCHES } way;
    int with_empty;
    uint32_t counts[2], now;
} pattern;

/* A count that fits so many times within the limit: small, or as draw_number has it. */
static uint32_t draw_repeated(draw *d, size_t times) {
    return (draw_rarely(d, 2) ? draw_number(d) : draw_below(d, 20)) % (uint32_t)(LIMIT / times + 1);
}

/* The second count is often the first with one bit flipped: a part of their bits does not tell them apart. */
static pattern draw_pattern(draw *d, size_t length) {
    pattern p = {EACH_FOR_ITSELF, 0, {0, 0}, 0};
    if (length < 3)
        return p;
    p.way = draw_below(d, 4);
    p.with_empty = draw_rarely(d, 4);
    p.counts[0] = draw_repeated(d, length);
    p.counts[1] = draw_rarely(d, 2) ? p.counts[0] ^ 1U << draw_below(d, 12) : draw_repeated(d, length);
    return p;
}

/* The count of record i, which starts at `first`. A chain's first record is sometimes out of its pattern. */
static uint32_t draw_next_count(draw *d, pattern *p, size_t i, uint32_t first) {
    if (p->way == EACH_FOR_ITSELF || (i == 0 && draw_rarely(d, 4)))
        return draw_count(d, first);
    if (p->with_empty && draw_rarely(d, 3))
        return 0;
    if (p->way == IN_TURN || (p->way == IN_STRETCHES && draw_rarely(d, 3)))
        p->now = 1 - p->now;
    return p->counts[p->now];
}

/* A chain of `count` records, each of which starts where the one before it ends; in some chains, one block off here and there. */
static void draw_chain(draw *d, size_t count, uint32_t first) {
    int broken = draw_rarely(d, 4);
    pattern p = draw_pattern(d, count);
    for (size_t i = 0; i < count; i++) {
        uint8_t *record = records + RECORD * i;
        uint32_t blocks = draw_next_count(d, &p, i, first);
        put_number(record, first);
        put_number(record + 4, blocks);
        draw_fill(d, record + 8, 16);
        first += blocks;
        if (broken && draw_rarely(d, 3))
            first += draw_rarely(d, 2) ? 1 : UINT32_MAX;
    }
}

static void call_join(draw *d) {
    draw_chain(d, 2, draw_rarely(d, 2) ? draw_number(d) : draw_below(d, LIMIT + 1));
    size_t left = draw_about(d, RECORD), right = draw_about(d, RECORD);
    both_join(bytes_of(records, left), bytes_of(records + RECORD, right), draw_room(d, RECORD));
}

static void call_join_list(draw *d) {
    size_t count = draw_rarely(d, 16) ? draw_below(d, RECORDS) : draw_below(d, 8);
    draw_chain(d, count, draw_rarely(d, 4) ? draw_number(d) : draw_below(d, 100));
    size_t odd = draw_rarely(d, 32) ? draw_below(d, RECORD) : 0;
    both_join_list(bytes_of(records, RECORD * count + odd), draw_room(d, RECORD));
}

static slice draw_whole_record(draw *d) {
    draw_chain(d, 1, draw_rarely(d, 6) ? draw_number(d) : 0);
    return bytes_of(records, draw_about(d, RECORD));
}

static void call_close(draw *d) {
    enum finish by = draw_finish(d);
    slice k = draw_key(d), v = draw_iv(d), run = draw_whole_record(d);
    both_close(by, k, v, run, draw_room(d, reference_tag_length(by)));
}

/* The right tag, perhaps damaged, perhaps cut: a tag by the hash, cut to 16 bytes, is as long as one by the cipher. */
static void call_test(draw *d) {
    static uint8_t tag[128];
    enum finish by = draw_finish(d);
    slice k = draw_key(d), v = draw_iv(d), run = draw_whole_record(d);
    size_t len = reference_tag_length(by);
    reference_close(by, key, key_len, iv, 16, records, RECORD, tag, sizeof tag);
    maybe_damage(d, tag, len);
    both_test(by, k, v, run, bytes_of(tag, draw_rarely(d, 16) ? reference_tag_length(other_finish(by)) : draw_about(d, len)));
}

/* Where the mask has jumped, the way back gives it again. */
static void call_jump(draw *d) {
    static uint8_t mask[64], there[16];
    draw_fill(d, mask, 16);
    int32_t distance = draw_distance(d);
    slice m = bytes_of(mask, draw_about(d, 16));
    if (both_jump(m, distance, draw_room(d, 16)) != 0)
        return;
    memcpy(there, answer, 16);
    both_jump(bytes_of(there, 16), -distance, 16);
    must_be_same("a mask jumped there and back", answer, mask, 16);
}

/* ---- SHA-1 */

/* The length of a text: at the end of a block of 64 bytes or of a text that has room for its length there, at the limit, or as lists have it. */
static size_t draw_text_length(draw *d) {
    static const uint16_t limits[] = {64000, 64031, 64032, 64033, 64034, 65535};
    switch (draw_below(d, 16)) {
    case 5:
        return limits[draw_below(d, sizeof limits / sizeof limits[0])];
    case 6:
    case 7:
        return draw_length(d);
    default:
        return 64 * draw_below(d, 6) + 48 + draw_below(d, 24);
    }
}

static void call_sha1(draw *d) {
    size_t len = draw_text_length(d);
    both_sha1(bytes_of(message, len), draw_room(d, 20));
}

/* ---- a list in runs */

/* Seals the run number i of a list cut at `cuts`, into its place in the buffer, and keeps its record. Gives the refusal of a pair that masks
   nothing; checking the run then gets the same one. */
static uint8_t seal_cut(const size_t *cuts, size_t runs, size_t i, size_t len) {
    uint8_t last = i + 1 == runs;
    size_t start = 16 * cuts[i], end = last ? len : 16 * cuts[i + 1];
    size_t need = last ? (end - start) / 16 * 16 + 16 : end - start;
    slice k = bytes_of(key, key_len), v = bytes_of(iv, 16), bytes = bytes_of(message + start, end - start);
    uint8_t refusal = both_seal_run(k, v, (uint32_t)cuts[i], last, bytes, need, RECORD);
    memcpy(buffer + 16 + start, answer, need);
    memcpy(records + RECORD * i, answer_run, RECORD);
    both_check_run(k, v, (uint32_t)cuts[i], bytes_of(buffer + 16 + start, need), RECORD);
    must_be_same("a checked run's record", answer_run, records + RECORD * i, RECORD);
    return refusal;
}

/* The full blocks at which the runs of a list begin: anywhere, or so that all but the last have one length. */
static void draw_cuts(draw *d, size_t *cuts, size_t runs, size_t blocks) {
    int equal = draw_rarely(d, 2);
    cuts[0] = 0;
    for (size_t i = 1; i < runs; i++)
        cuts[i] = cuts[i - 1] + (equal ? blocks / runs : draw_below(d, 256) % (blocks - cuts[i - 1] + 1));
}

/* The single record, closed by this finish, and the ciphertext in the buffer are the record that sealing in one piece gives; and it opens. */
static void finish_cut(enum finish by, size_t len, size_t text) {
    slice k = bytes_of(key, key_len), v = bytes_of(iv, 16);
    size_t tag = reference_tag_length(by), sealed = text + reference_around(by);
    both_close(by, k, v, bytes_of(records, RECORD), tag);
    memcpy(buffer + 16 + text, answer, tag);
    both_test(by, k, v, bytes_of(records, RECORD), bytes_of(buffer + 16 + text, tag));
    both_seal(by, k, v, bytes_of(message, len), sealed);
    must_be_same("a list sealed in runs", buffer, answer, sealed);
    both_open(by, k, bytes_of(buffer, sealed), len);
    must_be_same("a list sealed in runs and opened", answer, message, len);
}

/* The runs from last to first, joined as a list, and finished both ways. Where the pair masks nothing no run is sealed, and there is nothing to
   join. */
static void call_cut(draw *d) {
    size_t len = draw_below(d, 1600), cuts[RUNS], runs = 1 + draw_below(d, RUNS), text = len / 16 * 16 + 16;
    draw_cuts(d, cuts, runs, len / 16);
    for (size_t i = runs; i > 0; i--)
        if (seal_cut(cuts, runs, i - 1, len) != 0)
            return;
    memcpy(buffer, iv, 16);
    both_join_list(bytes_of(records, RECORD * runs), RECORD);
    memcpy(records, answer_run, RECORD);
    finish_cut(BY_CIPHER, len, text);
    finish_cut(BY_HASH, len, text);
}

/* ---- one block changed (ticket P11) */

/* Stops the program unless block k of the two texts differs, and no other. */
static void must_differ_only_at(const uint8_t *a, const uint8_t *b, size_t blocks, size_t k) {
    must_be_same("the blocks before a change", a, b, 16 * k);
    must_not_be_same("a block that was changed", a + 16 * k, b + 16 * k, 16);
    must_be_same("the blocks behind a change", a + 16 * k + 16, b + 16 * k + 16, 16 * (blocks - k - 1));
}

/* Both sealed: the IVs are the same, and the ciphertexts differ in block k alone. */
static int change_in_a_list(enum finish by, slice one, slice other, size_t k) {
    slice pair[] = {bytes_of(key, key_len), bytes_of(iv, 16)};
    size_t blocks = one.len / 16 + 1, need = 16 * blocks + reference_around(by);
    if (both_seal(by, pair[0], pair[1], one, need) != 0)
        return 0;
    memcpy(buffer, answer, need);
    both_seal(by, pair[0], pair[1], other, need);
    must_differ_only_at(buffer, answer, blocks + 1, k + 1);
    return 1;
}

/* Both as a last run: the ciphertexts differ in block k alone, and the pre-authenticators differ. */
static void change_in_a_run(uint32_t first, slice one, slice other, size_t k) {
    slice pair[] = {bytes_of(key, key_len), bytes_of(iv, 16)};
    size_t blocks = one.len / 16 + 1;
    uint8_t run[RECORD];
    both_seal_run(pair[0], pair[1], first, 1, one, 16 * blocks, RECORD);
    memcpy(buffer, answer, 16 * blocks);
    memcpy(run, answer_run, RECORD);
    both_seal_run(pair[0], pair[1], first, 1, other, 16 * blocks, RECORD);
    must_differ_only_at(buffer, answer, blocks, k);
    must_not_be_same("the pre-authenticator of a run that was changed", run + 8, answer_run + 8, 16);
}

/* A message of one byte or more, and the same with one of its bytes changed, under one key and IV. Nothing is asked of the tags. */
static void call_change(draw *d) {
    static uint8_t other[600];
    enum finish by = draw_finish(d);
    size_t len = 1 + draw_below(d, sizeof other), place = draw_below(d, sizeof other) % len;
    memcpy(other, message, len);
    other[place] ^= (uint8_t)(1 + draw_below(d, 255));
    if (change_in_a_list(by, bytes_of(message, len), bytes_of(other, len), place / 16))
        change_in_a_run(draw_below(d, LIMIT + 1 - (uint32_t)(len / 16 + 1)), bytes_of(message, len), bytes_of(other, len), place / 16);
}

/* ---- the fuzzer's entry points */

int LLVMFuzzerInitialize(int *count, char ***arguments) {
    (void)count;
    (void)arguments;
    draw nothing = {NULL, 0};
    draw_fill(&nothing, message, sizeof message);
    reference_start();
    guard_start();
    atexit(print_counts);
    return 0;
}

/* Sets the whole key to zeros, its first 16 bytes, or those behind them. */
static void draw_zeros(draw *d) {
    switch (draw_below(d, 4)) {
    case 2:
        memset(key, 0, 16);
        break;
    case 3:
        memset(key + 16, 0, sizeof key - 16);
        break;
    default:
        memset(key, 0, sizeof key);
    }
}

/* Often a key with zeros, and often the IV for which the key's first 16 bytes replace the start mask, with one bit of either flipped or not. Where
   those bytes are zeros, key and IV mask nothing. */
static void draw_pair(draw *d) {
    if (draw_rarely(d, 3))
        draw_zeros(d);
    if (!draw_rarely(d, 2))
        return;
    reference_zero_mask_iv(key, key_len, iv);
    if (draw_rarely(d, 2))
        maybe_damage(d, key, key_len);
    else
        maybe_damage(d, iv, 16);
}

/* Key, IV and the message's beginning for all calls of an input; what follows in a long message is the same noise for all. */
static void draw_list(draw *d) {
    key_len = draw_rarely(d, 2) ? 32 : 16;
    draw_fill(d, key, sizeof key);
    draw_fill(d, iv, sizeof iv);
    draw_fill(d, message, 1024);
    draw_pair(d);
}

int LLVMFuzzerTestOneInput(const uint8_t *bytes, size_t len) {
    static void (*const calls[])(draw *) = {call_seal, call_open, call_open_unpadded, call_open_noise, call_seal_run, call_check_run,
                                            call_join, call_join_list, call_close, call_test, call_jump, call_cut, call_sha1,
                                            call_longest_list, call_longest_run, call_long_record, call_change};
    draw d = {bytes, len};
    draw_list(&d);
    for (int i = 0; i < CALLS && d.left > 0; i++)
        calls[draw_below(&d, sizeof calls / sizeof calls[0])](&d);
    return 0;
}
