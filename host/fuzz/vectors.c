/* The reference judged before it judges: FIPS 197's examples (appendices A.3, C.1 and C.3), FIPS 180-4's (one block and two), the mode's published
   values of one block and of two with both finishes, jumps back between its published masks, and the IVs of a mask of nothing, as OpenSSL
   gives them. */
#include "aes.h"
#include "reference.h"
#include "sha1.h"

#include <stdio.h>
#include <stdlib.h>
#include <string.h>

/* AUTH-AES and AUTH-SHA-1 of the mode's published vectors: of one block, and of 1,000,000. */
static const char *const ONE_BLOCK[FINISHES] = {"CBBD199D075F7220957FD8205A233B9F", "ECFA375F615DB07834F50C7B9C3B08A9C9D3F12F"};
static const char *const A_MILLION[FINISHES] = {"9D6478D55514E83763C369067E8B82D0", "29520E37A0D635C41694F30AA9C09FE5AF525D2B"};

/* What the published vectors have in common. */
static uint8_t key[32], iv[16], block[16];

static void from_hex(uint8_t *bytes, const char *digits) {
    for (; digits[0] != 0; digits += 2) {
        unsigned byte;
        sscanf(digits, "%2x", &byte);
        *bytes++ = (uint8_t)byte;
    }
}

static void must_be(const uint8_t *bytes, const char *digits, const char *what) {
    uint8_t right[32];
    from_hex(right, digits);
    if (memcmp(bytes, right, strlen(digits) / 2) != 0) {
        fprintf(stderr, "the reference is wrong: %s\n", what);
        exit(1);
    }
}

/* One example of FIPS 197, appendix C: its middletext, where the round after the first half of them starts, and its ciphertext. */
static void check_cipher(size_t key_len, const char *middletext, const char *ciphertext, const char *what) {
    static const char text[] = "00112233445566778899aabbccddeeff";
    uint8_t state[16];
    aes_keys keys;
    aes_expand(&keys, key, key_len);
    from_hex(state, text);
    aes_first_half(&keys, state);
    must_be(state, middletext, what);
    aes_second_half(&keys, state);
    must_be(state, ciphertext, what);
    aes_second_half_back(&keys, state);
    must_be(state, middletext, what);
    aes_first_half_back(&keys, state);
    must_be(state, text, what);
}

/* The last round key of FIPS 197, appendix A.3, which stands column by column there. */
static void check_schedule(void) {
    uint8_t other[32], last[16];
    aes_keys keys;
    from_hex(other, "603deb1015ca71be2b73aef0857d77811f352c073b6108d72d9810a30914dff4");
    aes_expand(&keys, other, sizeof other);
    for (int i = 0; i < 16; i++)
        last[i] = keys.key[14][i % 4][i / 4];
    must_be(last, "fe4890d1e6188d0b046df344706c631e", "FIPS 197, appendix A.3");
}

/* The examples of FIPS 180-4 for SHA-1, and the empty text. */
static void check_hash(const char *text, const char *digest) {
    uint8_t out[SHA1_DIGEST];
    reference_sha1((const uint8_t *)text, strlen(text), out, sizeof out);
    must_be(out, digest, "SHA-1 of an example");
}

/* The published text is chained: what the last block comes to, and the tag by each finish. */
static void check_chain(uint32_t blocks, const char *last, const char *const tags[FINISHES]) {
    for (int by = 0; by < FINISHES; by++) {
        uint8_t text[16], tag[SHA1_DIGEST];
        memcpy(text, block, 16);
        reference_seal_chain((enum finish)by, key, 16, iv, text, blocks, tag);
        must_be(text, last, "the last ciphertext block of a published vector");
        must_be(tag, tags[by], "the tag of a published vector");
    }
}

/* The second block of the published text is the ciphertext of the first. */
static void check_mode(void) {
    uint8_t text[32], out[32], run[24], tag[SHA1_DIGEST];
    size_t length;
    memcpy(text, block, 16);
    reference_seal_run(key, 16, iv, 16, 0, 0, text, 16, out, 32, &length, run, 24);
    must_be(out, "030F28E63B8A9C570D7FEF31940226F4", "the ciphertext of one block");
    must_be(run, "0000000000000001C31FDB743AA199CB78AA156AED162EB9", "the record of one block");
    for (int by = 0; by < FINISHES; by++) {
        reference_close((enum finish)by, key, 16, iv, 16, run, 24, tag, sizeof tag);
        must_be(tag, ONE_BLOCK[by], "the tag of one block");
    }
    memcpy(text + 16, out, 16);
    reference_seal_run(key, 16, iv, 16, 0, 0, text, 32, out, 32, &length, run, 24);
    must_be(out + 16, "8C501ED50FBBECE46655493BF9AD5229", "the second block's ciphertext");
    must_be(run, "0000000000000002663A59D5F6E4C59D291C40AECFE0CE28", "the record of two blocks");
}

static void check_jump(const char *mask, int32_t distance, const char *jumped, const char *what) {
    uint8_t from[16], out[16];
    from_hex(from, mask);
    reference_jump(from, 16, distance, out, 16);
    must_be(out, jumped, what);
}

/* `openssl enc -d -aes-128-ecb -nopad` of a block of zeros, or -aes-256-ecb. The key begins with 16 zeros. */
static void check_zero_mask(const uint8_t *zeros, size_t len, const char *expected) {
    uint8_t found[16];
    reference_zero_mask_iv(zeros, len, found);
    must_be(found, expected, "the IV with which a key that lends zeros masks nothing");
}

/* The keys 00 01 .. 0F and 00 01 .. 1F, and keys of zeros, the last one with 00 01 .. 0F behind 16 of them. */
static void check_both_lengths(void) {
    uint8_t zeros[32] = {0};
    check_cipher(16, "c81677bc9b7ac93b25027992b0261996", "69c4e0d86a7b0430d8cdb78070b4c55a", "FIPS 197, appendix C.1");
    check_cipher(32, "d653a4696ca0bc0f5acaab5db96c5e7d", "8ea2b7ca516745bfeafc49904b496089", "FIPS 197, appendix C.3");
    check_zero_mask(zeros, 16, "140F0F1011B5223D79587717FFD9EC3A");
    check_zero_mask(zeros, 32, "67671CE1FA91DDEB0F8FBBB366B531B4");
    memcpy(zeros + 16, key, 16);
    check_zero_mask(zeros, 32, "2F2F1823901D914B8ABD3A4A09B20EB2");
}

void reference_start(void) {
    aes_start();
    from_hex(key, "000102030405060708090A0B0C0D0E0F101112131415161718191A1B1C1D1E1F");
    from_hex(iv, "0123456789ABCDEF0123456789ABCDEF");
    from_hex(block, "00112233445566778899AABBCCDDEEFF");
    check_hash("", "DA39A3EE5E6B4B0D3255BFEF95601890AFD80709");
    check_hash("abc", "A9993E364706816ABA3E25717850C26C9CD0D89D");
    check_hash("abcdbcdecdefdefgefghfghighijhijkijkljklmklmnlmnomnopnopq", "84983E441C3BD26EBAAE4AA1F95129E5E54670F1");
    check_schedule();
    check_both_lengths();
    check_mode();
    check_chain(1, "030F28E63B8A9C570D7FEF31940226F4", ONE_BLOCK);
    check_jump("00000000000000000000000000000001", -1, "80000000000000000000000000000043", "ticket P1's example");
    check_jump("FBDA5324122747B5193D945E1FA869D3", -1, "FDED29920913A3DA8C9ECA2F0FD434AA", "the second mask jumped back");
    check_jump("1E68C2E51D9A74F67A799130112CE065", -1, "8F3461728ECD3A7B3D3CC89808967071", "the mask after the last block jumped back");
    check_jump("8F3461728ECD3A7B3D3CC89808967071", -999999, "FDED29920913A3DA8C9ECA2F0FD434AA", "the last block's mask jumped back to the first");
    check_jump("FDED29920913A3DA8C9ECA2F0FD434AA", 1000000, "1E68C2E51D9A74F67A799130112CE065", "the start mask jumped behind the last block");
}

void reference_million(void) {
    check_chain(1000000, "F347A18A64E419D33759AD819D5CD8B4", A_MILLION);
}
