/* Seals or opens one list with the library that it is linked to.

       list seal FINISH LENGTH    writes the sealed record of a message of so many bytes to standard output
       list open FINISH           reads a sealed record, and opens it

   FINISH is cipher or sha1. Key, IV and message are made by a rule. The exit status is the number of the refusal, or 0; it is 70 where
   another message comes out than the rule makes, and 64 where the arguments are wrong. */
#include "balzenoh.h"

#include <stdio.h>
#include <stdlib.h>
#include <string.h>

enum { USAGE = 64, ANOTHER_MESSAGE = 70 };

static uint8_t key[16], iv[16], message[BALZENOH_LONGEST_MESSAGE + 17], sealed[BALZENOH_LONGEST_SEALED_SHA1 + 17], out[sizeof sealed];
static size_t length;

static void fill(uint8_t *bytes, size_t len, uint32_t state) {
    for (size_t i = 0; i < len; i++) {
        state = 1664525 * state + 1013904223;
        bytes[i] = (uint8_t)(state >> 24);
    }
}

static int seal(int by_hash, size_t len) {
    uint8_t refusal = (by_hash ? balzenoh_seal_sha1 : balzenoh_seal)(key, 16, iv, 16, message, len, out, sizeof out, &length);
    return fwrite(out, 1, length, stdout) == length ? refusal : USAGE;
}

static int open(int by_hash) {
    size_t len = fread(sealed, 1, sizeof sealed, stdin);
    uint8_t refusal = (by_hash ? balzenoh_open_sha1 : balzenoh_open)(key, 16, sealed, len, out, sizeof out, &length);
    return refusal == 0 && memcmp(out, message, length) != 0 ? ANOTHER_MESSAGE : refusal;
}

int main(int argc, char **argv) {
    fill(key, sizeof key, 1);
    fill(iv, sizeof iv, 2);
    fill(message, sizeof message, 3);
    int by_hash = argc > 2 && strcmp(argv[2], "sha1") == 0;
    if (argc == 4 && strcmp(argv[1], "seal") == 0 && strtoul(argv[3], NULL, 10) <= sizeof message)
        return seal(by_hash, strtoul(argv[3], NULL, 10));
    if (argc == 3 && strcmp(argv[1], "open") == 0)
        return open(by_hash);
    return USAGE;
}
