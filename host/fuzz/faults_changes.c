/* The faults of masks and changes (ticket P11), in sealing a run of two blocks or more. */
#include "faults.h"

#include <string.h>

/* What is sealed from block `first` on is given the mask of that block; its record is put into `run`. */
static void seal_at(const uint8_t *key, size_t key_len, const uint8_t *iv, uint32_t first, uint8_t last, const uint8_t *bytes, size_t bytes_len,
                    uint8_t *out, size_t out_len, uint8_t run[24]) {
    size_t length;
    reference_seal_run(key, key_len, iv, 16, first, last, bytes, bytes_len, out, out_len, &length, run, 24);
}

void fault_in_a_run(const uint8_t *key, size_t key_len, const uint8_t *iv, uint32_t first, uint8_t last, const uint8_t *bytes, size_t bytes_len,
                    uint8_t *out, size_t length, uint8_t *run) {
    static uint8_t rest[16 * 5000];
    uint8_t other[24];
    if (length < 32 || length > sizeof rest)
        return;
    if (fault_is("one-mask-for-two-blocks")) {
        seal_at(key, key_len, iv, first, last, bytes + 16, bytes_len - 16, rest, sizeof rest, other);
        memcpy(out + 16, rest, 16);
    }
    if (fault_is("change-felt-in-the-next-block"))
        for (size_t i = 0; i < 16; i++)
            out[16 + i] ^= bytes[i];
    if (fault_is("first-block-left-out-of-the-record")) {
        seal_at(key, key_len, iv, first + 1, last, bytes + 16, bytes_len - 16, rest, sizeof rest, other);
        memcpy(run + 8, other + 8, 16);
    }
}
