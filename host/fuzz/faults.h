/* Which fault the wrong library is to have. */
#ifndef FAULTS_H
#define FAULTS_H

#include "reference.h"

/* Whether this is the one that FAULT in the environment names. */
int fault_is(const char *name);

/* Opening with one of the faults of ticket P6, after the right function has answered with `refusal`: gives what is returned in its place. */
uint8_t fault_in_opening(uint8_t refusal, enum finish by, const uint8_t *key, size_t key_len, const uint8_t *sealed, size_t sealed_len,
                         uint8_t *out, size_t out_len, size_t *length);

/* What a call with a fault of the limit returns in the place of `refusal`: for `count` blocks from `first` on, which `row` of the table refuses
   where they are too many; for records, one after the other; for a sealed record of this length. */
uint8_t fault_of_limit(const char *call, uint8_t refusal, uint8_t row, uint64_t first, uint64_t count);
uint8_t fault_of_limit_in_records(const char *call, uint8_t refusal, const uint8_t *records, size_t len);
uint8_t fault_of_limit_in_opening(const char *call, uint8_t refusal, enum finish by, size_t sealed_len);

/* A run of plaintext, sealed from block `first` on, with one of the faults of ticket P11 in its ciphertext or its record. */
void fault_in_a_run(const uint8_t *key, size_t key_len, const uint8_t *iv, uint32_t first, uint8_t last, const uint8_t *bytes, size_t bytes_len,
                    uint8_t *out, size_t length, uint8_t *run);

#endif
