/* The two finishes. */
#ifndef FINISHES_H
#define FINISHES_H

#include "balzenoh.h"

enum { CIPHER, HASH, FINISHES };

/* What a sealed record has beside its ciphertext: the IV and the tag. */
static const size_t around[FINISHES] = {BALZENOH_BLOCK + BALZENOH_TAG, BALZENOH_BLOCK + BALZENOH_TAG_SHA1};

#endif
