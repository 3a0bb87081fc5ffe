/* Each call made of the library and of the reference, and everything that they give compared: the refusal, the length and the whole of every
   output. A difference is printed and stops the program. What is returned is the refusal. */
#ifndef BOTH_H
#define BOTH_H

#include "guard.h"
#include "reference.h"

/* What the last call of the reference wrote. */
extern uint8_t answer[LONGEST], answer_run[LONGEST];
extern size_t answer_length;

uint8_t both_seal(enum finish by, slice key, slice iv, slice message, size_t room);
uint8_t both_open(enum finish by, slice key, slice sealed, size_t room);
uint8_t both_seal_run(slice key, slice iv, uint32_t first, uint8_t last, slice bytes, size_t room, size_t run_room);
uint8_t both_check_run(slice key, slice iv, uint32_t first, slice bytes, size_t run_room);
uint8_t both_join(slice left, slice right, size_t run_room);
uint8_t both_join_list(slice records, size_t run_room);
uint8_t both_close(enum finish by, slice key, slice iv, slice run, size_t room);
uint8_t both_test(enum finish by, slice key, slice iv, slice run, slice tag);
uint8_t both_jump(slice mask, int32_t distance, size_t room);
uint8_t both_sha1(slice text, size_t room);

/* Says so and stops the program where the two are not the same bytes. */
void must_be_same(const char *what, const uint8_t *a, const uint8_t *b, size_t len);

/* Says so and stops the program where the two are the same bytes. */
void must_not_be_same(const char *what, const uint8_t *a, const uint8_t *b, size_t len);

/* Prints how many calls were compared, of each kind and with each refusal. */
void print_counts(void);

#endif
