/* plain.h - four of the library's calls once more, in plain C, to be measured beside it: arguments and answers are those of dted.h. */
#ifndef PLAIN_H
#define PLAIN_H

#include "dted.h"

/* The calls under names that begin with a word of one's choice, and the compiler that made them. */
#define NAMED_CALLS(who) \
    dted_answer who##_intake(uint32_t year, const uint8_t *cell, size_t length); \
    dted_answer who##_post(uint32_t year, const uint8_t *cell, size_t length, uint64_t column, uint64_t post); \
    dted_answer who##_edit(uint32_t year, uint8_t *cell, size_t length, uint64_t column, uint64_t post, int64_t height); \
    dted_answer who##_write(uint32_t year, uint8_t *out, size_t room, const int64_t *items, const uint8_t *grid, size_t bytes); \
    const char *who##_compiler(void)

NAMED_CALLS(plain);

/* plain.c once more: for x86-64-v3, by a second compiler for both processors, and with a column in two passes, as it had it before 0.5.1; and the
 * library for x86-64-v3. */
NAMED_CALLS(plain_v3);
NAMED_CALLS(second);
NAMED_CALLS(second_v3);
NAMED_CALLS(passes);
NAMED_CALLS(passes_v3);
NAMED_CALLS(v3_dted);

#endif
