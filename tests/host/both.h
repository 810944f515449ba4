/* both.h - each call made twice, of the library and of the second reader and writer, on the same numbers and bytes.
 *
 * The library's bytes stand between pages that cannot be touched. Answers, filled arrays and every lent byte are compared, and
 * after a refused call also with the bytes before it. Numbers that no call gives, places of 21 to 23 outside a field that can
 * give them, and any answer but 17 at the year where the year is unknown are differences, too. A difference is told to differ(),
 * which the program defines.
 */
#ifndef BOTH_H
#define BOTH_H

#include "dted.h"
#include "lent.h"

#define BOTH_ITEMS 13

/* The longest cell, of level 2 in zone I, and some bytes past it. */
#define BOTH_MOST (25981042 + 4096)

/* Told at a difference: the call, what differed, where (an offset or an index), and both values. */
void differ(const char *call, const char *what, uint64_t at, uint64_t library, uint64_t second);

/* The call that is running: of use where it does not return. */
extern const char *volatile both_calling;

void both_open(void);

/* On which side the pages that cannot be touched stand, for what is lent from now on. */
void both_side(enum side side);

/* The rule year that is named in every call from now on that takes one. */
void both_year(uint32_t year);

/* Lends a copy of these bytes to the calls that follow; null pointers are lent as they are. */
void both_lend(const uint8_t *cell, size_t length);

/* The lent cell as the library left it. */
const uint8_t *both_cell(void);

/* Each gives the library's answer. */
dted_answer both_intake(void);
dted_answer both_describe(int64_t *items);
dted_answer both_post(uint64_t column, uint64_t post);
dted_answer both_position(int64_t latitude, int64_t longitude);
dted_answer both_edit(uint64_t column, uint64_t post, int64_t height);
dted_answer both_grid(uint64_t level, int64_t latitude);

/* An output of `room` bytes is lent, null where `null_out` and room is 0; what was written stands at both_out(). */
dted_answer both_write(size_t room, bool null_out, const int64_t *items, const uint8_t *grid, size_t bytes);
dted_answer both_write_column(size_t room, bool null_out, uint64_t level, uint64_t number, const uint8_t *posts, size_t bytes);
const uint8_t *both_out(void);

#endif
