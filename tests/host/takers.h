/* takers.h - the header's functions that take an answer apart, in a row, and as often as there are ways to build them. */
#ifndef TAKERS_H
#define TAKERS_H

#include "dted.h"

/* Their places in a row. */
enum {
    TAKE_NUMBER,
    TAKE_PLACE,
    TAKE_LEVEL,
    TAKE_COLUMNS,
    TAKE_POSTS,
    TAKE_COLUMN_LENGTH,
    TAKE_CELL_LENGTH,
    TAKE_HEIGHT,
    TAKE_POSITION_COLUMN,
    TAKE_POSITION_POST,
    TAKERS
};

/* What one gives, as 64 bits; a height is two's complement. */
typedef uint64_t taker(dted_answer answer);

extern taker *const takers[TAKERS];         /* as a host has them that defines nothing */
extern taker *const checked_takers[TAKERS]; /* with DTED_CHECK */
extern taker *const quiet_takers[TAKERS];   /* with DTED_CHECK and NDEBUG */

#endif
