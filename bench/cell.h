/* cell.h - the cells that are measured: one of each level, in zone I, written from a formula. */
#ifndef CELL_H
#define CELL_H

#include "sets.h"

enum { LEVELS = 3, PICKS = 3601 };

/* One post to be looked up or edited. */
struct pick {
    unsigned column, post;
    int height;
};

struct cell {
    int64_t items[DTED_ITEMS];
    size_t columns, posts, column_bytes, length, grid_bytes;
    uint8_t *bytes, *grid, *out;
    uint8_t *edited[MOST_SETS]; /* a copy for each set of calls */
    struct pick picks[PICKS];
};

extern struct cell cells[LEVELS];

/* Writes them, by the library, and chooses the posts. */
void make_cells(void);

/* The height at a column and a post. */
int formula(int x, int y);

/* Memory that was touched; the program ends where there is none. */
uint8_t *room_for(size_t bytes);

/* Ends the program. */
_Noreturn void stop(const char *why);

#endif
