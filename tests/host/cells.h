/* cells.h - cells made from a seed, whole or damaged in a named way, as input for the tests. */
#ifndef CELLS_H
#define CELLS_H

#include "numbers.h"

#include <stdbool.h>
#include <stddef.h>
#include <stdint.h>

#define CELL_ITEMS 13
#define CELL_HEADERS 3428
#define CELL_VOID (-32767)

/* ---- the header fields ---- */

struct cell_field {
    size_t offset, width;
    unsigned besides; /* the number that it may give besides 21: 22, 23, or 0 for none */
};

/* In the order in which they are judged. */
#define CELL_FIELDS 40
extern const struct cell_field cell_fields[CELL_FIELDS];

/* The field that has the byte at this place, or CELL_FIELDS where none has it. */
size_t cell_field_at(uint64_t place);

/* Texts that stand in some field of some cell, or nearly: to be tried wherever their width fits. Ends with null. */
extern const char *const cell_texts[];

/* ---- cells ---- */

struct cell {
    int64_t items[CELL_ITEMS]; /* what it was written from */
    size_t columns, posts, column_bytes;
    uint8_t *grid; /* the heights of the columns that were made, as a writer takes them, and two bytes more */
    size_t grid_bytes;
    uint8_t *bytes;
    size_t length, room;
    bool whole;            /* nothing was damaged: where its voids are allowed it is accepted, and its posts are the grid's */
    char damage[96];       /* in words */
    size_t damaged_column; /* one worth a look */
};

/* Items in range, at the edges of zones, hemispheres and ranges half of the time. */
void cell_items(struct random *random, int64_t level, int64_t *items);

/* Heights for `count` posts, at the limits at times and at times mostly 0, with many voids or a few where they are wanted. */
void cell_heights(struct random *random, bool voids, uint8_t *grid, size_t count);

/* A cell of these items, cut after `columns_made` columns (SIZE_MAX: whole). Free bytes and free letters are random at times.
 * Posts at height 0 have the word 8000 at times, so that a column is not always what a writer makes of its heights.
 * The memory of an earlier cell is used again: start from a zeroed struct. */
void cell_make_with(struct random *random, const int64_t *items, bool voids, size_t columns_made, struct cell *cell);

/* The same; of partial cells one in three is without voids, and of complete ones one in twelve has them. */
void cell_make(struct random *random, const int64_t *items, size_t columns_made, struct cell *cell);

/* The columns that were made, before any damage. */
size_t cell_columns_made(const struct cell *cell);

/* The first post of the column that is void, or the number of posts where none is. */
size_t cell_first_void(const struct cell *cell, size_t column);

/* Headers alone, of items in range. Free bytes and free letters are random at times. */
void cell_make_headers(struct random *random, const int64_t *items, uint8_t *headers);

/* Changes field `f`: by a byte, to a listed text, or to what it holds in some other cell, which may be right here, too. */
void cell_spoil_field(struct random *random, uint8_t *headers, size_t f);

/* One or two damages, or a change that leaves the cell right. */
void cell_damage(struct random *random, struct cell *cell);

void cell_mend_checksum(struct cell *cell, size_t column);
void cell_free(struct cell *cell);

#endif
