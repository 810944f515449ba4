/* cells.h - a cell in memory: taken from a file, judged whole, its heights and refusals in words. */
#ifndef CELLS_H
#define CELLS_H

#include <dted_words.h>
#include <stdbool.h>

/* One byte more than the longest cell has, so that a file that goes on is told from one that ends there. */
#define CELL_ROOM ((size_t)DTED_LONGEST_CELL + 1)

/* The bytes of a file, in a buffer of CELL_ROOM, the rule year that every call on them names, and what dted_intake answers of them. */
struct cell {
    uint8_t *bytes;
    size_t length;
    uint32_t year;
    dted_answer grid;
};

/* Reads a file and judges it. Where it cannot be read or is refused, that is told on standard error. */
int take_cell(struct cell *cell, const char *name);

/* The same, with the cell's description. */
int take_described(struct cell *cell, const char *name, int64_t items[DTED_ITEMS]);

/* Judges the bytes that are there; a refusal is told on standard error. */
int judge_cell(struct cell *cell, const char *name);

/* Tells a refusal on standard error. */
int refused(const struct cell *cell, const char *name, dted_answer answer);

/* A refusal in words, with column and post where its place is in one, and a word of the year that takes the cell where that is another
 * one. Good until the next call. */
const char *refusal_words(const struct cell *cell, dted_answer answer);

/* The level, columns and posts of an accepted cell in words. Good until the next call. */
const char *grid_words(dted_answer grid);

/* Room for a height in words. */
enum { HEIGHT_ROOM = 12 };

/* Metres, or `void`. */
const char *height_words(char text[HEIGHT_ROOM], int height);

/* A post of an accepted cell, where it stands: dted_post would judge the column again for each. */
int height_of(const struct cell *cell, size_t column, size_t post);

#endif
