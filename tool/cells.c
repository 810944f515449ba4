/* cells.c - a cell in memory: taken from a file, judged whole, its heights and refusals in words. */
#include "cells.h"
#include "files.h"
#include "say.h"

#include <errno.h>

/* The bytes of a column; 0 where the headers are not good. */
static size_t column_length(const struct cell *cell) {
    int64_t items[DTED_ITEMS];
    if (dted_number(dted_describe(cell->bytes, cell->length, items)) != DTED_OK)
        return 0;
    return dted_column_length(dted_grid((uint64_t)items[DTED_LEVEL], items[DTED_LATITUDE]));
}

/* `, column 3` for a place in a column, and `, post 12` where it is a post's. */
static void put_column(char *text, size_t room, const struct cell *cell, dted_answer answer) {
    unsigned number = dted_number(answer);
    size_t size = number >= DTED_CUT && number <= DTED_WORD ? column_length(cell) : 0;
    text[0] = '\0';
    if (size == 0)
        return;
    uint64_t place = dted_place(answer) - DTED_HEADER_BYTES;
    int length = snprintf(text, room, ", column %" PRIu64, place / size);
    if (number == DTED_WORD)
        snprintf(text + length, room - (size_t)length, ", post %" PRIu64, (place % size - DTED_PREAMBLE_BYTES) / 2);
}

/* Whether year 1 takes a cell that is refused for a word: then it is so for its voids alone, as old cells have them. */
static bool is_of_year_1(const struct cell *cell, dted_answer answer) {
    return dted_number(answer) == DTED_WORD && dted_number(dted_intake(DTED_YEAR_1, cell->bytes, cell->length)) == DTED_OK;
}

const char *refusal_words(const struct cell *cell, dted_answer answer) {
    static const char hint[] = "; --year 1 takes it";
    static char text[DTED_WORDS_ROOM + 64 + sizeof hint];
    dted_refusal(text, DTED_WORDS_ROOM, answer);
    size_t length = strlen(text);
    put_column(text + length, sizeof text - length, cell, answer);
    if (is_of_year_1(cell, answer))
        strcat(text, hint);
    return text;
}

const char *grid_words(dted_answer grid) {
    static char text[64];
    snprintf(text, sizeof text, "level %u, %u columns of %u posts", dted_level(grid), dted_columns(grid), dted_posts(grid));
    return text;
}

const char *height_words(char text[HEIGHT_ROOM], int height) {
    if (height == DTED_VOID)
        return "void";
    snprintf(text, HEIGHT_ROOM, "%d", height);
    return text;
}

int refused(const struct cell *cell, const char *name, dted_answer answer) {
    return complain(REFUSED, name, refusal_words(cell, answer));
}

int judge_cell(struct cell *cell, const char *name) {
    cell->grid = dted_intake(cell->year, cell->bytes, cell->length);
    return dted_number(cell->grid) == DTED_OK ? DONE : refused(cell, name, cell->grid);
}

int take_cell(struct cell *cell, const char *name) {
    if (!read_file(name, cell->bytes, CELL_ROOM, &cell->length))
        return complain(TROUBLE, name, strerror(errno));
    return judge_cell(cell, name);
}

int take_described(struct cell *cell, const char *name, int64_t items[DTED_ITEMS]) {
    int status = take_cell(cell, name);
    if (status != DONE)
        return status;
    dted_answer answer = dted_describe(cell->bytes, cell->length, items);
    return dted_number(answer) == DTED_OK ? DONE : refused(cell, name, answer);
}

int height_of(const struct cell *cell, size_t column, size_t post) {
    const uint8_t *first = cell->bytes + DTED_HEADER_BYTES + column * dted_column_length(cell->grid) + DTED_PREAMBLE_BYTES;
    return dted_word_height(first + 2 * post);
}
