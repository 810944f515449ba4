/* cell.c - see cell.h. */
#include "cell.h"

#include <stdio.h>
#include <stdlib.h>
#include <string.h>

struct cell cells[LEVELS];

static const int64_t common[DTED_ITEMS] = {
    [DTED_LATITUDE] = 46,
    [DTED_LONGITUDE] = 7,
    [DTED_SECURITY] = 'U',
    [DTED_EDITION] = 1,
    [DTED_MATCH_VERSION] = 'A',
    [DTED_DATUM] = DTED_E96,
    [DTED_ACCURACY] = DTED_NOT_AVAILABLE,
    [DTED_ABSOLUTE_HORIZONTAL] = DTED_NOT_AVAILABLE,
    [DTED_ABSOLUTE_VERTICAL] = DTED_NOT_AVAILABLE,
    [DTED_RELATIVE_HORIZONTAL] = DTED_NOT_AVAILABLE,
    [DTED_RELATIVE_VERTICAL] = DTED_NOT_AVAILABLE,
};

_Noreturn void stop(const char *why) {
    fprintf(stderr, "bench: %s\n", why);
    exit(1);
}

uint8_t *room_for(size_t bytes) {
    uint8_t *p = malloc(bytes);
    if (!p)
        stop("no memory");
    memset(p, 1, bytes);
    return p;
}

static int fold(int v, int period) {
    int rest = v % period;
    return rest < period / 2 ? rest : period - rest;
}

/* Long slopes with a finer pattern, from a little below sea level to some 2,300 metres. */
int formula(int x, int y) { return fold(3 * x + y, 3000) + fold(2 * y + 4000 - x, 1700) + fold(x * y / 2048, 500) - 300; }

static void measure_out(struct cell *cell, int level) {
    memcpy(cell->items, common, sizeof common);
    cell->items[DTED_LEVEL] = level;
    dted_answer laid = dted_grid((uint64_t)level, cell->items[DTED_LATITUDE]);
    cell->columns = dted_columns(laid);
    cell->posts = dted_posts(laid);
    cell->column_bytes = dted_column_length(laid);
    cell->length = dted_cell_length(laid);
    cell->grid_bytes = 2 * cell->columns * cell->posts;
}

static void write_cell(struct cell *cell) {
    cell->grid = room_for(cell->grid_bytes);
    cell->bytes = room_for(cell->length);
    cell->out = room_for(cell->length);
    for (size_t x = 0; x < cell->columns; x++)
        for (size_t y = 0; y < cell->posts; y++)
            dted_put_height(cell->grid + 2 * (x * cell->posts + y), formula((int)x, (int)y));
    if (dted_number(dted_write(DTED_YEAR_2, cell->bytes, cell->length, cell->items, cell->grid, cell->grid_bytes)) != DTED_OK)
        stop("a cell was not written");
    for (size_t i = 0; i < set_count; i++)
        cell->edited[i] = memcpy(room_for(cell->length), cell->bytes, cell->length);
}

static void choose_posts(struct cell *cell) {
    uint64_t seed = 89020;
    for (int i = 0; i < PICKS; i++) {
        cell->picks[i].column = (unsigned)(next_random(&seed) % cell->columns);
        cell->picks[i].post = (unsigned)(next_random(&seed) % cell->posts);
        cell->picks[i].height = (int)(next_random(&seed) % 9000);
    }
}

void make_cells(void) {
    for (int level = 0; level < LEVELS; level++) {
        measure_out(&cells[level], level);
        write_cell(&cells[level]);
        choose_posts(&cells[level]);
    }
    if (cells[LEVELS - 1].length != DTED_LONGEST_CELL)
        stop("the cell of level 2 has another length");
}
