/* asked.c - numbers to call with: mostly right for a cell, at its edges, or far out. */
#include "asked.h"

#include "dted.h"

uint64_t any_column(struct random *random, const struct cell *cell) {
    size_t made = cell_columns_made(cell);
    switch (random_below(random, 8)) {
    case 0: return random_odd_index(random, random_below(random, cell->columns));
    case 1: return cell->columns - 1 + random_below(random, 2);
    case 2: return 0;
    case 3: return cell->damaged_column;
    case 4: return (cell->length - (cell->length < CELL_HEADERS ? cell->length : CELL_HEADERS)) / cell->column_bytes;
    default: return random_below(random, made > 0 ? made : cell->columns);
    }
}

uint64_t any_post(struct random *random, const struct cell *cell) {
    switch (random_below(random, 8)) {
    case 0: return random_odd_index(random, random_below(random, cell->posts));
    case 1: return cell->posts - 1 + random_below(random, 2);
    case 2: return 0;
    default: return random_below(random, cell->posts);
    }
}

/* A way along an edge of `count` marks: on a mark, about half way between two, at an end, near mark `favoured`, or far out. */
static int64_t any_way(struct random *random, size_t count, size_t favoured) {
    int64_t interval = 36000 / (int64_t)(count - 1), mark = (int64_t)random_below(random, count);
    switch (random_below(random, 8)) {
    case 0: return random_between(random, -2, 2);
    case 1: return 36000 + random_between(random, -2, 2);
    case 2: return mark * interval;
    case 3: case 4: return mark * interval + interval / 2 + random_between(random, -1, 1);
    case 5: return (int64_t)favoured * interval + random_between(random, -interval / 2, interval / 2);
    default: return random_between(random, 0, 36000);
    }
}

int64_t any_longitude(struct random *random, const struct cell *cell) {
    int64_t west = cell->items[DTED_LONGITUDE] * 36000;
    if (random_one_in(random, 12))
        return random_odd_number(random, west);
    if (random_one_in(random, 12))
        return random_one_in(random, 2) ? 6480000 : -6480000;
    return west + any_way(random, cell->columns, cell->damaged_column);
}

int64_t any_latitude(struct random *random, const struct cell *cell) {
    int64_t south = cell->items[DTED_LATITUDE] * 36000;
    if (random_one_in(random, 12))
        return random_odd_number(random, south);
    return south + any_way(random, cell->posts, 0);
}

int64_t any_height(struct random *random) {
    switch (random_below(random, 8)) {
    case 0: return DTED_VOID;
    case 1: return random_odd_number(random, random_between(random, -12000, 9000));
    case 2: return random_between(random, 8999, 9001);
    case 3: return random_between(random, -12001, -11999);
    case 4: return 0;
    default: return random_between(random, -12000, 9000);
    }
}

/* A year that is neither 1 nor 2: mostly one that would be, cut to fewer bits. */
uint32_t any_unknown_year(struct random *random) {
    static const uint32_t years[] = {0, 3, 17, 255, 256, 257, 258, 65536, 65537, 65538, 0x7FFFFFFF, 0x80000001, 0x80000002, UINT32_MAX};
    uint32_t year = (uint32_t)random_next(random);
    return random_one_in(random, 3) && year > 2 ? year : years[random_below(random, COUNT(years))];
}
