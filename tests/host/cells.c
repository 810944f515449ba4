/* cells.c - cells made from a seed, whole or damaged in a named way, as input for the tests. */
#include "cells.h"

#include "second.h"

#include <stdio.h>
#include <stdlib.h>
#include <string.h>

/* ---- the header fields ---- */

const struct cell_field cell_fields[CELL_FIELDS] = {
    {0, 4, 0}, {4, 8, 0}, {12, 8, 0}, {24, 4, 0}, {20, 4, 23}, {28, 4, 0}, {32, 3, 0}, {47, 4, 23}, {51, 4, 23}, {55, 1, 0},
    {80, 3, 0}, {83, 1, 22}, {139, 5, 22}, {167, 2, 0}, {169, 1, 0}, {206, 9, 0}, {221, 3, 0}, {224, 5, 0}, {265, 9, 22},
    {274, 10, 22}, {284, 7, 22}, {291, 8, 22}, {299, 7, 22}, {306, 8, 22}, {314, 7, 22}, {321, 8, 22}, {329, 7, 22},
    {336, 8, 22}, {344, 9, 0}, {353, 4, 23}, {357, 4, 23}, {361, 4, 23}, {365, 4, 23}, {369, 2, 0}, {728, 3, 0}, {731, 4, 0},
    {735, 4, 0}, {739, 4, 0}, {743, 4, 0}, {783, 2, 0},
};

size_t cell_field_at(uint64_t place) {
    size_t f = 0;
    while (f < CELL_FIELDS && (place < cell_fields[f].offset || place >= cell_fields[f].offset + cell_fields[f].width))
        f++;
    return f;
}

const char *const cell_texts[] = {
    /* intervals and counts of every level and zone, and their neighbours */
    "0300", "0600", "0900", "1200", "1800", "0030", "0060", "0090", "0120", "0180", "0010", "0020", "0040", "0121", "0061",
    "0041", "0031", "0021", "1201", "0601", "0401", "0301", "0201", "3601", "1801", "0901", "3600", "3602", "0003", " 300",
    "300 ", "+300", "-030", "30.0", "0x1E", "1E03",
    /* accuracies */
    "NA  ", "NA00", "  NA", " NA ", "na  ", "N/A ", "NA 0", "NA0 ", "0000", "9999", "99 9", " 123", "-001", "12:4", "12/4",
    /* marks */
    "UHL1", "UHL2", "uhl1", "VOL1", "HDR1", "DSI", "ACC", "UHL", "dsi", "acc",
    /* angles of an origin and of a corner */
    "0000000E", "0000000W", "0000000N", "0000000S", "0010000E", "0010000W", "1790000E", "1790000W", "1800000E", "1800000W",
    "1810000E", "1810000W", "9990000W", "0890000N", "0890000S", "0900000N", "0900000S", "0910000S", "0010000N", "0010000S",
    "0070100E", "0070001E", "0076000W", " 070000E", "007    E", "-070000E", "+070000N", "0070000e", "0070000 ", "0450000n",
    "000000N", "000000S", "010000N", "010000S", "890000N", "890000S", "900000N", "900000S", "910000N", "010001N", "000000E",
    "000000.0N", "000000.0S", "010000.0S", "900000.0S", "900000.0N", "890000.0N", "000000.1N", "000000,0N", "0000000.0",
    "0000000.1", "0000001.0", "0900000.0", "0000000,0", "000000.00", "0000000.0E", "0000000.0W", "1800000.0W", "1800000.0E",
    "1790000.0E", "0010000.0W", "0000000.1E",
    /* security, series, edition, version, datums */
    "S  ", "C  ", "U  ", "R  ", "T  ", "u  ", "UU ", "U U", " U ", "   ", "S", "C", "U", "R", "T", "A", "Z", "@", "[", "a", "z",
    "0", "1", " ", "DTED0", "DTED1", "DTED2", "DTED3", "DTED ", "dted0", "DTD 0", "00", "01", "10", "99", "0 ", " 0", "1A", "A1",
    "-1", "NA", "PRF89020A", "PRF89020B", "PRF89020 ", "prf89020b", "MIL89020B", "MSL", "E96", "E84", "msl", "e96", "WGS84",
    "WGS72", "wgs84", "WGS 8", NULL,
};

/* ---- descriptions and heights ---- */

static int64_t pick(struct random *random, const int64_t *values, size_t count) {
    return values[random_below(random, count)];
}

static int64_t accuracy(struct random *random) {
    static const int64_t edges[] = {-1, -1, 0, 1, 9, 10, 99, 100, 999, 1000, 9998, 9999};
    return random_one_in(random, 2) ? pick(random, edges, COUNT(edges)) : random_between(random, -1, 9999);
}

void cell_items(struct random *random, int64_t level, int64_t *items) {
    static const int64_t latitudes[] = {-90, -89, -82, -81, -80, -79, -77, -76, -75, -74, -72, -71, -70, -69, -52, -51, -50,
                                        -49, -2,  -1,  0,   1,   48,  49,  50,  51,  68,  69,  70,  73,  74,  75,  78,  79,
                                        80,  81,  88,  89};
    static const int64_t longitudes[] = {-180, -179, -100, -99, -10, -9, -2, -1, 0, 1, 9, 10, 99, 100, 178, 179};
    bool edge = random_one_in(random, 2);
    items[0] = level;
    items[1] = edge ? pick(random, latitudes, COUNT(latitudes)) : random_between(random, -90, 89);
    items[2] = edge ? pick(random, longitudes, COUNT(longitudes)) : random_between(random, -180, 179);
    items[3] = "SCUR"[random_below(random, 4)];
    items[4] = random_one_in(random, 4) ? 99 : random_between(random, 1, 99);
    items[5] = random_between(random, 'A', 'Z');
    items[6] = random_between(random, 0, 1);
    for (int i = 7; i < 12; i++)
        items[i] = accuracy(random);
    items[12] = random_one_in(random, 2) ? 0 : random_between(random, 1, 99);
}

static int64_t edge_height(struct random *random) {
    static const int64_t edges[] = {-12000, -11999, -8192, -4096, -257, -256, -255, -129, -128, -127, -1,
                                    0,      1,      127,   128,   129,  255,  256,  257,  4096, 8191, 8999, 9000};
    return pick(random, edges, COUNT(edges));
}

static void put_height(uint8_t *grid, size_t index, int64_t height) {
    grid[2 * index] = (uint8_t)((uint16_t)height >> 8);
    grid[2 * index + 1] = (uint8_t)((uint16_t)height & 0xFF);
}

/* The kinds of ground: limits only, plateaus of limits, anything, a slope, the sea with islands, and, where it may be, nothing known
 * at all. */
void cell_heights(struct random *random, bool voids, uint8_t *grid, size_t count) {
    uint64_t kind = random_below(random, voids ? 6 : 5), apart = random_one_in(random, 2) ? 16 : 400;
    int64_t height = edge_height(random);
    for (size_t i = 0; i < count; i++) {
        uint64_t drawn = random_next(random);
        if (kind == 0 || (kind == 1 && drawn % 5 == 0))
            height = edge_height(random);
        else if (kind == 2)
            height = (int64_t)(drawn % 21001) - 12000;
        else if (kind == 3)
            height = height < 9000 ? height + 1 : -12000;
        else if (kind == 4)
            height = drawn % 4 == 0 ? edge_height(random) : 0;
        bool hole = voids && (kind == 5 || (drawn >> 32) % apart == 0);
        put_height(grid, i, hole ? CELL_VOID : height);
    }
}

/* ---- whole cells ---- */

static void *grown(void *memory, size_t size) {
    void *larger = realloc(memory, size);
    if (larger == NULL) {
        perror("realloc");
        exit(2);
    }
    return larger;
}

static void make_room(struct cell *cell, size_t length) {
    if (length > cell->room) {
        cell->bytes = grown(cell->bytes, length);
        cell->room = length;
    }
}

static void random_free_bytes(struct random *random, uint8_t *bytes) {
    static bool known, is_free_at[CELL_HEADERS];
    for (size_t i = 0; i < CELL_HEADERS && !known; i++)
        is_free_at[i] = cell_field_at(i) == CELL_FIELDS;
    known = true;
    for (size_t i = 0; i < CELL_HEADERS; i++)
        if (is_free_at[i])
            bytes[i] = (uint8_t)random_next(random);
}

/* Corners at 0 degrees and at longitude 180 may carry either letter. */
static void random_letters(struct random *random, uint8_t *bytes) {
    for (size_t at = 284; at < 344; at += 15) {
        if (memcmp(bytes + at, "00", 2) == 0)
            bytes[at + 6] = (uint8_t)"NS"[random_below(random, 2)];
        if (memcmp(bytes + at + 7, "000", 3) == 0 || memcmp(bytes + at + 7, "180", 3) == 0)
            bytes[at + 14] = (uint8_t)"EW"[random_below(random, 2)];
    }
}

void cell_make_headers(struct random *random, const int64_t *items, uint8_t *headers) {
    second_headers(headers, items);
    if (!random_one_in(random, 4))
        random_free_bytes(random, headers);
    if (random_one_in(random, 2))
        random_letters(random, headers);
}

static void set_sizes(struct cell *cell) {
    uint64_t grid = second_grid((uint64_t)cell->items[0], cell->items[1]);
    cell->columns = (size_t)(grid >> 16 & 0xFFFF);
    cell->posts = (size_t)(grid & 0xFFFF);
    cell->column_bytes = 12 + 2 * cell->posts;
}

static uint8_t *column_of(struct cell *cell, size_t k) {
    return cell->bytes + CELL_HEADERS + k * cell->column_bytes;
}

/* Height 0 by its other word, 8000, which no writer gives: in no column, in every one or in half of them, at all posts or at half. */
static void negative_zeros(struct random *random, struct cell *cell, size_t made) {
    uint64_t kind = random_below(random, 4);
    for (size_t k = 0; k < made; k++) {
        uint8_t *words = column_of(cell, k) + 8;
        if (kind == 0 || (kind == 1 && random_one_in(random, 2)))
            continue;
        for (size_t p = 0; p < cell->posts; p++)
            if (words[2 * p] == 0 && words[2 * p + 1] == 0 && (kind == 2 || random_one_in(random, 2)))
                words[2 * p] = 0x80;
        cell_mend_checksum(cell, k);
    }
}

size_t cell_columns_made(const struct cell *cell) {
    return cell->grid_bytes / (2 * cell->posts);
}

size_t cell_first_void(const struct cell *cell, size_t column) {
    const uint8_t *heights = cell->grid + 2 * column * cell->posts;
    size_t p = 0;
    while (p < cell->posts && (heights[2 * p] != 0x80 || heights[2 * p + 1] != 0x01))
        p++;
    return p;
}

void cell_make_with(struct random *random, const int64_t *items, bool voids, size_t columns_made, struct cell *cell) {
    memcpy(cell->items, items, sizeof cell->items);
    set_sizes(cell);
    size_t made = columns_made < cell->columns ? columns_made : cell->columns;
    cell->whole = made == cell->columns;
    cell->damaged_column = 0;
    snprintf(cell->damage, sizeof cell->damage, "%s", cell->whole ? "whole" : "cut at a column's edge");
    cell->grid_bytes = 2 * made * cell->posts;
    cell->grid = grown(cell->grid, cell->grid_bytes + 2);
    memset(cell->grid + cell->grid_bytes, 0, 2);
    cell_heights(random, voids, cell->grid, made * cell->posts);
    cell->length = CELL_HEADERS + made * cell->column_bytes;
    make_room(cell, cell->length);
    cell_make_headers(random, items, cell->bytes);
    for (size_t k = 0; k < made; k++)
        second_write_column(column_of(cell, k), cell->column_bytes, (uint64_t)items[0], k, cell->grid + 2 * k * cell->posts,
                            2 * cell->posts);
    negative_zeros(random, cell, made);
}

void cell_make(struct random *random, const int64_t *items, size_t columns_made, struct cell *cell) {
    bool voids = items[12] != 0 ? !random_one_in(random, 3) : random_one_in(random, 12);
    cell_make_with(random, items, voids, columns_made, cell);
}

void cell_free(struct cell *cell) {
    free(cell->grid);
    free(cell->bytes);
    memset(cell, 0, sizeof *cell);
}

/* ---- damages ---- */

static size_t columns_there(const struct cell *cell) {
    return cell->length < CELL_HEADERS ? 0 : (cell->length - CELL_HEADERS) / cell->column_bytes;
}

/* A column that is there, the first or the last more often than others; false where there is none. */
static bool any_column(struct random *random, struct cell *cell, size_t *k) {
    size_t there = columns_there(cell);
    if (there == 0)
        return false;
    uint64_t kind = random_below(random, 6);
    *k = kind == 0 ? 0 : kind == 1 ? there - 1 : random_below(random, there);
    cell->damaged_column = *k;
    return true;
}

static void put_number(uint8_t *bytes, size_t count, uint64_t number) {
    for (size_t i = 0; i < count; i++)
        bytes[i] = (uint8_t)(number >> 8 * (count - 1 - i));
}

static uint64_t sum_of(const uint8_t *bytes, size_t count) {
    uint64_t sum = 0;
    while (count > 0)
        sum += bytes[--count];
    return sum;
}

void cell_mend_checksum(struct cell *cell, size_t k) {
    uint8_t *column = column_of(cell, k);
    put_number(column + cell->column_bytes - 4, 4, sum_of(column, cell->column_bytes - 4));
}

static void change_byte(struct random *random, uint8_t *byte) {
    uint64_t kind = random_below(random, 4);
    if (kind == 0)
        *byte = (uint8_t)(*byte + 1);
    else if (kind == 1)
        *byte = (uint8_t)(*byte ^ 1u << random_below(random, 8));
    else
        *byte = (uint8_t)(*byte ^ (1 + random_below(random, 255)));
}

static void no_damage(struct random *random, struct cell *cell) {
    (void)random;
    (void)cell;
}

static void byte_anywhere(struct random *random, struct cell *cell) {
    if (cell->length > 0)
        change_byte(random, cell->bytes + random_below(random, cell->length));
}

static void byte_of_column(struct random *random, struct cell *cell) {
    size_t k;
    if (any_column(random, cell, &k))
        change_byte(random, column_of(cell, k) + random_below(random, cell->column_bytes));
}

static void preamble(struct random *random, struct cell *cell) {
    size_t k;
    if (!any_column(random, cell, &k))
        return;
    change_byte(random, column_of(cell, k) + random_below(random, 8));
    if (random_one_in(random, 2))
        cell_mend_checksum(cell, k);
}

static void columns_swapped(struct random *random, struct cell *cell) {
    size_t j, k;
    if (!any_column(random, cell, &j) || !any_column(random, cell, &k))
        return;
    for (size_t i = 0; i < cell->column_bytes; i++) {
        uint8_t kept = column_of(cell, j)[i];
        column_of(cell, j)[i] = column_of(cell, k)[i];
        column_of(cell, k)[i] = kept;
    }
}

static void column_twice(struct random *random, struct cell *cell) {
    size_t j, k;
    if (any_column(random, cell, &j) && any_column(random, cell, &k))
        memmove(column_of(cell, k), column_of(cell, j), cell->column_bytes);
}

static void renumbered(struct random *random, struct cell *cell) {
    size_t k;
    if (!any_column(random, cell, &k))
        return;
    const uint64_t numbers[] = {k + 1, k - 1, k + 256, k ^ 0x8000, 0xFFFF, 0, k + 0x10000, random_below(random, cell->columns)};
    uint64_t number = numbers[random_below(random, COUNT(numbers))], which = random_below(random, 4);
    if (which != 0)
        put_number(column_of(cell, k) + 1, 3, number);
    if (which != 1)
        put_number(column_of(cell, k) + 4, 2, number);
    if (!random_one_in(random, 4))
        cell_mend_checksum(cell, k);
}

/* Sums that a slip would make: without the preamble, of words, in other byte order, and near ones. */
static void checksum(struct random *random, struct cell *cell) {
    size_t k;
    if (!any_column(random, cell, &k))
        return;
    uint8_t *column = column_of(cell, k);
    size_t summed = cell->column_bytes - 4;
    uint64_t sum = sum_of(column, summed), words = 0;
    for (size_t i = 0; i < summed; i += 2)
        words += column[i] * 256u + column[i + 1];
    const uint64_t sums[] = {sum + 1,          sum - 1,          sum_of(column + 8, summed - 8), sum_of(column + 1, summed - 1),
                             words,            sum & 0xFFFF,     sum + 0x10000,                  sum + 0x1000000,
                             0 - sum,          sum << 8,         sum + 256,                      0};
    put_number(column + summed, 4, sums[random_below(random, COUNT(sums))]);
}

static void word(struct random *random, struct cell *cell) {
    static const uint64_t words[] = {0x8000, 0x2329, 0x2329, 0xAEE1, 0xAEE1, 0xFFFF, 0xFFFF, 0xFFFE, 0x7FFF, 0x8001,
                                     0x2328, 0xAEE0, 0x4000, 0xC000, 0xD120, 0x232A, 0xAEE2};
    size_t k;
    if (!any_column(random, cell, &k))
        return;
    for (uint64_t count = 1 + random_below(random, 2); count > 0; count--) {
        uint64_t kind = random_below(random, 6);
        size_t post = kind == 0 ? 0 : kind == 1 ? cell->posts - 1 : random_below(random, cell->posts);
        uint64_t put = random_one_in(random, 6) ? random_next(random) : words[random_below(random, COUNT(words))];
        put_number(column_of(cell, k) + 8 + 2 * post, 2, put);
    }
    if (!random_one_in(random, 8))
        cell_mend_checksum(cell, k);
}

static void cut(struct random *random, struct cell *cell) {
    size_t edge = CELL_HEADERS + random_below(random, cell->columns) * cell->column_bytes;
    const size_t lengths[] = {0,        1,        79,   CELL_HEADERS - 1, CELL_HEADERS,     CELL_HEADERS + 1, edge,
                              edge - 1, edge + 1, edge + 8, edge + cell->column_bytes - 1, cell->length - 1,
                              random_below(random, cell->length + 1)};
    size_t length = lengths[random_below(random, COUNT(lengths))];
    if (length < cell->length)
        cell->length = length;
    cell->damaged_column = columns_there(cell);
}

static void longer(struct random *random, struct cell *cell) {
    const size_t counts[] = {1, 1, 2, 3, 254, cell->column_bytes, cell->column_bytes - 1, 1 + random_below(random, 4000)};
    size_t count = counts[random_below(random, COUNT(counts))];
    uint64_t kind = random_below(random, 3);
    make_room(cell, cell->length + count);
    for (size_t i = 0; i < count; i++, cell->length++)
        cell->bytes[cell->length] = kind == 0 ? 0 : kind == 1 ? ' ' : (uint8_t)random_next(random);
}

/* A text of the field's width, from the list. */
static void other_text(struct random *random, uint8_t *at, size_t width) {
    size_t fitting = 0;
    for (size_t t = 0; cell_texts[t] != NULL; t++)
        fitting += strlen(cell_texts[t]) == width;
    if (fitting == 0)
        return;
    size_t chosen = random_below(random, fitting);
    for (size_t t = 0; cell_texts[t] != NULL; t++)
        if (strlen(cell_texts[t]) == width && chosen-- == 0)
            memcpy(at, cell_texts[t], width);
}

/* The field moved by one byte, as a careless writer would justify it. */
static void shifted(struct random *random, uint8_t *at, size_t width) {
    if (random_one_in(random, 2)) {
        memmove(at, at + 1, width - 1);
        at[width - 1] = ' ';
    } else {
        memmove(at + 1, at, width - 1);
        at[0] = ' ';
    }
}

/* The field as another cell has it, of any level and origin. */
static void borrowed(struct random *random, uint8_t *at, const struct cell_field *field) {
    uint8_t headers[CELL_HEADERS];
    int64_t items[CELL_ITEMS];
    cell_items(random, random_between(random, 0, 2), items);
    cell_make_headers(random, items, headers);
    memcpy(at, headers + field->offset, field->width);
}

void cell_spoil_field(struct random *random, uint8_t *headers, size_t f) {
    static const char plausible[] = "0123456789 NSEWAZaz./:-+@[UCR";
    const struct cell_field *field = &cell_fields[f];
    uint8_t *at = headers + field->offset, *byte = at + random_below(random, field->width);
    switch (random_below(random, 9)) {
    case 0: other_text(random, at, field->width); break;
    case 1: shifted(random, at, field->width); break;
    case 2: *byte = (uint8_t)plausible[random_below(random, sizeof plausible - 1)]; break;
    case 3: *byte ^= 0x20; break; /* the other case of a letter */
    case 4: *byte = (uint8_t)(random_one_in(random, 2) ? *byte + 1 : *byte - 1); break;
    case 5: change_byte(random, byte); break;
    default: borrowed(random, at, field); break;
    }
}

static void header_field(struct random *random, struct cell *cell) {
    if (cell->length >= CELL_HEADERS)
        cell_spoil_field(random, cell->bytes, random_below(random, CELL_FIELDS));
}

static void other_headers(struct random *random, struct cell *cell) {
    int64_t items[CELL_ITEMS];
    if (cell->length < CELL_HEADERS)
        return;
    cell_items(random, random_one_in(random, 4) ? random_between(random, 0, 2) : cell->items[0], items);
    second_headers(cell->bytes, items);
}

static void right_otherwise(struct random *random, struct cell *cell) {
    if (cell->length < CELL_HEADERS)
        return;
    random_letters(random, cell->bytes);
    random_free_bytes(random, cell->bytes);
}

static const struct damage {
    void (*make)(struct random *, struct cell *);
    bool harmless;
    const char *name;
} damages[] = {
    {no_damage, true, "nothing"},
    {right_otherwise, true, "free bytes and letters"},
    {byte_anywhere, false, "one byte changed"},
    {byte_of_column, false, "one byte of a column changed"},
    {preamble, false, "a preamble changed"},
    {columns_swapped, false, "columns swapped"},
    {column_twice, false, "a column twice"},
    {renumbered, false, "a column renumbered"},
    {checksum, false, "a checksum changed"},
    {word, false, "words replaced"},
    {word, false, "words replaced"},
    {cut, false, "cut"},
    {cut, false, "cut"},
    {longer, false, "bytes appended"},
    {header_field, false, "a header field changed"},
    {header_field, false, "a header field changed"},
    {header_field, false, "a header field changed"},
    {other_headers, false, "headers of another cell"},
};

void cell_damage(struct random *random, struct cell *cell) {
    const struct damage *one = &damages[random_below(random, COUNT(damages))];
    const struct damage *two = &damages[random_one_in(random, 5) ? random_below(random, COUNT(damages)) : 0];
    one->make(random, cell);
    two->make(random, cell);
    cell->whole = cell->whole && one->harmless && two->harmless;
    snprintf(cell->damage, sizeof cell->damage, "%s, %s", one->name, two->name);
}
