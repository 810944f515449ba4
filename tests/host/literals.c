/* literals.c - cases whose numbers are written out, over the stored cells, which neither writer of these tests has made. */
#include "bare.h"
#include "both.h"
#include "cells.h"
#include "compare.h"
#include "dted.h"
#include "numbers.h"
#include "stored.h"

#include <stdio.h>
#include <string.h>

#define HEADERS 3428
#define ITEMS 13

static uint8_t cell[40000];
static size_t cell_length;

static void read_stored(const char *name) {
    size_t length = stored_read(name, cell, sizeof cell);
    cell_length = length == SIZE_MAX ? 0 : length;
    expect("the stored cell is there", cell_length >= HEADERS, 1);
}

/* ---- zones ---- */

static const struct zone {
    int first, last; /* near edges */
    uint64_t columns[3];
} zones[] = {
    {0, 49, {121, 1201, 3601}}, {50, 69, {61, 601, 1801}}, {70, 74, {41, 401, 1201}},
    {75, 79, {31, 301, 901}},   {80, 89, {21, 201, 601}},
};

/* Both bounds of a zone, north and south of the equator, at each level. */
static void zone_case(const void *context) {
    static const uint64_t posts[3] = {121, 1201, 3601};
    const struct zone *zone = context;
    const int64_t latitudes[] = {zone->first, zone->last, -zone->first - 1, -zone->last - 1};
    name_case("zone from %d", zone->first);
    for (size_t i = 0; i < COUNT(latitudes); i++)
        for (uint64_t level = 0; level < 3; level++)
            expect("grid", both_grid(level, latitudes[i]).bits, UINT64_C(1) << 48 | level << 32 | zone->columns[level] << 16 | posts[level]);
}

/* ---- the items and their places ---- */

static void names_case(const void *context) {
    static const int names[] = {
        DTED_LEVEL, DTED_LATITUDE, DTED_LONGITUDE, DTED_SECURITY, DTED_EDITION, DTED_MATCH_VERSION, DTED_DATUM, DTED_ACCURACY,
        DTED_ABSOLUTE_HORIZONTAL, DTED_ABSOLUTE_VERTICAL, DTED_RELATIVE_HORIZONTAL, DTED_RELATIVE_VERTICAL, DTED_PARTIAL, DTED_ITEMS,
    };
    (void)context;
    name_case("names of the items");
    expect("names", COUNT(names), 14);
    for (size_t i = 0; i < COUNT(names); i++)
        expect("the name's number", (uint64_t)names[i], i);
    expect("MSL", DTED_MSL, 0);
    expect("E96", DTED_E96, 1);
    expect("not available", (uint64_t)DTED_NOT_AVAILABLE, (uint64_t)-1);
}

/* ---- the refusals, and the sizes ---- */

static void numbers_case(const void *context) {
    static const unsigned numbers[][2] = {
        {DTED_OK, 0}, {DTED_SHORT, 1}, {DTED_CUT, 3}, {DTED_PREAMBLE, 4}, {DTED_CHECKSUM, 5}, {DTED_WORD, 6}, {DTED_SURPLUS, 7},
        {DTED_OFF_GRID, 8}, {DTED_ITEM, 9}, {DTED_GRID_LENGTH, 10}, {DTED_HEIGHT, 11}, {DTED_ROOM, 12}, {DTED_YEAR, 17},
        {DTED_FIELD_IMPOSSIBLE, 21}, {DTED_FIELD_CONTRADICTS, 22}, {DTED_FIELD_OFF_TABLE, 23},
    };
    (void)context;
    name_case("names of the refusals, years, sizes, and what answers hold");
    expect("names", COUNT(numbers), 16);
    for (size_t i = 0; i < COUNT(numbers); i++)
        expect("the name's number", numbers[i][0], numbers[i][1]);
    expect("year 1", DTED_YEAR_1, 1);
    expect("year 2", DTED_YEAR_2, 2);
    expect("header bytes", DTED_HEADER_BYTES, 3428);
    expect("preamble bytes", DTED_PREAMBLE_BYTES, 8);
    expect("the longest column", DTED_LONGEST_COLUMN, 7214);
    expect("the longest cell", DTED_LONGEST_CELL, 25981042);
    expect("tenths to a degree", DTED_DEGREE, 36000);
    expect("void", (uint64_t)DTED_VOID, (uint64_t)-32767);
    expect("a refusal holds nothing", (uint64_t)dted_holds((dted_answer){0x0100000000000000}, 0x100), 0);
    expect("nothing", DTED_HOLDS_NOTHING, 0);
    expect("a grid", DTED_HOLDS_GRID, 1);
    expect("a height", DTED_HOLDS_HEIGHT, 2);
    expect("a position", DTED_HOLDS_POSITION, 3);
}

static const struct stored_items {
    const char *name;
    int64_t items[ITEMS];
    uint64_t columns, posts;
    uint64_t written_in_2; /* in year 2: the first cell has a void at post 0 of its column 40 */
} stored_items[] = {
    {"every_item.dt0", {0, -71, 102, 67, 42, 90, 0, 8, 9, 10, 11, 12, 13}, 41, 121, 0x0B000000000012E8},
    {"every_item_level_1.dt1", {1, 79, -123, 82, 5, 77, 0, 2, 3, 4, 6, 7, 8}, 301, 1201, 0},
};

/* Heights as a writer takes them, from the stored cell's words; zeros where it has headers alone. */
static size_t own_heights(const struct stored_items *stored, uint8_t *grid) {
    for (size_t c = 0; c < stored->columns; c++)
        for (size_t p = 0; p < stored->posts; p++) {
            size_t at = HEADERS + c * (12 + 2 * stored->posts) + 8 + 2 * p;
            unsigned word = at < cell_length ? cell[at] * 256u + cell[at + 1] : 0;
            unsigned twos = word < 0x8000 ? word : 0x10000 - (word - 0x8000);
            *grid++ = (uint8_t)(twos / 256 % 256);
            *grid++ = (uint8_t)(twos % 256);
        }
    return 2 * stored->columns * stored->posts;
}

/* Each item is told at its place, and put from it: the cell of these items and its own heights is the stored one. */
static void items_case(const void *context) {
    static uint8_t grid[2 * 301 * 1201];
    const struct stored_items *stored = context;
    int64_t items[ITEMS] = {0};
    name_case("items of %s", stored->name);
    read_stored(stored->name);
    both_lend(cell, cell_length);
    expect("describe", both_describe(items).bits, 0);
    for (size_t i = 0; i < ITEMS; i++)
        expect("item", (uint64_t)items[i], (uint64_t)stored->items[i]);
    size_t bytes = own_heights(stored, grid), length = HEADERS + stored->columns * (12 + 2 * stored->posts);
    expect("the stored cell's length", cell_length == length || cell_length == HEADERS, 1);
    both_year(2);
    expect("write in year 2", both_write(length, false, stored->items, grid, bytes).bits, stored->written_in_2);
    both_year(1);
    expect("write", both_write(length, false, stored->items, grid, bytes).bits, 0);
    expect("the stored bytes", (uint64_t)memcmp(both_out(), cell, cell_length), 0);
}

/* Just outside its range, and at its ends. */
static const struct range {
    int64_t outside[6], ends[6];
    size_t outsides, end_count;
} ranges[ITEMS] = {
    {{-1, 3}, {0, 2}, 2, 2},
    {{-91, 90}, {-90, 89}, 2, 2},
    {{-181, 180}, {-180, 179}, 2, 2},
    {{'B', 'D', 'Q', 'T', 'V', 'c'}, {'S', 'C', 'U', 'R'}, 6, 4},
    {{0, 100}, {1, 99}, 2, 2},
    {{'@', '['}, {'A', 'Z'}, 2, 2},
    {{-1, 2}, {0, 1}, 2, 2},
    {{-2, 10000}, {-1, 9999}, 2, 2},
    {{-2, 10000}, {-1, 9999}, 2, 2},
    {{-2, 10000}, {-1, 9999}, 2, 2},
    {{-2, 10000}, {-1, 9999}, 2, 2},
    {{-2, 10000}, {-1, 9999}, 2, 2},
    {{-1, 100}, {0, 99}, 2, 2},
};

/* An item outside is refused with its number, and nothing is written; in range, the missing grid is what is refused. */
static void range_case(const void *context) {
    size_t item = *(const size_t *)context;
    const struct range *range = &ranges[item];
    int64_t items[ITEMS];
    name_case("range of item %zu", item + 1);
    memcpy(items, stored_items[0].items, sizeof items);
    for (size_t i = 0; i < range->outsides; i++) {
        items[item] = range->outside[i];
        expect("outside", both_write(100, false, items, NULL, 0).bits, refusal(9, item + 1));
    }
    for (size_t i = 0; i < range->end_count; i++) {
        items[item] = range->ends[i];
        expect("at an end", dted_number(both_write(100, false, items, NULL, 0)), 10);
    }
}

/* ---- single fields ---- */

/* A text in a field of a stored cell: the number and the place that are told, or 0 where it is good there. Worked out by hand: 21
 * if no accepted header has the text in that field, else 23 for an interval or a count and 22 for another field; the place is the
 * first byte that is not as due, or the field's first byte where several texts are good there. */
static const struct field_text {
    const char *name;
    size_t at;
    const char *text;
    uint64_t number, place;
} field_texts[] = {
    /* fixed texts: 21 alone, at the first byte that differs */
    {"terrain.dt0", 0, "UHL2", 21, 3}, {"terrain.dt0", 0, "UHl1", 21, 2}, {"terrain.dt0", 0, "VOL1", 21, 0},
    {"terrain.dt0", 0, "HDR1", 21, 0}, {"terrain.dt0", 55, "1", 21, 55}, {"terrain.dt0", 80, "DS1", 21, 82},
    {"terrain.dt0", 80, "dSI", 21, 80}, {"terrain.dt0", 206, "PRF89020A", 21, 214}, {"terrain.dt0", 206, "PRF89O20B", 21, 211},
    {"terrain.dt0", 206, "         ", 21, 206}, {"terrain.dt0", 224, "WGS72", 21, 227}, {"terrain.dt0", 224, "wGS84", 21, 224},
    {"terrain.dt0", 344, "0000001.0", 21, 350}, {"terrain.dt0", 344, "0000000.1", 21, 352},
    {"terrain.dt0", 344, "0000000,0", 21, 351}, {"terrain.dt0", 728, "ACX", 21, 730}, {"terrain.dt0", 728, "\0CC", 21, 728},
    {"terrain.dt0", 783, "02", 21, 784}, {"terrain.dt0", 783, "10", 21, 783},
    /* origins: any good one would have passed, so the place is the field's first byte; one that is good is missed further on */
    {"terrain.dt0", 4, "0070001E", 21, 4}, {"terrain.dt0", 4, "0070000e", 21, 4}, {"terrain.dt0", 4, "1810000W", 21, 4},
    {"corners_at_0.dt0", 4, "0000000W", 21, 4}, {"north_75.dt0", 4, "1800000E", 21, 4}, {"terrain.dt0", 4, "0070000W", 22, 283},
    {"terrain.dt0", 4, "0170000E", 22, 275}, {"terrain.dt0", 12, "0900000N", 21, 12}, {"terrain.dt0", 12, "0460100N", 21, 12},
    {"corners_at_0.dt0", 12, "0000000S", 21, 12}, {"terrain.dt0", 12, "0450000N", 22, 266},
    {"terrain.dt0", 12, "0460000S", 22, 273}, {"terrain.dt0", 12, "0500000N", 23, 21},
    /* the level: never 23; another level's is missed further on */
    {"terrain.dt0", 24, "0301", 21, 24}, {"terrain.dt0", 24, "0600", 21, 24}, {"terrain.dt0", 24, "0 30", 21, 24},
    {"terrain.dt0", 24, "0030", 23, 21}, {"terrain.dt0", 24, "0010", 23, 21},
    /* longitude interval: 0300 is due, then 1800, then 0120 of level 1 */
    {"terrain.dt0", 20, "0301", 21, 23}, {"terrain.dt0", 20, "0000", 21, 21}, {"terrain.dt0", 20, " 300", 21, 20},
    {"terrain.dt0", 20, "0600", 23, 21}, {"terrain.dt0", 20, "1800", 23, 20}, {"terrain.dt0", 20, "0030", 23, 21},
    {"north_89.dt0", 20, "1200", 23, 21}, {"north_89.dt0", 20, "1000", 21, 21}, {"north_89.dt0", 20, "1801", 21, 23},
    {"every_item_level_1.dt1", 20, "0180", 23, 22}, {"every_item_level_1.dt1", 20, "0121", 21, 23},
    {"every_item_level_1.dt1", 20, "0020", 23, 21}, {"every_item_level_1.dt1", 20, "0200", 21, 21},
    /* accuracies */
    {"every_item.dt0", 28, "NA  ", 0, 0}, {"every_item.dt0", 28, "9999", 0, 0}, {"every_item.dt0", 28, "NA 0", 21, 28},
    {"every_item.dt0", 28, "00 8", 21, 28}, {"every_item.dt0", 731, "NA  ", 0, 0}, {"every_item.dt0", 735, "9999", 0, 0},
    {"every_item.dt0", 739, "0000", 0, 0}, {"every_item.dt0", 743, " NA ", 21, 743}, {"every_item.dt0", 731, "NA\0 ", 21, 731},
    {"every_item.dt0", 731, "000/", 21, 731}, {"every_item.dt0", 735, "001:", 21, 735}, {"every_item.dt0", 739, "NA 1", 21, 739},
    /* security: four letters in the UHL, that one in the DSI */
    {"every_item.dt0", 32, "C U", 21, 32}, {"every_item.dt0", 32, "CC ", 21, 32}, {"every_item.dt0", 32, "T  ", 21, 32},
    {"every_item.dt0", 32, "U  ", 22, 83}, {"every_item.dt0", 83, "U", 22, 83}, {"every_item.dt0", 83, "S", 22, 83},
    {"every_item.dt0", 83, "R", 22, 83}, {"every_item.dt0", 83, "T", 21, 83}, {"every_item.dt0", 83, "c", 21, 83},
    {"every_item.dt0", 83, " ", 21, 83},
    /* columns: of the UHL, and of the DSI */
    {"terrain.dt0", 47, "0061", 23, 48}, {"terrain.dt0", 47, "1201", 23, 47}, {"terrain.dt0", 47, "3601", 23, 47},
    {"terrain.dt0", 47, "0021", 23, 48}, {"terrain.dt0", 47, "0120", 21, 50}, {"terrain.dt0", 47, "0122", 21, 50},
    {"terrain.dt0", 47, "121 ", 21, 47}, {"every_item.dt0", 47, "0401", 23, 48}, {"every_item.dt0", 47, "0042", 21, 50},
    {"every_item.dt0", 365, "0061", 23, 367}, {"every_item.dt0", 365, "0901", 23, 366}, {"every_item.dt0", 365, "0141", 21, 366},
    {"every_item_level_1.dt1", 365, "0201", 23, 366}, {"every_item_level_1.dt1", 365, "0300", 21, 368},
    /* posts: no level has so many as zone II has columns */
    {"terrain.dt0", 51, "0061", 21, 52}, {"terrain.dt0", 51, "0601", 21, 52}, {"terrain.dt0", 51, "1201", 23, 51},
    {"terrain.dt0", 51, "3601", 23, 51}, {"every_item_level_1.dt1", 51, "0121", 23, 51},
    {"every_item_level_1.dt1", 51, "1801", 21, 52}, {"terrain.dt0", 361, "0061", 21, 362}, {"terrain.dt0", 361, "1201", 23, 361},
    {"terrain.dt0", 361, "0 21", 21, 362}, {"every_item_level_1.dt1", 361, "3601", 23, 361},
    {"every_item_level_1.dt1", 361, "1202", 21, 364},
    /* intervals of the DSI */
    {"terrain.dt0", 353, "0030", 23, 354}, {"terrain.dt0", 353, "0010", 23, 354}, {"terrain.dt0", 353, "0600", 21, 354},
    {"terrain.dt0", 353, "030O", 21, 356}, {"every_item_level_1.dt1", 353, "0300", 23, 354},
    {"every_item_level_1.dt1", 353, "0010", 23, 355}, {"every_item_level_1.dt1", 353, "0060", 21, 355},
    {"terrain.dt0", 357, "0600", 23, 358}, {"terrain.dt0", 357, "0301", 21, 360}, {"every_item.dt0", 357, "0600", 23, 358},
    {"every_item.dt0", 357, "0090", 23, 358}, {"every_item.dt0", 357, "0400", 21, 358},
    /* the series: its digit is neither an interval nor a count */
    {"terrain.dt0", 139, "DTED1", 22, 143}, {"terrain.dt0", 139, "DTED2", 22, 143}, {"terrain.dt0", 139, "DTED3", 21, 143},
    {"terrain.dt0", 139, "DTED ", 21, 143}, {"terrain.dt0", 139, "DTEd0", 21, 142}, {"terrain.dt0", 139, "dted1", 21, 139},
    {"every_item_level_1.dt1", 139, "DTED0", 22, 143},
    /* editions and versions */
    {"every_item.dt0", 167, "00", 21, 167}, {"every_item.dt0", 167, "01", 0, 0}, {"every_item.dt0", 167, "99", 0, 0},
    {"every_item.dt0", 167, "9 ", 21, 167}, {"every_item.dt0", 169, "A", 0, 0}, {"every_item.dt0", 169, "Z", 0, 0},
    {"every_item.dt0", 169, "@", 21, 169}, {"every_item.dt0", 169, "[", 21, 169}, {"every_item.dt0", 169, "z", 21, 169},
    /* datum, partial indicator */
    {"every_item.dt0", 221, "E96", 0, 0}, {"every_item.dt0", 221, "E84", 21, 221}, {"every_item.dt0", 221, "MSl", 21, 221},
    {"every_item.dt0", 369, "99", 0, 0}, {"every_item.dt0", 369, "1 ", 21, 369}, {"every_item.dt0", 369, "1A", 21, 369},
    /* the DSI's origin has one name: 000W, 00S, 180E and 90N are nobody's */
    {"corners_at_0.dt0", 265, "000000.0S", 21, 273}, {"terrain.dt0", 265, "470000.0N", 22, 266},
    {"terrain.dt0", 265, "460000.0S", 22, 273}, {"terrain.dt0", 265, "900000.0N", 21, 265},
    {"terrain.dt0", 265, "900000.0S", 22, 265}, {"terrain.dt0", 265, "460000.1N", 21, 272},
    {"terrain.dt0", 265, "460001.0N", 21, 270}, {"terrain.dt0", 265, "46000000N", 21, 271},
    {"corners_at_0.dt0", 274, "0000000.0W", 21, 283}, {"terrain.dt0", 274, "0000000.0W", 21, 276},
    {"terrain.dt0", 274, "0000000.0E", 22, 276}, {"north_75.dt0", 274, "1800000.0E", 21, 283},
    {"terrain.dt0", 274, "1800000.0E", 21, 274}, {"terrain.dt0", 274, "1800000.0W", 22, 274},
    {"terrain.dt0", 274, "0070000.0W", 22, 283}, {"terrain.dt0", 274, "0070100.0E", 21, 278},
    /* corners away from 0 and 180: one text each, at the first byte that differs */
    {"terrain.dt0", 284, "450000N", 22, 285}, {"terrain.dt0", 284, "460000S", 22, 290}, {"terrain.dt0", 284, "460000E", 21, 290},
    {"terrain.dt0", 284, "900000N", 21, 284}, {"terrain.dt0", 284, "900000S", 22, 284}, {"terrain.dt0", 284, "000000S", 22, 284},
    {"terrain.dt0", 291, "0080000E", 22, 293}, {"terrain.dt0", 291, "0070000W", 22, 298},
    {"terrain.dt0", 291, "0070030E", 21, 296}, {"terrain.dt0", 291, "1800000E", 22, 291},
    {"terrain.dt0", 291, "1800000W", 22, 291}, {"terrain.dt0", 291, "1810000W", 21, 291},
    {"terrain.dt0", 299, "900000N", 22, 299}, {"terrain.dt0", 299, "900000S", 21, 299}, {"terrain.dt0", 299, "460000N", 22, 300},
    {"terrain.dt0", 299, "475959N", 21, 301}, {"terrain.dt0", 306, "0080000E", 22, 308},
    {"terrain.dt0", 306, "007000 E", 21, 312}, {"terrain.dt0", 314, "480000N", 22, 315}, {"terrain.dt0", 314, "900000N", 22, 314},
    {"terrain.dt0", 314, "47000ON", 21, 319}, {"terrain.dt0", 321, "0070000E", 22, 323},
    {"terrain.dt0", 321, "0080000N", 21, 328}, {"terrain.dt0", 329, "470000N", 22, 330}, {"terrain.dt0", 329, "900000N", 21, 329},
    {"terrain.dt0", 329, "460000n", 21, 335}, {"terrain.dt0", 336, "0090000E", 22, 338},
    {"terrain.dt0", 336, "0080000e", 21, 343}, {"terrain.dt0", 336, "0000000W", 22, 338},
    {"terrain.dt0", 336, "2080000E", 21, 336},
    /* a corner at 0 or 180 has two names, one by one: the place is the part's first byte, whatever differs */
    {"corners_at_0.dt0", 284, "000000N", 0, 0}, {"corners_at_0.dt0", 291, "0000000E", 0, 0},
    {"corners_at_0.dt0", 306, "0000000E", 0, 0}, {"corners_at_0.dt0", 329, "000000N", 0, 0},
    {"corners_at_0.dt0", 284, "000000E", 21, 284}, {"corners_at_0.dt0", 284, "000001N", 21, 284},
    {"corners_at_0.dt0", 284, "010000N", 22, 284}, {"corners_at_0.dt0", 291, "0000000N", 21, 291},
    {"corners_at_0.dt0", 291, "0010000W", 22, 291}, {"corners_at_0.dt0", 306, "0000000 ", 21, 306},
    {"corners_at_0.dt0", 306, "0010000E", 22, 306}, {"corners_at_0.dt0", 329, "010000S", 22, 329},
    {"corners_at_0.dt0", 329, "00000?N", 21, 329}, {"north_75.dt0", 291, "1800000W", 0, 0},
    {"north_75.dt0", 306, "1800000W", 0, 0}, {"north_75.dt0", 291, "1790000E", 22, 291},
    {"north_75.dt0", 291, "1800000N", 21, 291}, {"north_75.dt0", 306, "1790000W", 22, 306},
    {"north_75.dt0", 306, "1800001W", 21, 306}, {"north_74.dt0", 321, "1800000E", 0, 0}, {"north_74.dt0", 336, "1800000E", 0, 0},
    {"north_74.dt0", 336, "1790000W", 22, 336}, {"north_74.dt0", 321, "1790000E", 22, 321},
    {"north_74.dt0", 321, "1800000S", 21, 321}, {"south_80.dt0", 321, "0000000E", 0, 0}, {"south_80.dt0", 336, "0000000E", 0, 0},
    {"south_80.dt0", 336, "0010000E", 22, 336}, {"south_80.dt0", 321, "0000000S", 21, 321},
    /* and the corners next to those one name */
    {"corners_at_0.dt0", 299, "010000S", 22, 305}, {"corners_at_0.dt0", 299, "020000N", 22, 300},
    {"corners_at_0.dt0", 314, "000000N", 22, 315}, {"corners_at_0.dt0", 321, "0010000W", 22, 328},
    {"corners_at_0.dt0", 336, "0000000E", 22, 338}, {"north_75.dt0", 321, "1790000E", 22, 328},
    {"north_75.dt0", 336, "1800000W", 22, 337}, {"north_74.dt0", 291, "1790000W", 22, 298},
    {"north_74.dt0", 306, "1800000E", 22, 307}, {"south_80.dt0", 291, "0010000E", 22, 298},
    {"south_80.dt0", 306, "0000000W", 22, 308},
    /* latitude 90 has one name */
    {"north_89.dt0", 299, "900000N", 0, 0}, {"north_89.dt0", 299, "900000S", 21, 305}, {"north_89.dt0", 314, "900000S", 21, 320},
    {"north_89.dt0", 299, "890000N", 22, 299}, {"north_89.dt0", 284, "900000N", 21, 284},
    {"north_89.dt0", 329, "900000N", 21, 329},
};

static void field_text_case(const void *context) {
    const struct field_text *field = context;
    int64_t items[ITEMS];
    name_case("%s with '%s' at %zu", field->name, field->text, field->at);
    read_stored(field->name);
    both_lend(cell, cell_length);
    dted_answer whole = both_intake();
    expect("as stored, the headers are good", both_describe(items).bits, 0);
    memcpy(cell + field->at, field->text, cell_fields[cell_field_at(field->at)].width);
    both_lend(cell, cell_length);
    expect("describe", both_describe(items).bits, field->number ? refusal(field->number, field->place) : 0);
    expect("intake", both_intake().bits, field->number ? refusal(field->number, field->place) : whole.bits);
    if (field->number == 0)
        return;
    expect("post", both_post(UINT64_MAX, 0).bits, refusal(field->number, field->place));
    expect("position", both_position(INT64_MAX, 0).bits, refusal(field->number, field->place));
    expect("edit", both_edit(UINT64_MAX, 0, 9001).bits, refusal(field->number, field->place));
}

/* Every field is among the texts above, with every number that it can give. */
static void all_fields_case(const void *context) {
    bool told[CELL_FIELDS][24] = {{false}};
    (void)context;
    for (size_t i = 0; i < COUNT(field_texts); i++)
        told[cell_field_at(field_texts[i].number ? field_texts[i].place : field_texts[i].at)][field_texts[i].number] = true;
    for (size_t f = 0; f < CELL_FIELDS; f++) {
        name_case("literal texts of the field at %zu", cell_fields[f].offset);
        expect("21", told[f][21], 1);
        expect("22", told[f][22], cell_fields[f].besides == 22);
        expect("23", told[f][23], cell_fields[f].besides == 23);
    }
}

/* ---- the word 8000 ---- */

#define SEA "negative_zero.dt0"
#define SEA_LENGTH 8762
#define POSTS (21 * 121)

/* Column 2 of that cell begins at 3,936 and has its checksum at 4,186. Post 60, at 4,064, is 0000; post 61, at 4,066, is 8000. */
static void read_sea(void) {
    read_stored(SEA);
    expect("its length", cell_length, SEA_LENGTH);
    expect("post 60", (uint64_t)memcmp(cell + 4064, "\x00\x00", 2), 0);
    expect("post 61", (uint64_t)memcmp(cell + 4066, "\x80\x00", 2), 0);
    expect("the checksum", (uint64_t)memcmp(cell + 4186, "\x00\x00\x36\x4D", 4), 0);
    both_lend(cell, cell_length);
}

static void sea_answers(const char *what) {
    expect(what, both_intake().bits, 0x0001000000150079);
    expect(what, both_post(2, 60).bits, 0x0002000000000000);
    expect(what, both_post(2, 61).bits, 0x0002000000000000);
    expect(what, both_position(3222000, 3600).bits, 0x00030002003C0000);
    expect(what, both_position(3222300, 3600).bits, 0x00030002003D0000);
}

/* Both words of height 0 are answered alike, also where they have changed places: the sum stays. */
static void sea_read_case(const void *context) {
    (void)context;
    name_case("height 0 by 0000 and by 8000");
    read_sea();
    sea_answers("as stored");
    memcpy(cell + 4064, "\x80\x00\x00\x00", 4);
    both_lend(cell, cell_length);
    sea_answers("changed places");
}

/* The stored cell as a writer has it, with 0000 for each word 8000; and in how many posts that is. */
static size_t written_sea(uint8_t *to) {
    size_t found = 0;
    memcpy(to, cell, SEA_LENGTH);
    for (size_t i = 0; i < POSTS; i++) {
        uint8_t *column = to + HEADERS + i / 121 * 254, *word = column + 8 + 2 * (i % 121);
        if (word[0] != 0x80 || word[1] != 0x00)
            continue;
        word[0] = 0x00;
        column[252] = (uint8_t)(column[252] - (column[253] < 128));
        column[253] = (uint8_t)(column[253] - 128);
        found++;
    }
    return found;
}

/* Each post is answered as in that cell, which the writer makes of the answered heights. */
static void sea_posts_case(const void *context) {
    static const int64_t items[ITEMS] = {0, 89, 0, 'U', 1, 'A', 1, -1, -1, -1, -1, -1, 0};
    static uint8_t written[SEA_LENGTH], grid[2 * POSTS];
    static uint64_t answers[POSTS];
    (void)context;
    name_case("every post of %s", SEA);
    read_sea();
    expect("words 8000", written_sea(written), 776);
    for (size_t i = 0; i < POSTS; i++) {
        dted_answer answer = both_post(i / 121, i % 121);
        answers[i] = answer.bits;
        dted_put_height(grid + 2 * i, dted_height(answer));
    }
    both_lend(written, SEA_LENGTH);
    expect("intake of the other cell", both_intake().bits, 0x0001000000150079);
    for (size_t i = 0; i < POSTS; i++)
        expect("a post of the other cell", both_post(i / 121, i % 121).bits, answers[i]);
    expect("write", both_write(SEA_LENGTH, false, items, grid, sizeof grid).bits, 0);
    expect("the other cell's bytes", (uint64_t)memcmp(both_out(), written, SEA_LENGTH), 0);
}

/* An edit in column 2: the word that then stands there, and the checksum, which was 0000364D. */
static const struct sea_edit {
    uint64_t post;
    int64_t height;
    const char *word, *sum;
} sea_edits[] = {
    {5, -1, "\x80\x01", "\x00\x00\x36\x8E"},     {60, 7, "\x00\x07", "\x00\x00\x36\x54"},
    {60, 0, "\x00\x00", "\x00\x00\x36\x4D"},     {61, 0, "\x00\x00", "\x00\x00\x35\xCD"},
    {61, -1, "\x80\x01", "\x00\x00\x36\x4E"},    {61, 9000, "\x23\x28", "\x00\x00\x36\x18"},
    {61, -12000, "\xAE\xE0", "\x00\x00\x37\x5B"},
};

/* No byte but the word's and the checksum's changes, so that the other words 8000 stay. */
static void sea_edit_case(const void *context) {
    const struct sea_edit *edit = context;
    name_case("post %d edited to %d beside words 8000", (int)edit->post, (int)edit->height);
    read_sea();
    expect("edit", both_edit(2, edit->post, edit->height).bits, 0);
    memcpy(cell + 3944 + 2 * edit->post, edit->word, 2);
    memcpy(cell + 4186, edit->sum, 4);
    expect("its bytes", (uint64_t)memcmp(both_cell(), cell, SEA_LENGTH), 0);
    expect("its height", (uint64_t)dted_height(both_post(2, edit->post)), (uint64_t)edit->height);
    expect("intake", both_intake().bits, 0x0001000000150079);
}

/* What a complete cell may not hold it may not hold there either. */
static void sea_refused_case(const void *context) {
    static const int64_t heights[] = {DTED_VOID, -32768, 32768, 9001, -12001};
    (void)context;
    name_case("refused edits of a post with 8000");
    read_sea();
    for (size_t i = 0; i < COUNT(heights); i++) {
        expect("edit", both_edit(2, 61, heights[i]).bits, refusal(11, 0));
        expect("its bytes", (uint64_t)memcmp(both_cell(), cell, SEA_LENGTH), 0);
    }
}

/* In a grid the bytes 80 00 are -32768, which is no height, of a complete cell or of a partial one. */
static void sea_grid_case(const void *context) {
    static uint8_t grid[2 * POSTS];
    int64_t items[ITEMS] = {0, 89, 0, 'U', 1, 'A', 1, -1, -1, -1, -1, -1, 0};
    (void)context;
    name_case("80 00 in a grid");
    memset(grid, 0, sizeof grid);
    grid[2 * 303] = 0x80;
    for (int64_t partial = 0; partial <= 1; partial++) {
        items[DTED_PARTIAL] = partial;
        expect("write", both_write(SEA_LENGTH, false, items, grid, sizeof grid).bits, refusal(11, 303));
    }
    expect("column", both_write_column(254, false, 0, 2, grid + 2 * 242, 242).bits, refusal(11, 61));
}

/* A column of the lent cell, written from its posts. */
static void rewrite_column(uint64_t column) {
    uint8_t posts[242];
    for (size_t p = 0; p < 121; p++)
        dted_put_height(posts + 2 * p, dted_height(both_post(column, p)));
    expect("write", both_write_column(254, false, 0, column, posts, sizeof posts).bits, 0);
}

/* A column with 8000 does not come back: 0000 is written. One without it does, byte for byte. */
static void sea_column_case(const void *context) {
    static uint8_t written[SEA_LENGTH];
    (void)context;
    name_case("columns with and without 8000, written from their posts");
    read_sea();
    written_sea(written);
    rewrite_column(2);
    expect("with 0000", (uint64_t)memcmp(both_out(), written + 3936, 254), 0);
    expect("its checksum", (uint64_t)memcmp(both_out() + 250, "\x00\x00\x10\x4D", 4), 0);
    expect("not the column's bytes", memcmp(both_out(), cell + 3936, 254) != 0, 1);
    rewrite_column(15);
    expect("the bytes of a column on land", (uint64_t)memcmp(both_out(), cell + 7238, 254), 0);
    read_stored("north_89.dt0");
    both_lend(cell, cell_length);
    rewrite_column(2);
    expect("the bytes of a column below 0", (uint64_t)memcmp(both_out(), cell + 3936, 254), 0);
}

/* One replaced byte of a column with both words of height 0 is refused, with a place in that column. */
static void sea_byte_case(const void *context) {
    static const uint8_t values[] = {0x00, 0x80, 0x01, 0x7F, 0x81, 0xFF};
    (void)context;
    name_case("every byte of a column with 8000");
    read_sea();
    for (size_t i = 0; i < 254 * COUNT(values); i++) {
        uint8_t *byte = cell + 3936 + i / COUNT(values), kept = *byte;
        *byte = values[i % COUNT(values)];
        both_lend(cell, cell_length);
        dted_answer answer = both_intake();
        expect("refused, or as it was", dted_number(answer) != 0, *byte != kept);
        if (*byte != kept)
            expect("in its column", 3936 <= dted_place(answer) && dted_place(answer) < 4190, 1);
        *byte = kept;
    }
}

static void run_sea_cases(void) {
    run_case(sea_read_case, NULL);
    run_case(sea_posts_case, NULL);
    for (size_t i = 0; i < COUNT(sea_edits); i++)
        run_case(sea_edit_case, &sea_edits[i]);
    run_case(sea_refused_case, NULL);
    run_case(sea_grid_case, NULL);
    run_case(sea_column_case, NULL);
    run_case(sea_byte_case, NULL);
}

/* ---- every call, as the header and as the archive declares it ---- */

static void twice(const char *what, dted_answer by_header, uint64_t bare, uint64_t due) {
    expect(what, by_header.bits, due);
    expect(what, bare, due);
}

static void reading_calls_case(const void *context) {
    int64_t items[ITEMS];
    size_t all;
    (void)context;
    name_case("answers as numbers, of a cell");
    read_stored("terrain.dt0");
    all = cell_length;
    twice("intake", dted_intake(2, cell, all), bare_intake(2, cell, all), 0x0001000000790079);
    twice("intake, refused", dted_intake(2, cell, 17), bare_intake(2, cell, 17), refusal(1, 17));
    twice("intake, its year", dted_intake(3, cell, all), bare_intake(3, cell, all), refusal(17, 3));
    twice("describe", dted_describe(cell, all, items), bare_describe(cell, all, items), 0);
    twice("describe, refused", dted_describe(cell, 17, items), bare_describe(cell, 17, items), refusal(1, 17));
    twice("post", dted_post(2, cell, all, 60, 60), bare_post(2, cell, all, 60, 60), 0x00020000000001E6);
    twice("post, refused", dted_post(2, cell, all, 121, 0), bare_post(2, cell, all, 121, 0), refusal(8, 0));
    twice("post, its year", dted_post(0, cell, all, 60, 60), bare_post(0, cell, all, 60, 60), refusal(17, 0));
    twice("position", dted_position(2, cell, all, 1674000, 270000), bare_position(2, cell, all, 1674000, 270000),
          0x0003003C003C01E6);
    twice("position, refused", dted_position(2, cell, all, 0, 0), bare_position(2, cell, all, 0, 0), refusal(8, 0));
    twice("position, its year", dted_position(9, cell, all, 0, 0), bare_position(9, cell, all, 0, 0), refusal(17, 9));
    twice("edit", dted_edit(2, cell, all, 60, 60, -1), bare_edit(2, cell, all, 60, 60, -1), 0);
    twice("edited", dted_post(2, cell, all, 60, 60), bare_post(2, cell, all, 60, 60), 0x000200000000FFFF);
    twice("edit, refused", dted_edit(2, cell, all, 60, 60, 9001), bare_edit(2, cell, all, 60, 60, 9001), refusal(11, 0));
    twice("edit, its year", dted_edit(4, cell, all, 60, 60, 1), bare_edit(4, cell, all, 60, 60, 1), refusal(17, 4));
}

static void writing_calls_case(const void *context) {
    static const uint8_t grid[2 * 21 * 121];
    static const int64_t items[ITEMS] = {0, 89, 7, 'U', 1, 'A', 1, -1, -1, -1, -1, -1, 0};
    static uint8_t out[8762];
    size_t bytes = sizeof grid, room = sizeof out;
    (void)context;
    name_case("answers as numbers, of the writers");
    twice("grid", dted_grid(2, 0), bare_grid(2, 0), 0x000100020E110E11);
    twice("grid, refused", dted_grid(3, 0), bare_grid(3, 0), refusal(9, 1));
    twice("write", dted_write(2, out, room, items, grid, bytes), bare_write(2, out, room, items, grid, bytes), 0);
    twice("write, refused", dted_write(2, out, 17, items, grid, bytes), bare_write(2, out, 17, items, grid, bytes), refusal(12, 8762));
    twice("write, its year", dted_write(5, out, 17, items, grid, bytes), bare_write(5, out, 17, items, grid, bytes), refusal(17, 5));
    twice("column", dted_write_column(out, room, 0, 0, grid, 242), bare_write_column(out, room, 0, 0, grid, 242), 0);
    twice("column, refused", dted_write_column(out, room, 0, 0, grid, 3), bare_write_column(out, room, 0, 0, grid, 3),
          refusal(10, 121));
}

/* ---- the version ---- */

/* The file's version is given when this is compiled. */
static void version_case(const void *context) {
    char parts[32];
    (void)context;
    name_case("the version");
    snprintf(parts, sizeof parts, "%d.%d.%d", DTED_VERSION_MAJOR, DTED_VERSION_MINOR, DTED_VERSION_PATCH);
    expect("the version as the file has it", (uint64_t)strcmp(DTED_VERSION, VERSION), 0);
    expect("its parts", (uint64_t)strcmp(parts, VERSION), 0);
}

void run_literal_cases(void) {
    run_case(reading_calls_case, NULL);
    run_case(writing_calls_case, NULL);
    run_case(version_case, NULL);
    run_case(numbers_case, NULL);
    for (unsigned side = 0; side < sides; side++) {
        both_side(side == 0 ? AT_START : AT_END);
        run_case(names_case, NULL);
        for (size_t i = 0; i < COUNT(zones); i++)
            run_case(zone_case, &zones[i]);
        for (size_t i = 0; i < COUNT(stored_items); i++)
            run_case(items_case, &stored_items[i]);
        for (size_t item = 0; item < ITEMS; item++)
            run_case(range_case, &item);
        for (size_t i = 0; i < COUNT(field_texts); i++)
            run_case(field_text_case, &field_texts[i]);
        run_case(all_fields_case, NULL);
        for (case_year = 1; case_year <= 2; case_year++)
            run_sea_cases();
        case_year = DTED_YEAR_2;
    }
}
