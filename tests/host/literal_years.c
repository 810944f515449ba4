/* literal_years.c - cases of the rule years, whose numbers are written out. */
#include "bare.h"
#include "both.h"
#include "compare.h"
#include "dted.h"
#include "numbers.h"
#include "stored.h"

#include <stdbool.h>
#include <string.h>

#define ITEMS 13
#define HEADERS 3428
/* of the stored cells here: level 0 at 89 N */
#define COMPLETE "north_89.dt0"
#define LENGTH 8762
#define POSTS (21 * 121)

/* ---- unknown years ---- */

/* Each is refused as it is named, whatever part of it would pass. */
static const struct unknown_year {
    uint32_t year;
    uint64_t bits;
} unknown_years[] = {
    {0, 0x1100000000000000},          {3, 0x1100000000000003},          {17, 0x1100000000000011},
    {255, 0x11000000000000FF},        {256, 0x1100000000000100},        {257, 0x1100000000000101},
    {258, 0x1100000000000102},        {65536, 0x1100000000010000},      {65537, 0x1100000000010001},
    {65538, 0x1100000000010002},      {16777217, 0x1100000001000001},   {2147483647, 0x110000007FFFFFFF},
    {2147483649, 0x1100000080000001}, {4294967294, 0x11000000FFFFFFFE}, {4294967295, 0x11000000FFFFFFFF},
};

/* The calls on the lent cell, with numbers that are right for it and then with numbers that are not. */
static void expect_unknown(uint64_t bits) {
    expect("intake", both_intake().bits, bits);
    expect("post", both_post(0, 0).bits, bits);
    expect("post off the grid", both_post(UINT64_MAX, UINT64_MAX).bits, bits);
    expect("position", both_position(3204000, 0).bits, bits);
    expect("position off the grid", both_position(INT64_MIN, INT64_MAX).bits, bits);
    expect("edit", both_edit(0, 0, 5).bits, bits);
    expect("edit to no height", both_edit(UINT64_MAX, 0, INT64_MIN).bits, bits);
}

/* Before 1, before a broken field and before all that a good cell gives; an edit of it changes nothing. */
static void unknown_year_case(const void *context) {
    static uint8_t cell[LENGTH];
    const struct unknown_year *unknown = context;
    name_case("year %u, of cells", (unsigned)unknown->year);
    both_year(unknown->year);
    both_lend(NULL, 0);
    expect_unknown(unknown->bits);
    expect("its length", stored_read(COMPLETE, cell, LENGTH), LENGTH);
    both_lend(cell, 17);
    expect_unknown(unknown->bits);
    both_lend(cell, LENGTH);
    expect_unknown(unknown->bits);
    expect("the cell's bytes", (uint64_t)memcmp(both_cell(), cell, LENGTH), 0);
    cell[0] = '?';
    both_lend(cell, LENGTH);
    expect_unknown(unknown->bits);
}

/* Before 9, 10, 11 and 12, and before all is written. */
static void unknown_year_write_case(const void *context) {
    static const int64_t good[ITEMS] = {0, 89, 0, 'U', 1, 'A', 1, -1, -1, -1, -1, -1, 42};
    static const int64_t bad[ITEMS] = {9, 99, 999, 0, 0, 0, 9, -9, -9, -9, -9, -9, -9};
    static uint8_t grid[2 * POSTS];
    const struct unknown_year *unknown = context;
    name_case("year %u, of the writer", (unsigned)unknown->year);
    memset(grid, 0, sizeof grid);
    both_year(unknown->year);
    expect("good", both_write(LENGTH, false, good, grid, sizeof grid).bits, unknown->bits);
    expect("9", both_write(LENGTH, false, bad, grid, sizeof grid).bits, unknown->bits);
    expect("10", both_write(LENGTH, false, good, grid, 3).bits, unknown->bits);
    expect("12", both_write(0, true, good, grid, sizeof grid).bits, unknown->bits);
    expect("nothing at all", both_write(0, true, bad, NULL, 0).bits, unknown->bits);
    grid[0] = 0x80;
    expect("11", both_write(LENGTH, false, good, grid, sizeof grid).bits, unknown->bits);
}

/* In years 1 and 2 what comes next in the order is told. */
static void known_year_case(const void *context) {
    static const int64_t bad[ITEMS] = {9, 99, 999, 0, 0, 0, 9, -9, -9, -9, -9, -9, -9};
    (void)context;
    name_case("year %u, of nothing", (unsigned)case_year);
    both_lend(NULL, 0);
    expect("intake", both_intake().bits, 0x0100000000000000);
    expect("post", both_post(0, 0).bits, 0x0100000000000000);
    expect("position", both_position(0, 0).bits, 0x0100000000000000);
    expect("edit", both_edit(0, 0, 0).bits, 0x0100000000000000);
    expect("write", both_write(0, true, bad, NULL, 0).bits, 0x0900000000000001);
}

/* ---- voids at level 0 ---- */

/* Two stored cells of level 0 with the partial indicator 42 differ in their last post, at 8,756, and its checksum: void, or 229. */
#define WITH_VOID "void_in_partial.dt0"
#define WITHOUT_VOID "partial_without_voids.dt0"

static uint8_t with_void[LENGTH], without_void[LENGTH];

static void read_partial(void) {
    expect("its length", stored_read(WITH_VOID, with_void, LENGTH), LENGTH);
    expect("its length", stored_read(WITHOUT_VOID, without_void, LENGTH), LENGTH);
    expect("the last post is void", (uint64_t)memcmp(with_void + 8756, "\xFF\xFF\x00\x00\x42\x30", 6), 0);
    expect("the last post is 229", (uint64_t)memcmp(without_void + 8756, "\x00\xE5\x00\x00\x41\x17", 6), 0);
    expect("the rest is the same", (uint64_t)memcmp(with_void, without_void, 8756), 0);
    expect("they are partial", (uint64_t)memcmp(with_void + 369, "42", 2), 0);
}

/* Without voids a partial cell of level 0 is taken in both years. */
static void partial_read_case(const void *context) {
    (void)context;
    name_case("%s in year %u", WITHOUT_VOID, (unsigned)case_year);
    read_partial();
    both_lend(without_void, LENGTH);
    expect("intake", both_intake().bits, 0x0001000000150079);
    expect("post", both_post(20, 120).bits, 0x00020000000000E5);
    expect("position", both_position(3240000, 36000).bits, 0x00030014007800E5);
    expect("edit", both_edit(20, 120, -1).bits, 0);
    expect("edited", both_post(20, 120).bits, 0x000200000000FFFF);
    expect("edit back", both_edit(20, 120, 229).bits, 0);
    expect("as stored", (uint64_t)memcmp(both_cell(), without_void, LENGTH), 0);
}

/* With one it is taken in year 1, and in year 2 refused where its column is judged. */
static void void_read_case(const void *context) {
    bool first = case_year == 1;
    (void)context;
    name_case("%s in year %u", WITH_VOID, (unsigned)case_year);
    read_partial();
    both_lend(with_void, LENGTH);
    expect("intake", both_intake().bits, first ? 0x0001000000150079 : 0x0600000000002234);
    expect("the void", both_post(20, 120).bits, first ? 0x0002000000008001 : 0x0600000000002234);
    expect("a post beside it", both_post(20, 0).bits, first ? 0x0002000000000237 : 0x0600000000002234);
    expect("at its place", both_position(3240000, 36000).bits, first ? 0x0003001400788001 : 0x0600000000002234);
    expect("in another column", both_post(19, 120).bits, 0x00020000000000C5);
    expect("the headers, of no year", both_describe((int64_t[ITEMS]){0}).bits, 0);
    expect("edit beside it", both_edit(20, 0, 5).bits, first ? 0 : 0x0600000000002234);
    if (!first)
        expect("no byte is changed", (uint64_t)memcmp(both_cell(), with_void, LENGTH), 0);
    both_lend(with_void, LENGTH);
    expect("edit of it", both_edit(20, 120, 229).bits, first ? 0 : 0x0600000000002234);
    expect("its bytes", (uint64_t)memcmp(both_cell(), first ? without_void : with_void, LENGTH), 0);
}

/* A void given to an edit: done in year 1, 11 in year 2. Then that column, too, is refused in year 2. */
static void void_edit_case(const void *context) {
    (void)context;
    name_case("edits to void, of level 0");
    read_partial();
    both_lend(without_void, LENGTH);
    both_year(2);
    expect("in year 2", both_edit(20, 120, DTED_VOID).bits, 0x0B00000000000000);
    expect("no byte is changed", (uint64_t)memcmp(both_cell(), without_void, LENGTH), 0);
    both_year(1);
    expect("in year 1", both_edit(20, 120, DTED_VOID).bits, 0);
    expect("the stored cell with the void", (uint64_t)memcmp(both_cell(), with_void, LENGTH), 0);
    expect("in column 19", both_edit(19, 120, DTED_VOID).bits, 0);
    expect("its word and checksum", (uint64_t)memcmp(both_cell() + 8502, "\xFF\xFF\x00\x00\x3D\xD8", 6), 0);
    expect("intake", both_intake().bits, 0x0001000000150079);
    both_year(2);
    expect("intake in year 2", both_intake().bits, 0x0600000000002136);
    expect("a post in year 2", both_post(19, 0).bits, 0x0600000000002136);
    expect("an edit in year 2", both_edit(19, 120, 197).bits, 0x0600000000002136);
}

/* Heights as a writer takes them, of such a cell. */
static void heights_of(const uint8_t *stored, uint8_t *grid) {
    for (size_t i = 0; i < POSTS; i++)
        dted_put_height(grid + 2 * i, dted_word_height(stored + HEADERS + i / 121 * 254 + 8 + 2 * (i % 121)));
}

/* A void given to the writer, at 20 * 121 + 120 = 2,540: done in year 1, 11 in year 2, also before 12. */
static void void_write_case(const void *context) {
    static const int64_t items[ITEMS] = {0, 89, 0, 'U', 1, 'A', 1, -1, -1, -1, -1, -1, 42};
    static uint8_t grid[2 * POSTS];
    bool first = case_year == 1;
    (void)context;
    name_case("a grid with a void in year %u", (unsigned)case_year);
    read_partial();
    heights_of(with_void, grid);
    expect("write", both_write(8800, false, items, grid, sizeof grid).bits, first ? 0 : 0x0B000000000009EC);
    if (first)
        expect("the stored cell", (uint64_t)memcmp(both_out(), with_void, LENGTH), 0);
    expect("too little room", both_write(8761, false, items, grid, sizeof grid).bits, first ? 0x0C0000000000223A : 0x0B000000000009EC);
    expect("a column with it, of no year", both_write_column(254, false, 0, 20, grid + 2 * 2420, 242).bits, 0);
    heights_of(without_void, grid);
    expect("write without it", both_write(8800, false, items, grid, sizeof grid).bits, 0);
    expect("the other stored cell", (uint64_t)memcmp(both_out(), without_void, LENGTH), 0);
}

/* ---- voids at every level ---- */

/* The shortest cells of each level, all 0 but for their last post, which is void. Its place, and its index in the grid. */
static const struct void_level {
    int64_t level;
    uint64_t columns, posts, length, accepted, place, index;
} void_levels[] = {
    {0, 21, 121, 8762, 0x0001000000150079, 8756, 2540},
    {1, 201, 1201, 488642, 0x0001000100C904B1, 488636, 241400},
    {2, 601, 3601, 4339042, 0x0001000202590E11, 4339036, 2164200},
};

/* The cell in this year; `taken` says whether the year allows voids at its level. */
static void expect_level(const struct void_level *at, const uint8_t *made, bool taken) {
    uint64_t east = at->columns - 1, north = at->posts - 1;
    both_lend(made, at->length);
    expect("intake", both_intake().bits, taken ? at->accepted : refusal(6, at->place));
    expect("the void", both_post(east, north).bits, taken ? 0x0002000000008001 : refusal(6, at->place));
    expect("beside it", both_post(east, 0).bits, taken ? 0x0002000000000000 : refusal(6, at->place));
    expect("at its place", both_position(3240000, 36000).bits, taken ? 0x0003000000008001 | east << 32 | north << 16 : refusal(6, at->place));
    expect("another column", both_post(0, 0).bits, 0x0002000000000000);
    expect("edit beside it", both_edit(east, 0, 9000).bits, taken ? 0 : refusal(6, at->place));
    expect("edit to void", both_edit(0, 0, DTED_VOID).bits, taken ? 0 : refusal(11, 0));
    expect("edited", both_post(0, 0).bits, taken ? 0x0002000000008001 : 0x0002000000000000);
}

/* The same cell with the partial indicator 00, and then with 0007 in place of the void. */
static void expect_without(const struct void_level *at, uint8_t *made) {
    memcpy(made + 369, "00", 2);
    both_lend(made, at->length);
    expect("complete", both_intake().bits, refusal(6, at->place));
    expect("complete, a post", both_post(at->columns - 1, 0).bits, refusal(6, at->place));
    expect("complete, an edit to void", both_edit(0, 0, DTED_VOID).bits, refusal(11, 0));
    memcpy(made + 369, "01", 2);
    both_lend(made, at->length);
    both_year(1);
    expect("the void made 7", both_edit(at->columns - 1, at->posts - 1, 7).bits, 0);
    both_year(case_year);
    expect("partial, without voids", both_intake().bits, at->accepted);
}

static void void_level_case(const void *context) {
    static uint8_t grid[2 * 601 * 3601], made[4339042];
    const struct void_level *at = context;
    int64_t items[ITEMS] = {at->level, 89, 0, 'U', 1, 'A', 1, -1, -1, -1, -1, -1, 1};
    bool taken = case_year == 1 || at->level == 2;
    name_case("a void at level %d in year %u", (int)at->level, (unsigned)case_year);
    memset(grid, 0, sizeof grid);
    memcpy(grid + 2 * at->index, "\x80\x01", 2);
    expect("write", both_write(at->length, false, items, grid, 2 * at->index + 2).bits, taken ? 0 : refusal(11, at->index));
    both_year(1);
    expect("write in year 1", both_write(at->length, false, items, grid, 2 * at->index + 2).bits, 0);
    memcpy(made, both_out(), at->length);
    both_year(case_year);
    expect_level(at, made, taken);
    expect_without(at, made);
    items[DTED_PARTIAL] = 0;
    expect("write complete", both_write(at->length, false, items, grid, 2 * at->index + 2).bits, refusal(11, at->index));
}

/* ---- the year as it is passed ---- */

/* A year is 32 bits: what a caller leaves above them in a register is not looked at. */
static void wide_year_case(const void *context) {
    static const uint8_t grid[2 * POSTS];
    static const int64_t items[ITEMS] = {0, 89, 7, 'U', 1, 'A', 1, -1, -1, -1, -1, -1, 0};
    static const uint64_t above[] = {UINT64_C(1) << 32, UINT64_C(1) << 63, UINT64_C(0xFFFFFFFF00000000)};
    static uint8_t cell[LENGTH], out[LENGTH];
    (void)context;
    name_case("bits beside the year");
    expect("its length", stored_read(COMPLETE, cell, LENGTH), LENGTH);
    for (size_t i = 0; i < COUNT(above); i++) {
        for (uint64_t year = 1; year <= 2; year++) {
            expect("intake", bare_intake(above[i] + year, cell, LENGTH), 0x0001000000150079);
            expect("post", bare_post(above[i] + year, cell, LENGTH, 20, 120), 0x00020000000000E5);
            expect("position", bare_position(above[i] + year, cell, LENGTH, 3240000, 36000), 0x00030014007800E5);
            expect("edit", bare_edit(above[i] + year, cell, LENGTH, 20, 120, 229), 0);
            expect("write", bare_write(above[i] + year, out, sizeof out, items, grid, sizeof grid), 0);
        }
        expect("intake, unknown", bare_intake(above[i], cell, LENGTH), refusal(17, 0));
        expect("write, unknown", bare_write(above[i] + 3, out, sizeof out, items, grid, sizeof grid), refusal(17, 3));
    }
}

/* ---- all of them ---- */

static void run_in_year(void) {
    run_case(known_year_case, NULL);
    run_case(partial_read_case, NULL);
    run_case(void_read_case, NULL);
    run_case(void_write_case, NULL);
    for (size_t i = 0; i < COUNT(void_levels); i++)
        run_case(void_level_case, &void_levels[i]);
}

void run_literal_year_cases(void) {
    run_case(wide_year_case, NULL);
    for (unsigned side = 0; side < sides; side++) {
        both_side(side == 0 ? AT_START : AT_END);
        run_case(void_edit_case, NULL);
        for (size_t i = 0; i < COUNT(unknown_years); i++) {
            run_case(unknown_year_case, &unknown_years[i]);
            run_case(unknown_year_write_case, &unknown_years[i]);
        }
        for (case_year = 1; case_year <= 2; case_year++)
            run_in_year();
        case_year = DTED_YEAR_2;
    }
}
