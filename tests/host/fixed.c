/* fixed.c - the cases that need no seed: the paper's examples, and every header byte and number in turn. */
#include "both.h"
#include "cells.h"
#include "compare.h"
#include "dted.h"
#include "second.h"

#include <limits.h>
#include <string.h>

static struct cell cell;

static const int64_t plain_items[CELL_ITEMS] = {0, 46, 7, 'U', 1, 'A', DTED_E96, -1, -1, -1, -1, -1, 0};

/* A whole or a cut cell with these items, with voids where the year allows them; from one seed, since the cases here are always the
 * same. */
static void make(int64_t level, int64_t latitude, int64_t longitude, int64_t partial, size_t columns_made) {
    struct random random = {1};
    int64_t items[CELL_ITEMS];
    memcpy(items, plain_items, sizeof items);
    items[DTED_LEVEL] = level;
    items[DTED_LATITUDE] = latitude;
    items[DTED_LONGITUDE] = longitude;
    items[DTED_PARTIAL] = partial;
    cell_make_with(&random, items, partial != 0 && (case_year == 1 || level == 2), columns_made, &cell);
}

/* ---- the paper's examples ---- */

static const struct zone_example {
    const char *mark;
    int64_t level, latitude;
    uint64_t columns, length;
    const char *interval;
} zone_examples[] = {
    {"M1", 1, 49, 1201, 3428 + 1201 * 2414, "0030"}, {"M2", 1, 50, 601, 3428 + 601 * 2414, "0060"},
    {"M3", 1, -50, 1201, 2902642, "0030"},           {"M4", 1, -51, 601, 3428 + 601 * 2414, "0060"},
    {"M5", 0, 89, 21, 8762, "1800"},                 {"level 0, zone I", 0, 0, 121, 34162, "0300"},
    {"level 2, zone V", 2, -90, 601, 3428 + 601 * 7214, "0060"}, {"level 2, zone I", 2, -1, 3601, 25981042, "0010"},
    {"zone II, to 69 N", 0, 69, 61, 18922, "0600"},  {"zone II, to 70 S", 0, -70, 61, 18922, "0600"},
    {"zone III, 70 N", 0, 70, 41, 13842, "0900"},    {"zone III, 71 S", 1, -71, 401, 3428 + 401 * 2414, "0090"},
    {"zone III, to 74 N", 1, 74, 401, 971442, "0090"}, {"zone III, to 75 S", 0, -75, 41, 13842, "0900"},
    {"zone IV, 75 N", 1, 75, 301, 730042, "0120"},   {"zone IV, 76 S", 0, -76, 31, 11302, "1200"},
    {"zone IV, to 79 N", 0, 79, 31, 11302, "1200"},  {"zone IV, to 80 S", 1, -80, 301, 3428 + 301 * 2414, "0120"},
    {"zone V, 80 N", 0, 80, 21, 8762, "1800"},       {"zone V, 81 S", 0, -81, 21, 8762, "1800"},
};

static void zone_case(const void *context) {
    const struct zone_example *example = context;
    name_case("example %s", example->mark);
    dted_answer grid = both_grid((uint64_t)example->level, example->latitude);
    expect("columns", dted_columns(grid), example->columns);
    expect("cell length", dted_cell_length(grid), example->length);
    make(example->level, example->latitude, 7, 0, SIZE_MAX);
    expect("write", both_write(cell.length, false, cell.items, cell.grid, cell.grid_bytes).bits, 0);
    expect("interval in the UHL", (uint64_t)memcmp(both_out() + 20, example->interval, 4), 0);
    expect("interval in the DSI", (uint64_t)memcmp(both_out() + 357, example->interval, 4), 0);
    both_lend(both_out(), cell.length);
    expect("intake", both_intake().bits, grid.bits);
    expect("level", dted_level(grid), (uint64_t)example->level);
}

static void lengths_case(const void *context) {
    (void)context;
    name_case("lengths of the levels");
    expect("level 0", dted_cell_length(both_grid(0, 0)), 34162);
    expect("level 1", dted_cell_length(both_grid(1, 0)), 2902642);
    expect("level 2", dted_cell_length(both_grid(2, 0)), 25981042);
    expect("column of level 0", dted_column_length(both_grid(0, 0)), 254);
    expect("column of level 1", dted_column_length(both_grid(1, 0)), 2414);
    expect("column of level 2", dted_column_length(both_grid(2, 0)), 7214);
}

static const struct word_example {
    uint8_t high, low;
    int64_t partial;
    unsigned number_in_1, number_in_2; /* by the year */
    int height;
} word_examples[] = {
    {0x23, 0x28, 0, 0, 0, 9000}, {0x23, 0x29, 0, 6, 6, 0},      {0xAE, 0xE0, 0, 0, 0, -12000}, {0xAE, 0xE1, 0, 6, 6, 0},
    {0x80, 0x01, 0, 0, 0, -1},   {0xFF, 0xFF, 1, 0, 6, -32767}, {0xFF, 0xFF, 0, 6, 6, 0},      {0x80, 0x00, 0, 0, 0, 0},
    {0x23, 0x29, 1, 6, 6, 0},    {0xAE, 0xE1, 99, 6, 6, 0},     {0x00, 0x00, 0, 0, 0, 0},      {0xFF, 0xFE, 1, 6, 6, 0},
    {0x80, 0x00, 1, 0, 0, 0},    {0xFF, 0xFF, 99, 0, 6, -32767},
};

/* M6, M7, M8, M13, void in a complete and in a partial cell of level 0, and the other word of height 0. */
static void word_case(const void *context) {
    const struct word_example *example = context;
    unsigned number = case_year == 1 ? example->number_in_1 : example->number_in_2;
    name_case("word %02X%02X in year %u", example->high, example->low, (unsigned)case_year);
    make(0, 89, 7, example->partial, SIZE_MAX);
    size_t offset = 3428 + 4 * 254 + 8 + 2 * 17;
    cell.bytes[offset] = example->high;
    cell.bytes[offset + 1] = example->low;
    cell_mend_checksum(&cell, 4);
    both_lend(cell.bytes, cell.length);
    dted_answer answer = both_post(4, 17);
    expect("post", dted_number(answer), number);
    if (number == 0)
        expect("height", (uint64_t)dted_height(answer), (uint64_t)example->height);
    else
        expect("place", dted_place(answer), offset);
    expect("intake", both_intake().bits, number == 0 ? both_grid(0, 89).bits : refusal(6, offset));
}

/* M9, M10, M11: zero words add nothing, so a column of one height and zeros has the sum of M9. */
static void checksum_case(const void *context) {
    (void)context;
    name_case("examples M9 to M11");
    uint8_t posts[2402] = {0x23, 0x28};
    expect("write", both_write_column(254, false, 0, 0, posts, 242).bits, 0);
    expect("M9", (uint64_t)memcmp(both_out() + 250, "\x00\x00\x00\xF5", 4), 0);
    make(0, 89, 7, 0, SIZE_MAX);
    memcpy(cell.bytes + 3428, both_out(), 254);
    both_lend(cell.bytes, cell.length);
    expect("edit", both_edit(0, 0, -1).bits, 0);
    expect("word", (uint64_t)memcmp(both_cell() + 3436, "\x80\x01", 2), 0);
    expect("M10", (uint64_t)memcmp(both_cell() + 3678, "\x00\x00\x01\x2B", 4), 0);
    memset(posts, 0, sizeof posts);
    expect("write", both_write_column(2414, false, 1, 300, posts, sizeof posts).bits, 0);
    expect("M11", (uint64_t)memcmp(both_out() + 2410, "\x00\x00\x01\x04", 4), 0);
}

static void nearest_case(const void *context) {
    (void)context;
    name_case("example M12");
    make(1, 46, 7, 0, 3);
    both_lend(cell.bytes, cell.length);
    dted_answer answer = both_position(46 * 36000 + 15, 7 * 36000 + 46);
    expect("number", dted_number(answer), 0);
    expect("column", dted_position_column(answer), 2);
    expect("post", dted_position_post(answer), 0);
    expect("height", (uint64_t)dted_height(answer), (uint64_t)dted_height(both_post(2, 0)));
}

static void length_case(const void *context) {
    (void)context;
    name_case("short and long");
    make(0, 89, 7, 0, SIZE_MAX);
    both_lend(cell.bytes, 3427);
    expect("3,427 bytes", both_intake().bits, refusal(1, 3427));
    both_lend(cell.bytes, 3428);
    expect("3,428 bytes", both_intake().bits, refusal(3, 3428));
    both_lend(cell.bytes, 8761);
    expect("one byte short", both_intake().bits, refusal(3, 3428 + 20 * 254));
    both_lend(cell.bytes, 8762);
    expect("whole", both_intake().bits, both_grid(0, 89).bits);
    uint8_t longer[8763] = {0};
    memcpy(longer, cell.bytes, 8762);
    both_lend(longer, 8763);
    expect("one byte long", both_intake().bits, refusal(7, 8762));
    longer[3681] ^= 1;
    both_lend(longer, 8762);
    expect("a wrong first checksum", both_intake().bits, refusal(5, 3678));
}

/* Cut after each of its bytes, and with two bytes more. */
static void every_length_case(const void *context) {
    (void)context;
    name_case("every length");
    make(0, 89, 7, 0, SIZE_MAX);
    uint8_t bytes[8764] = {0};
    memcpy(bytes, cell.bytes, 8762);
    for (size_t length = 0; length <= sizeof bytes; length++) {
        both_lend(bytes, length);
        uint64_t due = length < 3428   ? refusal(1, length)
                       : length < 8762 ? refusal(3, length - (length - 3428) % 254)
                       : length > 8762 ? refusal(7, 8762)
                                       : both_grid(0, 89).bits;
        expect("intake", both_intake().bits, due);
        both_post(length % 21, length % 121);
        if (length % 16 == 0)
            both_edit(length % 21, length % 121, 5);
    }
}

/* Each byte of the columns replaced: refused, with a place in that column. */
static void every_byte_case(const void *context) {
    (void)context;
    name_case("every byte of the columns");
    make(0, 89, 7, 5, SIZE_MAX);
    for (size_t at = 3428; at < 8762; at++) {
        size_t start = at - (at - 3428) % 254;
        uint8_t kept = cell.bytes[at];
        cell.bytes[at] ^= (uint8_t)(1 + at * 37 % 255);
        both_lend(cell.bytes, cell.length);
        dted_answer answer = both_intake();
        expect("refused", dted_number(answer) != 0, 1);
        expect("in its column", start <= dted_place(answer) && dted_place(answer) < start + 254, 1);
        cell.bytes[at] = kept;
    }
}

/* The 180th meridian is the west edge of one cell and the east edge of another; each by both its names. */
static void meridian_case(const void *context) {
    (void)context;
    name_case("the 180th meridian");
    for (int name = -1; name <= 1; name += 2) {
        make(0, 89, -180, 0, SIZE_MAX);
        both_lend(cell.bytes, cell.length);
        expect("west edge", dted_position_column(both_position(89 * 36000, name * 6480000)), 0);
        expect("past the west edge", both_position(89 * 36000, name * 6480001).bits, refusal(8, 0));
        make(0, 89, 179, 0, SIZE_MAX);
        both_lend(cell.bytes, cell.length);
        expect("east edge", dted_position_column(both_position(90 * 36000, name * 6480000)), 20);
        expect("past the east edge", both_position(90 * 36000, name * 6480001).bits, refusal(8, 0));
        make(0, 89, 0, 0, SIZE_MAX);
        both_lend(cell.bytes, cell.length);
        expect("another cell", both_position(90 * 36000, name * 6480000).bits, refusal(8, 0));
    }
}

/* Each word and each height in bytes, by the header's functions, and heights of more than 16 bits. */
static void words_and_heights_case(const void *context) {
    static const int too_large[] = {32768, -32769, 65536, -65536, 65537, 98303, INT_MAX, INT_MIN};
    (void)context;
    name_case("words and heights in bytes");
    for (int magnitude = 0; magnitude < 0x8000; magnitude++) {
        uint8_t word[2] = {(uint8_t)(magnitude / 256), (uint8_t)(magnitude % 256)};
        expect("a height of a word", (uint64_t)dted_word_height(word), (uint64_t)magnitude);
        word[0] |= 0x80;
        expect("a depth of a word", (uint64_t)dted_word_height(word), (uint64_t)-magnitude); /* all ones: DTED_VOID */
        uint8_t up[2], down[2];
        dted_put_height(up, magnitude);
        dted_put_height(down, -magnitude);
        expect("a height in a grid", up[0] * 256u + up[1], (uint64_t)magnitude);
        expect("a depth in a grid", down[0] * 256u + down[1], (uint64_t)(0x10000 - magnitude) % 0x10000);
    }
    for (size_t i = 0; i < COUNT(too_large); i++) {
        uint8_t bytes[2] = {1, 2};
        dted_put_height(bytes, too_large[i]);
        expect("a height of more than 16 bits", bytes[0] * 256u + bytes[1], 0x8000);
    }
}

/* ---- every byte, every number ---- */

struct field_sweep {
    size_t field;
    int64_t level, latitude, longitude;
    bool every_text; /* of a long list, too */
};

/* The headers that are lent, with this text in the field; afterwards they are as before. */
static dted_answer described_with(const struct cell_field *field, const char *text) {
    int64_t items[CELL_ITEMS];
    uint8_t kept[16], *at = cell.bytes + field->offset;
    memcpy(kept, at, field->width);
    memcpy(at, text, field->width);
    both_lend(cell.bytes, cell.length);
    dted_answer answer = both_describe(items);
    memcpy(at, kept, field->width);
    return answer;
}

/* Each byte of the field takes each value; then each listed text stands there. */
static void field_case(const void *context) {
    const struct field_sweep *sweep = context;
    const struct cell_field *field = &cell_fields[sweep->field];
    char text[16];
    name_case("header field at %zu", field->offset);
    make(sweep->level, sweep->latitude, sweep->longitude, 0, 0);
    for (size_t i = 0; i < 256 * field->width; i++) {
        memcpy(text, cell.bytes + field->offset, field->width);
        text[i / 256] = (char)(i % 256);
        described_with(field, text);
    }
    for (size_t t = 0; cell_texts[t] != NULL; t++)
        if (strlen(cell_texts[t]) == field->width)
            described_with(field, cell_texts[t]);
}

/* How many texts some accepted header has in each field, by the paper: an accuracy is 0 to 9,999 or NA, a corner has a second
 * letter at 0 degrees, and at longitude 180. */
static const size_t possible_counts[CELL_FIELDS] = {
    1, 360, 180, 3, 13, 10001, 4, 13, 3, 1, 1, 4, 3, 99, 26, 1, 2, 1, 180, 360,
    181, 362, 181, 362, 181, 362, 181, 362, 1, 3, 13, 3, 13, 100, 1, 10001, 10001, 10001, 10001, 1,
};

/* No text that some header has in a field is called impossible, whatever headers it is put into; of long lists some are tried. */
static void possible_case(const void *context) {
    const struct field_sweep *sweep = context;
    const struct texts *texts = second_possible(sweep->field);
    size_t step = sweep->every_text ? 1 : 1 + texts->count / 400;
    name_case("all that may stand in the header field at %zu", cell_fields[sweep->field].offset);
    expect("texts", texts->count, possible_counts[sweep->field]);
    make(sweep->level, sweep->latitude, sweep->longitude, 0, 0);
    for (size_t i = 0; i < texts->count; i += step) {
        dted_answer answer = described_with(&cell_fields[sweep->field], texts->list[i].bytes);
        expect("not impossible", dted_number(answer) != DTED_FIELD_IMPOSSIBLE, 1);
    }
}

static void run_field_cases(void) {
    static const int64_t origins[][3] = {{0, 0, 0},  {0, -1, -1},  {0, 49, -180}, {0, -90, 179},
                                         {0, 89, 99}, {1, -51, -1}, {2, 70, 179}};
    for (size_t o = 0; o < COUNT(origins); o++) {
        both_side(o % 2 == 0 ? AT_START : AT_END);
        for (size_t f = 0; f < CELL_FIELDS; f++) {
            struct field_sweep sweep = {f, origins[o][0], origins[o][1], origins[o][2], o == 0 && sides > 1};
            run_case(field_case, &sweep);
            run_case(possible_case, &sweep);
        }
    }
}

/* How a field is broken: by a byte that no header has, at its start or at its end, or by what it holds in other headers. */
enum breaking { FIRST_BYTE, LAST_BYTE, OTHER_TEXT, BREAKINGS };

/* Breaks a field of the cell, and gives the number that is due; 0 where this way leaves the field right. */
static unsigned broken(const struct cell_field *field, enum breaking how) {
    static const int64_t others[CELL_ITEMS] = {1, -52, -9, 'S', 2, 'B', DTED_MSL, 5, 5, 5, 5, 5, 5};
    uint8_t headers[CELL_HEADERS], *at = cell.bytes + field->offset;
    if (how != OTHER_TEXT) {
        at[how == FIRST_BYTE ? 0 : field->width - 1] = '~';
        return DTED_FIELD_IMPOSSIBLE;
    }
    if (field->besides != 0) {
        second_headers(headers, others);
        memcpy(at, headers + field->offset, field->width);
    }
    return field->besides;
}

/* Of two broken fields the one that is judged first is told: the place lies in it, and the number is its own. */
static void expect_first(const struct cell_field *first, enum breaking one, const struct cell_field *second, enum breaking two) {
    uint8_t kept[CELL_HEADERS];
    int64_t items[CELL_ITEMS];
    memcpy(kept, cell.bytes, sizeof kept);
    unsigned number = broken(first, one), other = broken(second, two);
    if (number != 0 && other != 0) {
        both_lend(cell.bytes, cell.length);
        dted_answer answer = both_describe(items);
        expect("the number of the first of two", dted_number(answer), number);
        expect("its place is in it", dted_place(answer) - first->offset < first->width, 1);
        if (one == FIRST_BYTE)
            expect("its place", dted_place(answer), first->offset);
    }
    memcpy(cell.bytes, kept, sizeof kept);
}

static void two_fields_case(const void *context) {
    size_t first = *(const size_t *)context;
    name_case("two broken fields, the first at %zu", cell_fields[first].offset);
    make(0, 46, 7, 0, 0);
    for (size_t second = first + 1; second < CELL_FIELDS; second++)
        for (enum breaking one = FIRST_BYTE; one < BREAKINGS; one++)
            for (enum breaking two = FIRST_BYTE; two < BREAKINGS; two++)
                expect_first(&cell_fields[first], one, &cell_fields[second], two);
}

/* A whole cell with its free bytes at one value after the other says the same. */
static void free_bytes_case(const void *context) {
    (void)context;
    name_case("free bytes");
    int64_t items[CELL_ITEMS];
    make(0, 46, 7, 0, 0);
    for (size_t i = 0; i < CELL_HEADERS; i++) {
        uint8_t kept = cell.bytes[i];
        cell.bytes[i] ^= 0x5A;
        both_lend(cell.bytes, cell.length);
        both_describe(items);
        cell.bytes[i] = kept;
    }
}

static void null_case(const void *context) {
    (void)context;
    int64_t items[CELL_ITEMS];
    uint8_t posts[242] = {0};
    name_case("null with length 0");
    both_lend(NULL, 0);
    expect("intake", both_intake().bits, refusal(1, 0));
    expect("describe", both_describe(items).bits, refusal(1, 0));
    expect("post", both_post(0, 0).bits, refusal(1, 0));
    expect("position", both_position(0, 0).bits, refusal(1, 0));
    expect("edit", both_edit(0, 0, 0).bits, refusal(1, 0));
    make(0, 89, 7, 0, SIZE_MAX);
    expect("write, no grid", both_write(cell.length, false, cell.items, NULL, 0).bits, refusal(10, 21 * 121));
    expect("write, no room", both_write(0, true, cell.items, cell.grid, cell.grid_bytes).bits, refusal(12, 8762));
    expect("write, neither", both_write(0, true, cell.items, NULL, 0).bits, refusal(10, 21 * 121));
    expect("column, no posts", both_write_column(254, false, 0, 0, NULL, 0).bits, refusal(10, 121));
    expect("column, no room", both_write_column(0, true, 0, 0, posts, 242).bits, refusal(12, 254));
    expect("column, neither", both_write_column(0, true, 0, 0, NULL, 0).bits, refusal(10, 121));
    both_lend(cell.bytes, 0);
    expect("no bytes", both_intake().bits, refusal(1, 0));
}

static void grid_case(const void *context) {
    (void)context;
    name_case("dted_grid");
    for (size_t i = 0; i < odd_index_count; i++) {
        for (int64_t latitude = -200; latitude <= 200; latitude++)
            both_grid(odd_indices[i], latitude);
        for (size_t j = 0; j < odd_number_count; j++)
            both_grid(odd_indices[i], odd_numbers[j]);
    }
}

/* One item takes every odd number and every number near its range, while the others are right. */
static void item_case(const void *context) {
    size_t item = *(const size_t *)context;
    name_case("item %zu", item + 1);
    make(0, 89, 7, 3, SIZE_MAX);
    int64_t items[CELL_ITEMS];
    memcpy(items, cell.items, sizeof items);
    for (size_t i = 0; i < odd_number_count; i++) {
        items[item] = odd_numbers[i];
        both_write(cell.length, false, items, cell.grid, cell.grid_bytes);
    }
    for (int64_t value = -200; value <= 300; value++) {
        items[item] = value;
        both_write(cell.length, false, items, cell.grid, cell.grid_bytes);
    }
    /* the lowest of two wrong items is told, and before a wrong grid */
    items[item] = INT64_MIN;
    for (size_t other = 0; other < CELL_ITEMS; other++) {
        int64_t kept = items[other];
        items[other] = INT64_MAX;
        dted_answer answer = both_write(3, false, items, cell.grid, 5);
        expect("lowest item", answer.bits, refusal(9, (other < item ? other : item) + 1));
        items[other] = kept;
    }
}

/* Each post of a small cell takes each odd number, in a grid and by an edit. */
static void height_case(const void *context) {
    int64_t partial = *(const int64_t *)context;
    name_case("heights, partial indicator %d", (int)partial);
    make(0, 89, 7, partial, SIZE_MAX);
    for (size_t i = 0; i < odd_number_count; i++) {
        size_t index = i * 24 % (21 * 121);
        uint8_t high = cell.grid[2 * index], low = cell.grid[2 * index + 1];
        cell.grid[2 * index] = (uint8_t)((uint64_t)odd_numbers[i] >> 8 & 0xFF);
        cell.grid[2 * index + 1] = (uint8_t)((uint64_t)odd_numbers[i] & 0xFF);
        both_write(cell.length, false, cell.items, cell.grid, cell.grid_bytes);
        cell.grid[2 * index] = high;
        cell.grid[2 * index + 1] = low;
        both_lend(cell.bytes, cell.length);
        both_edit(index / 121, index % 121, odd_numbers[i]);
        both_post(index / 121, index % 121);
    }
}

static void index_case(const void *context) {
    (void)context;
    name_case("indices");
    make(0, 89, 7, 0, SIZE_MAX);
    both_lend(cell.bytes, cell.length);
    for (size_t i = 0; i < odd_index_count; i++)
        for (size_t j = 0; j < odd_index_count; j++) {
            both_post(odd_indices[i], odd_indices[j]);
            both_edit(odd_indices[i], odd_indices[j], 1);
        }
}

static void place_case(const void *context) {
    (void)context;
    name_case("positions far out");
    make(0, -90, -180, 0, SIZE_MAX);
    both_lend(cell.bytes, cell.length);
    for (size_t i = 0; i < odd_number_count; i++) {
        for (size_t j = 0; j < odd_number_count; j++)
            both_position(odd_numbers[i], odd_numbers[j]);
        both_position(-90 * 36000 + 5, odd_numbers[i]);
        both_position(odd_numbers[i], -180 * 36000 + 5);
    }
}

/* Each tenth of an arc-second along the south and the west edge of one cell, and some past both ends; of others each eleventh. */
static void edge_case(const void *context) {
    int64_t longitude = *(const int64_t *)context, step = longitude == 7 ? 1 : 11;
    name_case("positions along the edges, %d", (int)longitude);
    make(0, 89, longitude, 1, SIZE_MAX);
    both_lend(cell.bytes, cell.length);
    for (int64_t way = -3; way <= 36003; way += step) {
        both_position(89 * 36000, longitude * 36000 + way);
        both_position(89 * 36000 + way, longitude * 36000);
    }
}

static void column_numbers_case(const void *context) {
    static const size_t due_bytes[] = {242, 2402, 7202};
    uint64_t level = *(const uint64_t *)context;
    uint8_t posts[7204] = {0};
    name_case("column writer, level %d", (int)level);
    for (size_t i = 0; i < odd_index_count; i++) {
        size_t due = due_bytes[level], room = due + 12;
        const size_t lengths[] = {due, due - 1, due + 1, due - 2, due + 2, 0, 1, 2};
        const size_t rooms[] = {room, room - 1, room + 1, 0, 1};
        for (size_t j = 0; j < COUNT(lengths); j++)
            both_write_column(room, false, level, odd_indices[i], posts, lengths[j]);
        for (size_t j = 0; j < COUNT(rooms); j++)
            both_write_column(rooms[j], false, level, odd_indices[i], posts, due);
        both_write_column(room, false, odd_indices[i], odd_indices[i], posts, due);
        both_write_column(room, false, odd_indices[i], level, posts, due);
    }
}

static void run_number_cases(void) {
    int64_t longitudes[] = {0, -1, -180, 179, 7}, partials[] = {0, 1, 99};
    run_case(null_case, NULL);
    run_case(grid_case, NULL);
    run_case(index_case, NULL);
    run_case(place_case, NULL);
    for (size_t item = 0; item < CELL_ITEMS; item++)
        run_case(item_case, &item);
    for (size_t i = 0; i < COUNT(partials); i++)
        run_case(height_case, &partials[i]);
    for (uint64_t level = 0; level < 3; level++)
        run_case(column_numbers_case, &level);
    for (size_t i = 0; i < COUNT(longitudes); i++)
        run_case(edge_case, &longitudes[i]);
}

static void run_examples(void) {
    for (size_t i = 0; i < COUNT(zone_examples); i++)
        run_case(zone_case, &zone_examples[i]);
    for (size_t i = 0; i < COUNT(word_examples); i++)
        run_case(word_case, &word_examples[i]);
    run_case(lengths_case, NULL);
    run_case(checksum_case, NULL);
    run_case(nearest_case, NULL);
    run_case(length_case, NULL);
    run_case(every_length_case, NULL);
    run_case(every_byte_case, NULL);
    run_case(meridian_case, NULL);
    run_case(words_and_heights_case, NULL);
}

void run_fixed_cases(void) {
    for (unsigned round = 0; round < 2 * sides; round++) {
        both_side(round % 2 == 0 ? AT_START : AT_END);
        case_year = 1 + round / sides;
        run_examples();
        run_number_cases();
    }
    case_year = DTED_YEAR_2;
    for (unsigned side = 0; side < sides; side++) {
        both_side(side == 0 ? AT_START : AT_END);
        for (size_t first = 0; first + 1 < CELL_FIELDS; first++)
            run_case(two_fields_case, &first);
        run_case(free_bytes_case, NULL);
    }
    run_field_cases();
    cell_free(&cell);
}
