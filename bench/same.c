/* same.c - see same.h. The small cells are of level 0; every choice comes from a fixed seed. */
#include "same.h"

#include <inttypes.h>
#include <stdbool.h>
#include <stdio.h>
#include <stdlib.h>
#include <string.h>

enum { SMALL_ROOM = 34162, SMALL_GRID = 2 * 121 * 121, TRIES = 20000, LEVELS = 3, KEPT = 5 * 20 * LEVELS };

static const struct calls *one, *two;
static size_t compared;
static uint64_t seed;
static bool negative_zeros; /* whether cells with the word 8000 are tried */
static bool years;          /* whether years other than 1 are named */
static uint32_t year;       /* that is named in a call */

/* A small cell with its grid, and what both sets of calls made of it. */
static int64_t items[DTED_ITEMS];
static uint8_t grid[SMALL_GRID + 2], first[SMALL_ROOM + 2], second[SMALL_ROOM + 2];
static size_t length, columns, column_bytes;

static uint64_t below(uint64_t most) { return next_random(&seed) % most; }

static void differ(const char *what) {
    fprintf(stderr, "%s and %s for %s differ: %s\n", one->who, two->who, cpu_name(two->cpu), what);
    exit(1);
}

/* How often each number was answered alike in years other than 1, and in year 1. */
static size_t told[2][256];

static void same(dted_answer a, dted_answer b, const char *what) {
    compared++;
    told[year == 1][dted_number(a)]++;
    if (a.bits == b.bits)
        return;
    fprintf(stderr, "%016" PRIx64 " %016" PRIx64 "\n", a.bits, b.bits);
    differ(what);
}

static void same_bytes(const uint8_t *a, const uint8_t *b, size_t bytes, const char *what) {
    compared++;
    if (memcmp(a, b, bytes) != 0)
        differ(what);
}

/* Names year 1 or 2 from now on. */
static void known_year(void) { year = years ? 1 + (uint32_t)below(2) : 1; }

/* At times an unknown one, mostly near a known one or like it in its low bits. */
static void some_year(void) {
    static const uint32_t unknown[] = {0, 3, 17, 255, 256, 257, 258, 65537, 65538, 0x80000001, UINT32_MAX};
    known_year();
    if (years && below(8) == 0)
        year = unknown[below(sizeof unknown / sizeof *unknown)];
}

static void same_intake(const uint8_t *cell, size_t bytes) {
    same(one->intake(year, cell, bytes), two->intake(year, cell, bytes), "intake");
}

static void same_post(const uint8_t *cell, size_t bytes, uint64_t column, uint64_t post) {
    same(one->post(year, cell, bytes, column, post), two->post(year, cell, bytes, column, post), "post");
}

/* ---- small cells, written ---- */

/* A height near an edge of its range or anywhere, and at times one that is not allowed. */
static int some_height(void) {
    static const int edges[] = {-12000, 9000, 0, -1, 1, -12001, 9001, -32768, DTED_VOID, 32767};
    return below(8) ? (int)below(21001) - 12000 : edges[below(10)];
}

static int good_height(int voids) {
    int height = some_height();
    if (height == DTED_VOID && voids)
        return height;
    return height < -12000 || height > 9000 ? 7 : height;
}

static void some_items(int latitude) {
    static const char letters[] = "SCUR";
    items[DTED_LEVEL] = 0;
    items[DTED_LATITUDE] = latitude;
    items[DTED_LONGITUDE] = below(4) ? (int)below(360) - 180 : (int)(179 * below(2)) - (int)(180 * below(2));
    items[DTED_SECURITY] = letters[below(4)];
    items[DTED_EDITION] = 1 + (int)below(99);
    items[DTED_MATCH_VERSION] = 'A' + (int)below(26);
    items[DTED_DATUM] = (int)below(2);
    for (int i = DTED_ACCURACY; i <= DTED_RELATIVE_VERTICAL; i++)
        items[i] = (int)below(10001) - 1;
    items[DTED_PARTIAL] = below(2) ? (int)below(100) : 0;
}

static void same_write(size_t room, size_t bytes) {
    memset(first, 0x5A, sizeof first);
    memset(second, 0x5A, sizeof second);
    same(one->write(year, first, room, items, grid, bytes), two->write(year, second, room, items, grid, bytes), "write");
    same_bytes(first, second, sizeof first, "written bytes");
}

/* Makes a small cell of the items, by both, that is good in the year named from now on. */
static void write_small(void) {
    known_year();
    dted_answer laid = dted_grid(0, items[DTED_LATITUDE]);
    columns = dted_columns(laid);
    column_bytes = dted_column_length(laid);
    length = dted_cell_length(laid);
    for (size_t i = 0; i < columns * dted_posts(laid); i++)
        dted_put_height(grid + 2 * i, good_height(items[DTED_PARTIAL] != 0 && year == 1));
    same_write(length, 2 * columns * dted_posts(laid));
    same_intake(first, length);
    if (dted_number(one->intake(year, first, length)) != DTED_OK)
        differ("a written cell is refused");
}

static void make_small(int latitude) {
    some_items(latitude);
    write_small();
}

/* Writes that mostly are refused: an item, the grid's length, a height, the room. */
static void compare_refused_writes(void) {
    for (int i = 0; i < TRIES / 10; i++) {
        int latitude = (int)below(180) - 90;
        make_small(latitude);
        size_t bytes = 2 * columns * 121;
        if (!below(3))
            items[below(DTED_ITEMS)] += (int64_t)below(400) - 200;
        if (!below(4))
            items[below(DTED_ITEMS)] = (int64_t)(next_random(&seed) << 16);
        if (!below(3))
            dted_put_height(grid + 2 * below(columns * 121), some_height());
        some_year();
        same_write(length - !below(3), bytes + (below(3) ? 0 : below(3)) - (below(3) ? 0 : below(3)));
    }
}

/* Each item at the ends of its range and just past them. */
static void compare_items(void) {
    static const int values[] = {-181, -180, -91, -90, -2, -1, 0, 1, 2, 3, 64, 65, 83, 90, 91, 89, 98, 99, 100, 179, 180, 9999, 10000};
    for (int i = 0; i < DTED_ITEMS; i++)
        for (size_t k = 0; k < sizeof values / sizeof *values; k++) {
            make_small(0);
            items[i] = values[k];
            same_write(sizeof first, 2 * columns * 121);
        }
}

/* ---- headers of every level, spoiled ---- */

/* How many texts are good in a field, given the fields before it. */
enum good { ONE, SEVERAL, ONE_OR_TWO };

/* The forty fields; `other` is the refusal beside 21 that each can give, or 0. */
static const struct field {
    size_t at, bytes;
    enum good good;
    unsigned other;
} fields[] = {
    {0, 4, ONE, 0}, {4, 8, SEVERAL, 0}, {12, 8, SEVERAL, 0}, {20, 4, ONE, 23}, {24, 4, SEVERAL, 0},
    {28, 4, SEVERAL, 0}, {32, 3, SEVERAL, 0}, {47, 4, ONE, 23}, {51, 4, ONE, 23}, {55, 1, ONE, 0},
    {80, 3, ONE, 0}, {83, 1, ONE, 22}, {139, 5, ONE, 22}, {167, 2, SEVERAL, 0}, {169, 1, SEVERAL, 0},
    {206, 9, ONE, 0}, {221, 3, SEVERAL, 0}, {224, 5, ONE, 0}, {265, 9, ONE, 22}, {274, 10, ONE, 22},
    {284, 7, ONE_OR_TWO, 22}, {291, 8, ONE_OR_TWO, 22}, {299, 7, ONE_OR_TWO, 22}, {306, 8, ONE_OR_TWO, 22},
    {314, 7, ONE_OR_TWO, 22}, {321, 8, ONE_OR_TWO, 22}, {329, 7, ONE_OR_TWO, 22}, {336, 8, ONE_OR_TWO, 22},
    {344, 9, ONE, 0}, {353, 4, ONE, 23}, {357, 4, ONE, 23}, {361, 4, ONE, 23}, {365, 4, ONE, 23}, {369, 2, SEVERAL, 0},
    {728, 3, ONE, 0}, {731, 4, SEVERAL, 0}, {735, 4, SEVERAL, 0}, {739, 4, SEVERAL, 0}, {743, 4, SEVERAL, 0}, {783, 2, ONE, 0},
};
enum { FIELDS = sizeof fields / sizeof *fields };

/* Good headers; what was answered to spoiled ones, by level and place; and whether a wrong byte further on gave a field's first. */
static uint8_t kept[KEPT][DTED_HEADER_BYTES];
static bool answered[LEVELS][DTED_HEADER_BYTES][24], gave_first[LEVELS][FIELDS];

static void put_four(uint8_t *field, size_t value) {
    for (int i = 3; i >= 0; i--, value /= 10)
        field[i] = (uint8_t)('0' + value % 10);
}

/* Makes headers of level 0 those of another level; a cell of each would take too long to write. */
static void raise_level(uint8_t *h, unsigned level, int latitude) {
    dted_answer laid = dted_grid(level, latitude);
    size_t across = dted_columns(laid), up = dted_posts(laid);
    h[143] = (uint8_t)('0' + level);
    put_four(h + 20, DTED_DEGREE / (across - 1));
    put_four(h + 24, DTED_DEGREE / (up - 1));
    put_four(h + 47, across);
    put_four(h + 51, up);
    put_four(h + 353, DTED_DEGREE / (up - 1));
    put_four(h + 357, DTED_DEGREE / (across - 1));
    put_four(h + 361, up);
    put_four(h + 365, across);
}

/* At the edges of zones and hemispheres, with a corner at 0 and at 180 degrees or with none, and at each level. */
static void keep_headers(void) {
    static const int latitudes[] = {-90, -89, -81, -80, -51, -50, -1, 0, 1, 49, 50, 69, 70, 74, 75, 79, 80, 88, 89, 12};
    static const int longitudes[] = {-180, -1, 0, 179};
    for (unsigned i = 0; i < KEPT; i++) {
        some_items(latitudes[i / LEVELS % 20]);
        if (i / LEVELS / 20 < 4)
            items[DTED_LONGITUDE] = longitudes[i / LEVELS / 20];
        write_small();
        raise_level(first, i % LEVELS, (int)items[DTED_LATITUDE]);
        memcpy(kept[i], first, DTED_HEADER_BYTES);
        same_intake(kept[i], DTED_HEADER_BYTES);
        if (dted_number(one->intake(year, kept[i], DTED_HEADER_BYTES)) != DTED_CUT)
            differ("good headers are refused");
    }
}

/* The next byte or the one before, which finds the ends of ranges; or mostly one that some field may have. */
static uint8_t other_byte(uint8_t was) {
    static const char often[] = "00112233456789NSEWUCRSAZ ./:";
    if (below(3) == 0)
        return (uint8_t)(below(2) ? was + 1 : was - 1);
    return below(8) ? (uint8_t)often[below(sizeof often - 1)] : (uint8_t)below(256);
}

/* The text of this field in another header; of a corner part at times that of another corner, which may be past its own range. */
static const uint8_t *some_text(const struct field *field) {
    const uint8_t *from = kept[below(KEPT)];
    if (field->good != ONE_OR_TWO || below(2))
        return from + field->at;
    return from + (field->bytes == 7 ? 284 : 291) + 15 * below(4);
}

/* Changes one byte, and gives its offset in the field; or several, and gives 0. */
static size_t spoil(uint8_t *h, const struct field *field) {
    size_t at = below(field->bytes);
    if (below(2)) {
        h[field->at + at] = other_byte(h[field->at + at]);
        return at;
    }
    memcpy(h + field->at, some_text(field), below(4) ? field->bytes : at + 1);
    return 0;
}

static void compare_spoiled(unsigned from, size_t f) {
    const struct field *field = &fields[f];
    uint8_t h[DTED_HEADER_BYTES];
    memcpy(h, kept[from], sizeof h);
    size_t at = spoil(h, field);
    known_year();
    same_intake(h, sizeof h);
    same_post(h, sizeof h, 0, 0);
    dted_answer answer = one->intake(year, h, sizeof h);
    unsigned number = dted_number(answer);
    if (number < 21 || number > 23)
        return;
    answered[from % LEVELS][dted_place(answer)][number] = true;
    if (at > 0 && dted_place(answer) == field->at)
        gave_first[from % LEVELS][f] = true;
}

/* Without these answers the comparison of headers would show less than it says. */
static void check_answered(unsigned level, size_t f) {
    const struct field *field = &fields[f];
    bool impossible = false, other = field->other == 0;
    for (size_t at = field->at; at < field->at + field->bytes; at++) {
        bool *numbers = answered[level][at];
        impossible |= numbers[21];
        other |= numbers[field->other];
        if (field->good != SEVERAL && !numbers[21] && !numbers[22] && !numbers[23])
            differ("a byte of a header field was no refusal's place");
    }
    if (!impossible || !other)
        differ("a header field did not give each refusal that it can");
    if (field->bytes > 1 && field->good != ONE && !gave_first[level][f])
        differ("a field with several good texts was not refused at its first byte");
}

static void compare_fields(void) {
    memset(answered, 0, sizeof answered);
    memset(gave_first, 0, sizeof gave_first);
    keep_headers();
    for (unsigned i = 0; i < TRIES * 5; i++)
        compare_spoiled((unsigned)below(KEPT), i % FIELDS);
    for (unsigned level = 0; level < LEVELS; level++)
        for (size_t f = 0; f < FIELDS; f++)
            check_answered(level, f);
}

/* ---- damage ---- */

static void compare_headers(void) {
    static const uint8_t values[] = {'0', '1', '9', ' ', '/', ':', 'A', 'Z', 'N', 'S', 'E', 'W', 0, 255};
    for (size_t at = 0; at < DTED_HEADER_BYTES; at++)
        for (size_t i = 0; i < sizeof values; i++) {
            uint8_t was = first[at];
            first[at] = values[i];
            same_intake(first, DTED_HEADER_BYTES + 1);
            first[at] = was;
        }
}

static void put_sum(uint8_t *column) {
    uint32_t sum = 0;
    for (size_t i = 0; i < column_bytes - 4; i++)
        sum += column[i];
    for (size_t i = 0; i < 4; i++)
        column[column_bytes - 1 - i] = (uint8_t)(sum >> 8 * i);
}

static bool has_negative_zero(const uint8_t *column) {
    bool found = false;
    for (size_t at = DTED_PREAMBLE_BYTES; at < column_bytes - 4; at += 2)
        found |= column[at] == 0x80 && column[at + 1] == 0;
    return found;
}

/* One byte or word of a column changed, its checksum at times made right again, and what then is answered. */
static void compare_damage(void) {
    static const unsigned words[] = {0x2328, 0x2329, 0xAEE0, 0xAEE1, 0x8000, 0x8001, 0xFFFF, 0x7FFF, 0xFFFE};
    size_t k = below(columns), at = below(column_bytes - 1);
    uint8_t *column = first + DTED_HEADER_BYTES + k * column_bytes;
    if (below(2)) {
        column[at] = (uint8_t)below(256);
    } else {
        unsigned word = words[below(9)];
        at = 8 + 2 * below(121);
        column[at] = (uint8_t)(word >> 8);
        column[at + 1] = (uint8_t)word;
    }
    if (below(4))
        put_sum(column);
    some_year();
    if (negative_zeros || !has_negative_zero(column)) {
        same_intake(first, length);
        same_post(first, length, k, below(123));
    }
    memcpy(first, second, length);
}

static void compare_cuts(void) {
    size_t bytes = below(8) ? below(length + 3) : below(2) ? DTED_HEADER_BYTES - below(2) : length + below(3);
    some_year();
    same_intake(first, bytes);
    same_post(first, bytes, below(columns + 2), below(123));
    same_post(first, bytes, next_random(&seed) << 16, next_random(&seed) << 16);
}

/* Height 0 by the word 8000, which no writer gives, put at some posts of both small cells, and what then is answered. */
static void compare_negative_zeros(void) {
    for (size_t k = 0; k < columns; k++) {
        uint8_t *column = first + DTED_HEADER_BYTES + k * column_bytes;
        for (size_t at = DTED_PREAMBLE_BYTES; at < column_bytes - 4; at += 2)
            if (below(8) == 0) {
                column[at] = 0x80;
                column[at + 1] = 0x00;
            }
        put_sum(column);
    }
    memcpy(second, first, length);
    year = 1; /* a cell that was written in either is good in this one */
    same_intake(first, length);
    if (dted_number(one->intake(year, first, length)) != DTED_OK)
        differ("a cell with the word 8000 is refused");
    for (int i = 0; i < 100; i++)
        same_post(first, length, below(columns), below(121));
}

static void compare_edits(void) {
    uint64_t column = below(columns + 1), post = below(122);
    int64_t height = below(8) ? some_height() : (int64_t)(next_random(&seed) << 16);
    some_year();
    same(one->edit(year, first, length, column, post, height), two->edit(year, second, length, column, post, height), "edit");
    same_bytes(first, second, length, "edited bytes");
}

/* ---- fronts of cells of every level ---- */

/* Good headers and one column of zeros with some voids, which posts and edits judge alone; the cell is complete or partial. */
static size_t make_front(uint8_t *front, const uint8_t *headers, unsigned level) {
    size_t posts = dted_posts(dted_grid(level, 0));
    uint8_t *column = front + DTED_HEADER_BYTES;
    column_bytes = 12 + 2 * posts;
    memcpy(front, headers, DTED_HEADER_BYTES);
    memcpy(front + 369, below(2) ? "00" : "42", 2);
    memset(column, 0, column_bytes);
    column[0] = 170;
    for (uint64_t voids = below(3); voids > 0; voids--)
        memset(column + 8 + 2 * below(posts), 0xFF, 2);
    put_sum(column);
    return DTED_HEADER_BYTES + column_bytes;
}

static void compare_fronts(void) {
    static uint8_t front[DTED_HEADER_BYTES + DTED_LONGEST_COLUMN], other[sizeof front];
    for (unsigned i = 0; i < KEPT; i++) {
        size_t bytes = make_front(front, kept[i], i % LEVELS);
        uint64_t post = below((column_bytes - 12) / 2);
        int64_t height = below(2) ? DTED_VOID : some_height();
        memcpy(other, front, bytes);
        some_year();
        same_intake(front, bytes);
        same_post(front, bytes, 0, post);
        same(one->edit(year, front, bytes, 0, post, height), two->edit(year, other, bytes, 0, post, height), "edit");
        same_bytes(front, other, bytes, "edited bytes");
    }
}

/* ---- every place in a column, at every level ---- */

static void put_word(uint8_t *at, unsigned word) {
    at[0] = (uint8_t)(word >> 8);
    at[1] = (uint8_t)word;
}

/* Some word that may stand in a column; 8000 only where it is tried. */
static unsigned good_word(void) {
    static const unsigned edges[] = {0x2328, 0xAEE0, 0x00FF, 0x22FF, 0xADFF, 0x8001, 0, 0x8000};
    if (below(4))
        return 1 + (unsigned)below(9000) + (below(2) ? 0x8000 : 0);
    return edges[below(negative_zeros ? 8 : 7)];
}

/* A word changed, with the checksum that is then right or with the one before, and back again. */
static void compare_word(uint8_t *front, size_t bytes, size_t post, unsigned word, bool summed) {
    uint8_t *column = front + DTED_HEADER_BYTES, *at = column + DTED_PREAMBLE_BYTES + 2 * post;
    unsigned was = (unsigned)at[0] << 8 | at[1];
    put_word(at, word);
    if (summed)
        put_sum(column);
    same_intake(front, bytes);
    same_post(front, bytes, 0, post);
    put_word(at, was);
    put_sum(column);
}

/* Headers and one column of good words; at each post in turn every bad word and void, a good one with a wrong sum, and a good one. */
static void compare_posts(const uint8_t *headers, unsigned level) {
    static const unsigned bad[] = {0x2329, 0x7FFF, 0xAEE1, 0xFFFE, 0xFFFF};
    static uint8_t front[DTED_HEADER_BYTES + DTED_LONGEST_COLUMN];
    size_t bytes = make_front(front, headers, level), posts = (column_bytes - 12) / 2;
    uint8_t *words = front + DTED_HEADER_BYTES + DTED_PREAMBLE_BYTES;
    for (size_t i = 0; i < posts; i++)
        put_word(words + 2 * i, good_word());
    put_sum(front + DTED_HEADER_BYTES);
    for (size_t i = 0; i < posts; i++) {
        known_year();
        for (size_t k = 0; k < sizeof bad / sizeof *bad; k++)
            compare_word(front, bytes, i, bad[k], true);
        compare_word(front, bytes, i, ((unsigned)words[2 * i] << 8 | words[2 * i + 1]) ^ (below(2) ? 1 : 0x100), false);
        compare_word(front, bytes, i, good_word(), true);
    }
}

/* Heights that are not allowed at the ends of parts, columns and the grid; what was written stays as it is. */
static void compare_bad_heights(uint8_t *wide, size_t posts, size_t column, uint8_t *a, uint8_t *b, size_t bytes) {
    const size_t at[] = {0, 1, column - 1, column, 1023, 1024, posts - column, posts - 2, posts - 1, below(posts)};
    for (size_t i = 0; i < sizeof at / sizeof *at; i++) {
        uint8_t *height = wide + 2 * at[i], was[2] = {height[0], height[1]};
        dted_put_height(height, below(2) ? 9001 : -12001);
        same(one->write(year, a, bytes, items, wide, 2 * posts), two->write(year, b, bytes, items, wide, 2 * posts), "write");
        memcpy(height, was, 2);
    }
    same_bytes(a, b, bytes, "bytes of refused writes");
}

/* Cells of levels 1 and 2, which have whole parts and a rest: of one height throughout and of many, and with one that is not allowed. */
static void compare_wide_writes(unsigned level, int turns) {
    static const int heights[] = {255, -11775, 9000, -12000, 0, DTED_VOID};
    dted_answer laid = dted_grid(level, 0);
    size_t posts = dted_columns(laid) * dted_posts(laid), bytes = dted_cell_length(laid);
    uint8_t *wide = malloc(2 * posts), *a = calloc(bytes, 1), *b = calloc(bytes, 1);
    if (!wide || !a || !b)
        differ("no memory");
    for (int turn = 0; turn < turns; turn++) {
        some_items(0);
        items[DTED_LEVEL] = level;
        known_year();
        for (size_t i = 0; i < posts; i++)
            dted_put_height(wide + 2 * i, turn < 6 ? heights[turn] : good_height(items[DTED_PARTIAL] != 0 && (year == 1 || level == 2)));
        if (turn % 3 == 2)
            dted_put_height(wide + 2 * below(posts), some_height());
        same(one->write(year, a, bytes, items, wide, 2 * posts), two->write(year, b, bytes, items, wide, 2 * posts), "write");
        same_bytes(a, b, bytes, "written bytes");
    }
    compare_bad_heights(wide, posts, dted_posts(laid), a, b, bytes);
    free(wide), free(a), free(b);
}

/* ---- the large cell ---- */

/* Its first column all void, which has the largest sum, and the cell partial: at level 2 that is good in both years. */
static void compare_voids(uint8_t *spare, size_t bytes) {
    uint8_t *column = spare + DTED_HEADER_BYTES;
    memcpy(spare + 369, "01", 2);
    memset(column + DTED_PREAMBLE_BYTES, 0xFF, column_bytes - 12);
    put_sum(column);
    for (year = 1; year <= (years ? 2 : 1); year++) {
        same_intake(spare, bytes);
        same_post(spare, bytes, 0, 0);
        if (dted_number(one->intake(year, spare, bytes)) != DTED_OK)
            differ("a partial cell is refused");
    }
}

static void compare_large(const uint8_t *cell, uint8_t *spare, size_t bytes) {
    known_year();
    dted_answer answer = one->intake(year, cell, bytes);
    same_intake(cell, bytes);
    for (int i = 0; i < TRIES / 10; i++)
        same_post(cell, bytes, below(dted_columns(answer)), below(dted_posts(answer)));
    memcpy(spare, cell, bytes);
    column_bytes = dted_column_length(answer);
    for (size_t at = 1; at <= 16; at++) {
        spare[bytes - at] ^= 0x80;
        same_intake(spare, bytes);
        spare[bytes - at] ^= 0x80;
    }
    compare_voids(spare, bytes);
}

/* Each number is met in both years, but for 17, which is for no year. */
static void check_told(void) {
    for (unsigned number = DTED_SHORT; number <= DTED_YEAR; number++) {
        bool given = number == DTED_YEAR || (number <= DTED_ROOM && number != 2);
        if (given && years && told[0][number] == 0)
            differ("a number was not met in years other than 1");
        if (given && number != DTED_YEAR && told[1][number] == 0)
            differ("a number was not met in year 1");
    }
}

size_t compare(const struct calls *a, const struct calls *b, const uint8_t *large, uint8_t *spare, size_t bytes) {
    one = a;
    two = b;
    negative_zeros = !a->older && !b->older;
    years = !a->yearless && !b->yearless;
    compared = 0;
    memset(told, 0, sizeof told);
    seed = 20261115;
    compare_items();
    compare_refused_writes();
    compare_fields();
    for (int i = 0; i < 10; i++)
        compare_fronts();
    for (unsigned i = 0; i < 2 * LEVELS; i++)
        compare_posts(kept[below(KEPT / LEVELS) * LEVELS + i % LEVELS], i % LEVELS);
    compare_wide_writes(1, 24);
    compare_wide_writes(2, 7);
    for (int latitude = -90; latitude <= 89; latitude++) {
        make_small(latitude);
        if (latitude % 20 == 0)
            compare_headers();
        for (int i = 0; i < TRIES / 180; i++) {
            compare_damage();
            compare_cuts();
        }
        if (negative_zeros && latitude % 2 == 0)
            compare_negative_zeros();
        for (int i = 0; i < TRIES / 180; i++)
            compare_edits();
    }
    compare_large(large, spare, bytes);
    check_told();
    return compared;
}
