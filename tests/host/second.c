/* second.c - an independent second reader and writer of DTED cells: slow, plain, and written from the scope paper alone.
 *
 * Where the paper has a table, there is a table here; where it has a sentence, a loop that tries every case. Texts are made with
 * snprintf and compared, checksums are added up afresh, the nearest post is found by measuring the way to each. What a header field
 * may ever hold is the set of texts that the writer below puts there, over all that can be described.
 */
#include "second.h"

#include <stdarg.h>
#include <stdbool.h>
#include <stdio.h>
#include <string.h>

#define DEGREE 36000 /* tenths of an arc-second */
#define HEADERS 3428
#define MOST_POSTS 3601
#define VOID (-32767)
#define ITEMS 13

/* ---- answers ---- */

static uint64_t refused(unsigned number, uint64_t place) {
    return ((uint64_t)number << 56) + place;
}

static bool is_refused(uint64_t answer) {
    return answer >= (uint64_t)1 << 56;
}

/* What an accepted answer holds; one that holds nothing is 0. */
enum holds { GRID = 1, HEIGHT = 2, POSITION = 3 };

static uint64_t three(enum holds what, uint64_t high, uint64_t middle, int low) {
    return what * 0x1000000000000u + high * 0x100000000u + middle * 0x10000u + (uint16_t)low;
}

/* ---- levels and zones: the paper's tables ---- */

static const struct zone {
    int from, to, factor;
    int columns[3];
} zones[5] = {
    {0, 49, 1, {121, 1201, 3601}},
    {50, 69, 2, {61, 601, 1801}},
    {70, 74, 3, {41, 401, 1201}},
    {75, 79, 4, {31, 301, 901}},
    {80, 89, 6, {21, 201, 601}},
};
static const int latitude_intervals[3] = {300, 30, 10};
static const int posts_of_level[3] = {121, 1201, 3601};
static const size_t column_bytes_of_level[3] = {254, 2414, 7214};

/* The zone by the parallel nearer the equator: of a southern cell that is its northern edge. */
static const struct zone *zone_of(int latitude) {
    int south = latitude, north = latitude + 1;
    int near = south >= 0 ? south : -north;
    for (int z = 0; z < 5; z++)
        if (zones[z].from <= near && near <= zones[z].to)
            return &zones[z];
    return NULL;
}

/* ---- header fields ---- */

enum record { UHL = 0, DSI = 80, ACC = 728 };

/* What the headers said so far; each field is judged with what the fields before it said. */
struct reading {
    int level, latitude, longitude;
    int latitude_interval, longitude_interval, columns, posts;
    size_t column_bytes;
    char security, version;
    int edition, partial;
    bool e96;
    int accuracies[5];
    bool voids; /* whether voids are allowed, in the year that the call names */
};

static bool is(const struct text *text, const char *due) {
    return strlen(due) == text->count && memcmp(due, text->bytes, text->count) == 0;
}

/* The same for a text with numbers in it. */
static bool says(const struct text *text, const char *format, ...) {
    char due[32];
    va_list list;
    va_start(list, format);
    vsnprintf(due, sizeof due, format, list);
    va_end(list);
    return is(text, due);
}

/* The number that some digits write, or -1 where one of them is no digit. */
static int number_in(const struct text *text, size_t from, size_t count) {
    int number = 0;
    for (size_t i = from; i < from + count; i++) {
        const char *digit = memchr("0123456789", text->bytes[i], 10);
        if (digit == NULL)
            return -1;
        number = number * 10 + (text->bytes[i] - '0');
    }
    return number;
}

static char letter_of(int degrees, const char *letters) {
    return degrees < 0 ? letters[1] : letters[0];
}

static int size_of(int degrees) {
    return degrees < 0 ? -degrees : degrees;
}

/* An origin's text is right if it is the text of one of the degrees from `least` on: so each origin has one name. */
static bool origin(const struct text *text, const char *letters, int least, int *degrees) {
    int size = number_in(text, 0, 3);
    for (int sign = -1; sign <= 1; sign += 2) {
        int tried = sign * size;
        if (size >= 0 && least <= tried && tried < -least &&
            says(text, "%03d0000%c", size_of(tried), letter_of(tried, letters))) {
            *degrees = tried;
            return true;
        }
    }
    return false;
}

static bool accuracy(const struct text *text, int *metres) {
    *metres = number_in(text, 0, 4); /* -1 says not available, too */
    return *metres >= 0 || is(text, "NA  ");
}

/* A corner's text with the letter of its side; with the other letter too at 0 degrees, and at the angle `either`. */
static bool corner(const struct text *text, int digits, int degrees, const char *letters, int either) {
    bool free_letter = degrees == 0 || size_of(degrees) == either;
    return says(text, "%0*d0000%c", digits, size_of(degrees), letter_of(degrees, letters)) ||
           (free_letter && says(text, "%0*d0000%c", digits, size_of(degrees), letters[0])) ||
           (free_letter && says(text, "%0*d0000%c", digits, size_of(degrees), letters[1]));
}

static bool corner_latitude(const struct text *text, int degrees) {
    return corner(text, 2, degrees, "NS", 0);
}

static bool corner_longitude(const struct text *text, int degrees) {
    return corner(text, 3, degrees, "EW", 180);
}

static bool uhl_mark(const struct text *t, struct reading *r) { (void)r; return is(t, "UHL1"); }
static bool uhl_longitude(const struct text *t, struct reading *r) { return origin(t, "EW", -180, &r->longitude); }
static bool uhl_latitude(const struct text *t, struct reading *r) { return origin(t, "NS", -90, &r->latitude); }

/* This field fixes the level, and with the origin latitude all the sizes. */
static bool uhl_latitude_interval(const struct text *t, struct reading *r) {
    for (int level = 0; level < 3; level++)
        if (says(t, "%04d", latitude_intervals[level])) {
            const struct zone *zone = zone_of(r->latitude);
            r->level = level;
            r->latitude_interval = latitude_intervals[level];
            r->longitude_interval = latitude_intervals[level] * zone->factor;
            r->columns = zone->columns[level];
            r->posts = posts_of_level[level];
            r->column_bytes = column_bytes_of_level[level];
            return true;
        }
    return false;
}

static bool uhl_accuracy(const struct text *t, struct reading *r) { return accuracy(t, &r->accuracies[0]); }

static bool uhl_security(const struct text *t, struct reading *r) {
    r->security = t->bytes[0];
    return is(t, "S  ") || is(t, "C  ") || is(t, "U  ") || is(t, "R  ");
}

static bool uhl_last(const struct text *t, struct reading *r) { (void)r; return is(t, "0"); }
static bool dsi_mark(const struct text *t, struct reading *r) { (void)r; return is(t, "DSI"); }
static bool dsi_security(const struct text *t, struct reading *r) { return t->bytes[0] == r->security; }
static bool dsi_series(const struct text *t, struct reading *r) { return says(t, "DTED%d", r->level); }

static bool dsi_edition(const struct text *t, struct reading *r) {
    r->edition = number_in(t, 0, 2);
    return r->edition >= 1;
}

static bool dsi_version(const struct text *t, struct reading *r) {
    r->version = t->bytes[0];
    return memchr("ABCDEFGHIJKLMNOPQRSTUVWXYZ", r->version, 26) != NULL;
}

static bool dsi_specification(const struct text *t, struct reading *r) { (void)r; return is(t, "PRF89020B"); }

static bool dsi_vertical(const struct text *t, struct reading *r) {
    r->e96 = is(t, "E96");
    return r->e96 || is(t, "MSL");
}

static bool dsi_horizontal(const struct text *t, struct reading *r) { (void)r; return is(t, "WGS84"); }

static bool dsi_latitude(const struct text *t, struct reading *r) {
    return says(t, "%02d0000.0%c", size_of(r->latitude), letter_of(r->latitude, "NS"));
}

static bool dsi_longitude(const struct text *t, struct reading *r) {
    return says(t, "%03d0000.0%c", size_of(r->longitude), letter_of(r->longitude, "EW"));
}

static bool south(const struct text *t, struct reading *r) { return corner_latitude(t, r->latitude); }
static bool north(const struct text *t, struct reading *r) { return corner_latitude(t, r->latitude + 1); }
static bool west(const struct text *t, struct reading *r) { return corner_longitude(t, r->longitude); }
static bool east(const struct text *t, struct reading *r) { return corner_longitude(t, r->longitude + 1); }
static bool dsi_orientation(const struct text *t, struct reading *r) { (void)r; return is(t, "0000000.0"); }
static bool latitude_interval(const struct text *t, struct reading *r) { return says(t, "%04d", r->latitude_interval); }
static bool longitude_interval(const struct text *t, struct reading *r) { return says(t, "%04d", r->longitude_interval); }
static bool columns(const struct text *t, struct reading *r) { return says(t, "%04d", r->columns); }
static bool posts(const struct text *t, struct reading *r) { return says(t, "%04d", r->posts); }

static bool dsi_partial(const struct text *t, struct reading *r) {
    r->partial = number_in(t, 0, 2);
    return r->partial >= 0;
}

static bool acc_mark(const struct text *t, struct reading *r) { (void)r; return is(t, "ACC"); }
static bool acc_first(const struct text *t, struct reading *r) { return accuracy(t, &r->accuracies[1]); }
static bool acc_second(const struct text *t, struct reading *r) { return accuracy(t, &r->accuracies[2]); }
static bool acc_third(const struct text *t, struct reading *r) { return accuracy(t, &r->accuracies[3]); }
static bool acc_fourth(const struct text *t, struct reading *r) { return accuracy(t, &r->accuracies[4]); }
static bool acc_outlines(const struct text *t, struct reading *r) { (void)r; return is(t, "00"); }

/* The paper's table of fields, in the order in which they are judged; positions count from 1, as there. Where a field's bytes are
 * good elsewhere it goes against the level and zone table, if it is an interval or a count, or else against another field. */
enum against { ANOTHER_FIELD = 22, THE_TABLE = 23 };

static const struct field {
    enum record record;
    unsigned first, last;
    bool (*right)(const struct text *, struct reading *);
    enum against against;
} fields[SECOND_FIELDS] = {
    {UHL, 1, 4, uhl_mark, ANOTHER_FIELD},
    {UHL, 5, 12, uhl_longitude, ANOTHER_FIELD},
    {UHL, 13, 20, uhl_latitude, ANOTHER_FIELD},
    {UHL, 25, 28, uhl_latitude_interval, ANOTHER_FIELD},
    {UHL, 21, 24, longitude_interval, THE_TABLE},
    {UHL, 29, 32, uhl_accuracy, ANOTHER_FIELD},
    {UHL, 33, 35, uhl_security, ANOTHER_FIELD},
    {UHL, 48, 51, columns, THE_TABLE},
    {UHL, 52, 55, posts, THE_TABLE},
    {UHL, 56, 56, uhl_last, ANOTHER_FIELD},
    {DSI, 1, 3, dsi_mark, ANOTHER_FIELD},
    {DSI, 4, 4, dsi_security, ANOTHER_FIELD},
    {DSI, 60, 64, dsi_series, ANOTHER_FIELD},
    {DSI, 88, 89, dsi_edition, ANOTHER_FIELD},
    {DSI, 90, 90, dsi_version, ANOTHER_FIELD},
    {DSI, 127, 135, dsi_specification, ANOTHER_FIELD},
    {DSI, 142, 144, dsi_vertical, ANOTHER_FIELD},
    {DSI, 145, 149, dsi_horizontal, ANOTHER_FIELD},
    {DSI, 186, 194, dsi_latitude, ANOTHER_FIELD},
    {DSI, 195, 204, dsi_longitude, ANOTHER_FIELD},
    {DSI, 205, 211, south, ANOTHER_FIELD},
    {DSI, 212, 219, west, ANOTHER_FIELD},
    {DSI, 220, 226, north, ANOTHER_FIELD},
    {DSI, 227, 234, west, ANOTHER_FIELD},
    {DSI, 235, 241, north, ANOTHER_FIELD},
    {DSI, 242, 249, east, ANOTHER_FIELD},
    {DSI, 250, 256, south, ANOTHER_FIELD},
    {DSI, 257, 264, east, ANOTHER_FIELD},
    {DSI, 265, 273, dsi_orientation, ANOTHER_FIELD},
    {DSI, 274, 277, latitude_interval, THE_TABLE},
    {DSI, 278, 281, longitude_interval, THE_TABLE},
    {DSI, 282, 285, posts, THE_TABLE},
    {DSI, 286, 289, columns, THE_TABLE},
    {DSI, 290, 291, dsi_partial, ANOTHER_FIELD},
    {ACC, 1, 3, acc_mark, ANOTHER_FIELD},
    {ACC, 4, 7, acc_first, ANOTHER_FIELD},
    {ACC, 8, 11, acc_second, ANOTHER_FIELD},
    {ACC, 12, 15, acc_third, ANOTHER_FIELD},
    {ACC, 16, 19, acc_fourth, ANOTHER_FIELD},
    {ACC, 56, 57, acc_outlines, ANOTHER_FIELD},
};

static size_t offset_of(size_t f) {
    return (size_t)fields[f].record + fields[f].first - 1;
}

static struct text text_in(const uint8_t *headers, size_t f) {
    struct text text = {{0}, fields[f].last - fields[f].first + 1};
    memcpy(text.bytes, headers + offset_of(f), text.count);
    return text;
}

/* ---- what a field may ever hold ---- */

static bool item_allowed(int item, int64_t value);

static struct texts possible[SECOND_FIELDS];

static void add_fields(const uint8_t *headers) {
    for (size_t f = 0; f < SECOND_FIELDS; f++) {
        struct text text = text_in(headers, f);
        texts_add(&possible[f], &text);
    }
}

/* The other letter, where a corner's part is at 0 degrees or at the angle `either`. */
static void change_letter(uint8_t *part, const char *zero, const char *either, const char *letters) {
    size_t digits = strlen(zero);
    uint8_t *letter = part + digits + 4;
    if (memcmp(part, zero, digits) == 0 || memcmp(part, either, digits) == 0)
        *letter = (uint8_t)(*letter == letters[0] ? letters[1] : letters[0]);
}

/* The headers of these items, as they are written and with the other letter in each corner that may have it. */
static void add_headers(const int64_t *items) {
    uint8_t headers[HEADERS];
    second_headers(headers, items);
    add_fields(headers);
    for (size_t corner = DSI + 204; corner < DSI + 264; corner += 15) {
        change_letter(headers + corner, "00", "00", "NS");
        change_letter(headers + corner + 7, "000", "180", "EW");
    }
    add_fields(headers);
}

/* No field is made of more than level and latitude together, or of one other item: so each of those takes its values by itself. */
static void add_all_headers(void) {
    static const int64_t plain[ITEMS] = {0, 1, 1, 'S', 1, 'A', 0, 0, 0, 0, 0, 0, 0};
    int64_t items[ITEMS];
    memcpy(items, plain, sizeof items);
    for (items[0] = 0; items[0] <= 2; items[0]++)
        for (items[1] = -90; items[1] <= 89; items[1]++)
            add_headers(items);
    for (int64_t value = -180; value <= 9999; value++) {
        memcpy(items, plain, sizeof items);
        for (int item = 3; item <= ITEMS; item++)
            if (item_allowed(item, value))
                items[item - 1] = value;
        add_headers(items);
    }
}

const struct texts *second_possible(size_t f) {
    if (possible[f].count == 0) {
        add_all_headers();
        for (size_t each = 0; each < SECOND_FIELDS; each++)
            texts_close(&possible[each]);
    }
    return &possible[f];
}

/* ---- a refused field ---- */

/* How many texts would have passed in a field, given what the fields before it said, and which one if it is alone. Kept from the
 * last time, since case after case asks the same. */
static struct due {
    struct reading before;
    size_t passing; /* 2: two or more */
    struct text text;
} dues[SECOND_FIELDS];

static const struct due *due_in(size_t f, const struct reading *before) {
    const struct texts *tried = second_possible(f);
    struct due *due = &dues[f];
    if (due->passing > 0 && memcmp(&due->before, before, sizeof *before) == 0)
        return due;
    memcpy(&due->before, before, sizeof *before);
    due->passing = 0;
    for (size_t i = 0; i < tried->count && due->passing < 2; i++) {
        struct reading reading;
        memcpy(&reading, before, sizeof reading);
        if (fields[f].right(&tried->list[i], &reading)) {
            due->text = tried->list[i];
            due->passing++;
        }
    }
    return due;
}

/* The number by whether any header has these bytes there; the place by how many texts would have passed. */
static uint64_t refused_field(size_t f, const struct text *text, const struct reading *before) {
    unsigned number = texts_have(second_possible(f), text) ? fields[f].against : 21;
    const struct due *due = due_in(f, before);
    size_t at = 0;
    while (due->passing == 1 && due->text.bytes[at] == text->bytes[at])
        at++;
    return refused(number, offset_of(f) + at);
}

static uint64_t read_headers(const uint8_t *cell, size_t length, struct reading *reading) {
    memset(reading, 0, sizeof *reading);
    if (length < HEADERS)
        return refused(1, length);
    for (size_t f = 0; f < SECOND_FIELDS; f++) {
        struct text text = text_in(cell, f);
        struct reading before;
        memcpy(&before, reading, sizeof before);
        if (!fields[f].right(&text, reading))
            return refused_field(f, &text, &before);
    }
    return 0;
}

/* ---- rule years ---- */

/* The first thing that a call judges which names a year. */
static uint64_t judge_year(uint32_t year) {
    return year == 1 || year == 2 ? 0 : refused(17, year);
}

/* In year 1 a partial cell of any level may hold voids, in year 2 one of level 2 alone. */
static bool voids_allowed(uint32_t year, const struct reading *r) {
    return r->partial != 0 && (year == 1 || r->level == 2);
}

static uint64_t read_under(uint32_t year, const uint8_t *cell, size_t length, struct reading *reading) {
    memset(reading, 0, sizeof *reading);
    uint64_t answer = judge_year(year);
    if (is_refused(answer))
        return answer;
    answer = read_headers(cell, length, reading);
    reading->voids = voids_allowed(year, reading);
    return answer;
}

/* ---- posts ---- */

/* The height that a post word says; false where no cell may hold the word. 8000, minus nothing, says 0 as 0000 does. */
static bool height_of_word(const uint8_t *word, bool voids, int *height) {
    int magnitude = (word[0] % 128) * 256 + word[1];
    bool minus = word[0] >= 128;
    *height = minus ? -magnitude : magnitude;
    if (minus && magnitude == 0x7FFF)
        return voids;
    return -12000 <= *height && *height <= 9000;
}

static void put_word(uint8_t *word, int height) {
    int size = size_of(height); /* void is sign and all ones, which is what -32767 makes */
    word[0] = (uint8_t)(size / 256 + (height < 0 ? 128 : 0));
    word[1] = (uint8_t)(size % 256);
}

static bool height_allowed(int64_t height, bool voids) {
    return (voids && height == VOID) || (-12000 <= height && height <= 9000);
}

/* A caller's grid is two's complement words. */
static int height_in_grid(const uint8_t *grid, size_t index) {
    int value = grid[2 * index] * 256 + grid[2 * index + 1];
    return value >= 32768 ? value - 65536 : value;
}

/* ---- columns ---- */

static uint64_t number_at(const uint8_t *bytes, size_t count) {
    uint64_t number = 0;
    for (size_t i = 0; i < count; i++)
        number = number * 256 + bytes[i];
    return number;
}

static void put_number(uint8_t *bytes, size_t count, uint64_t number) {
    for (size_t i = count; i > 0; i--, number /= 256)
        bytes[i - 1] = (uint8_t)(number % 256);
}

static uint64_t sum_of(const uint8_t *bytes, size_t count) {
    uint64_t sum = 0;
    for (size_t i = 0; i < count; i++)
        sum += bytes[i];
    return sum;
}

static uint64_t judge_column(const uint8_t *cell, size_t length, const struct reading *r, size_t k) {
    size_t start = HEADERS + k * r->column_bytes;
    size_t checksum = start + r->column_bytes - 4;
    int height;
    if (start + r->column_bytes > length)
        return refused(3, start);
    if (cell[start] != 170)
        return refused(4, start);
    if (number_at(cell + start + 1, 3) != k)
        return refused(4, start + 1);
    if (number_at(cell + start + 4, 2) != k)
        return refused(4, start + 4);
    if (number_at(cell + start + 6, 2) != 0)
        return refused(4, start + 6);
    if (number_at(cell + checksum, 4) != sum_of(cell + start, r->column_bytes - 4))
        return refused(5, checksum);
    for (size_t word = start + 8; word < checksum; word += 2)
        if (!height_of_word(cell + word, r->voids, &height))
            return refused(6, word);
    return 0;
}

/* One column from its heights, which are known to be allowed. */
static void make_column(uint8_t *column, size_t number, const int *heights, size_t count) {
    column[0] = 170;
    put_number(column + 1, 3, number);
    put_number(column + 4, 2, number);
    put_number(column + 6, 2, 0);
    for (size_t p = 0; p < count; p++)
        put_word(column + 8 + 2 * p, heights[p]);
    put_number(column + 8 + 2 * count, 4, sum_of(column, 8 + 2 * count));
}

/* ---- calls on a cell ---- */

uint64_t second_intake(uint32_t year, const uint8_t *cell, size_t length) {
    struct reading r;
    uint64_t answer = read_under(year, cell, length, &r);
    for (int k = 0; k < r.columns && !is_refused(answer); k++)
        answer = judge_column(cell, length, &r, (size_t)k);
    if (is_refused(answer))
        return answer;
    size_t due = HEADERS + (size_t)r.columns * r.column_bytes;
    return length > due ? refused(7, due) : three(GRID, (uint64_t)r.level, (uint64_t)r.columns, r.posts);
}

uint64_t second_describe(const uint8_t *cell, size_t length, int64_t *items) {
    struct reading r;
    uint64_t answer = read_headers(cell, length, &r);
    if (is_refused(answer))
        return answer;
    const int64_t told[ITEMS] = {
        r.level, r.latitude, r.longitude, r.security, r.edition, r.version, r.e96 ? 1 : 0,
        r.accuracies[0], r.accuracies[1], r.accuracies[2], r.accuracies[3], r.accuracies[4], r.partial,
    };
    memcpy(items, told, sizeof told);
    return 0;
}

/* What lookups and the edit judge: the headers, the index, and the addressed column alone. */
static uint64_t judge_post(uint32_t year, const uint8_t *cell, size_t length, uint64_t column, uint64_t post,
                           struct reading *r) {
    uint64_t answer = read_under(year, cell, length, r);
    if (is_refused(answer))
        return answer;
    if (column >= (uint64_t)r->columns || post >= (uint64_t)r->posts)
        return refused(8, 0);
    return judge_column(cell, length, r, (size_t)column);
}

static int height_at(const uint8_t *cell, const struct reading *r, uint64_t column, uint64_t post) {
    int height;
    height_of_word(cell + HEADERS + (size_t)column * r->column_bytes + 8 + 2 * (size_t)post, true, &height);
    return height;
}

uint64_t second_post(uint32_t year, const uint8_t *cell, size_t length, uint64_t column, uint64_t post) {
    struct reading r;
    uint64_t answer = judge_post(year, cell, length, column, post, &r);
    return is_refused(answer) ? answer : three(HEIGHT, 0, 0, height_at(cell, &r, column, post));
}

/* The nearest of `count` marks from `first` on, each `step` further; the earlier of two equally near. */
static uint64_t nearest(int64_t where, int64_t first, int64_t step, int count) {
    uint64_t best = 0;
    int64_t least = INT64_MAX;
    for (int i = 0; i < count; i++) {
        int64_t mark = first + i * step;
        int64_t way = mark < where ? where - mark : mark - where;
        if (way < least) {
            least = way;
            best = (uint64_t)i;
        }
    }
    return best;
}

static bool within(int64_t where, int64_t degrees) {
    return degrees * DEGREE <= where && where <= (degrees + 1) * DEGREE;
}

uint64_t second_position(uint32_t year, const uint8_t *cell, size_t length, int64_t latitude, int64_t longitude) {
    struct reading r;
    uint64_t answer = read_under(year, cell, length, &r);
    if (is_refused(answer))
        return answer;
    /* the 180th meridian has two names: the one that this cell uses will do */
    if ((longitude == 180 * DEGREE || longitude == -180 * DEGREE) && !within(longitude, r.longitude))
        longitude = -longitude;
    if (!within(latitude, r.latitude) || !within(longitude, r.longitude))
        return refused(8, 0);
    uint64_t column = nearest(longitude, (int64_t)r.longitude * DEGREE, r.longitude_interval, r.columns);
    uint64_t post = nearest(latitude, (int64_t)r.latitude * DEGREE, r.latitude_interval, r.posts);
    answer = judge_column(cell, length, &r, (size_t)column);
    return is_refused(answer) ? answer : three(POSITION, column, post, height_at(cell, &r, column, post));
}

/* An edit replaces the post's word by the writer's and the checksum by the column's new sum; all other bytes stay, other words for
 * the same heights too. */
uint64_t second_edit(uint32_t year, uint8_t *cell, size_t length, uint64_t column, uint64_t post, int64_t height) {
    struct reading r;
    uint64_t answer = judge_post(year, cell, length, column, post, &r);
    if (is_refused(answer))
        return answer;
    if (!height_allowed(height, r.voids))
        return refused(11, 0);
    uint8_t *start = cell + HEADERS + (size_t)column * r.column_bytes;
    size_t summed = r.column_bytes - 4;
    put_word(start + 8 + 2 * (size_t)post, (int)height);
    put_number(start + summed, 4, sum_of(start, summed));
    return 0;
}

/* ---- writers ---- */

uint64_t second_grid(uint64_t level, int64_t latitude) {
    if (level > 2)
        return refused(9, 1);
    if (latitude < -90 || latitude > 89)
        return refused(9, 2);
    return three(GRID, level, (uint64_t)zone_of((int)latitude)->columns[level], posts_of_level[level]);
}

static bool in_range(int64_t value, int64_t least, int64_t most) {
    return least <= value && value <= most;
}

static bool item_allowed(int item, int64_t value) {
    switch (item) {
    case 1: return in_range(value, 0, 2);
    case 2: return in_range(value, -90, 89);
    case 3: return in_range(value, -180, 179);
    case 4: return value == 'S' || value == 'C' || value == 'U' || value == 'R';
    case 5: return in_range(value, 1, 99);
    case 6: return in_range(value, 'A', 'Z');
    case 7: return in_range(value, 0, 1);
    case 13: return in_range(value, 0, 99);
    default: return in_range(value, -1, 9999); /* -1: not available */
    }
}

static void put(uint8_t *cell, enum record record, unsigned position, const char *format, ...) {
    char text[32];
    va_list list;
    va_start(list, format);
    int count = vsnprintf(text, sizeof text, format, list);
    va_end(list);
    if (count > 0 && (size_t)count < sizeof text)
        memcpy(cell + record + position - 1, text, (size_t)count);
}

static void put_accuracy(uint8_t *cell, enum record record, unsigned position, int metres) {
    if (metres < 0)
        put(cell, record, position, "NA  ");
    else
        put(cell, record, position, "%04d", metres);
}

static void put_corner(uint8_t *cell, unsigned position, int latitude, int longitude) {
    put(cell, DSI, position, "%02d0000%c", size_of(latitude), letter_of(latitude, "NS"));
    put(cell, DSI, position + 7, "%03d0000%c", size_of(longitude), letter_of(longitude, "EW"));
}

static void make_uhl(uint8_t *cell, const struct reading *r) {
    put(cell, UHL, 1, "UHL1");
    put(cell, UHL, 5, "%03d0000%c", size_of(r->longitude), letter_of(r->longitude, "EW"));
    put(cell, UHL, 13, "%03d0000%c", size_of(r->latitude), letter_of(r->latitude, "NS"));
    put(cell, UHL, 21, "%04d%04d", r->longitude_interval, r->latitude_interval);
    put_accuracy(cell, UHL, 29, r->accuracies[0]);
    put(cell, UHL, 33, "%c  ", r->security);
    put(cell, UHL, 48, "%04d%04d0", r->columns, r->posts);
}

static void make_dsi(uint8_t *cell, const struct reading *r) {
    put(cell, DSI, 1, "DSI%c", r->security);
    put(cell, DSI, 60, "DTED%d", r->level);
    put(cell, DSI, 65, "000000000000000");
    put(cell, DSI, 88, "%02d%c", r->edition, r->version);
    put(cell, DSI, 91, "000000000000");
    put(cell, DSI, 127, "PRF89020B");
    put(cell, DSI, 136, "000005");
    put(cell, DSI, 142, "%sWGS84", r->e96 ? "E96" : "MSL");
    put(cell, DSI, 160, "0000");
    put(cell, DSI, 186, "%02d0000.0%c", size_of(r->latitude), letter_of(r->latitude, "NS"));
    put(cell, DSI, 195, "%03d0000.0%c", size_of(r->longitude), letter_of(r->longitude, "EW"));
    put_corner(cell, 205, r->latitude, r->longitude);
    put_corner(cell, 220, r->latitude + 1, r->longitude);
    put_corner(cell, 235, r->latitude + 1, r->longitude + 1);
    put_corner(cell, 250, r->latitude, r->longitude + 1);
    put(cell, DSI, 265, "0000000.0");
    put(cell, DSI, 274, "%04d%04d", r->latitude_interval, r->longitude_interval);
    put(cell, DSI, 282, "%04d%04d", r->posts, r->columns);
    put(cell, DSI, 290, "%02d", r->partial);
}

static void make_acc(uint8_t *cell, const struct reading *r) {
    put(cell, ACC, 1, "ACC");
    for (unsigned i = 0; i < 4; i++)
        put_accuracy(cell, ACC, 4 + 4 * i, r->accuracies[1 + i]);
    put(cell, ACC, 56, "00");
}

/* What headers of these items, known to be allowed, say. */
static struct reading reading_of(const int64_t *items) {
    struct reading r = {0};
    r.level = (int)items[0];
    r.latitude = (int)items[1];
    r.longitude = (int)items[2];
    r.security = (char)items[3];
    r.edition = (int)items[4];
    r.version = (char)items[5];
    r.e96 = items[6] == 1;
    for (int i = 0; i < 5; i++)
        r.accuracies[i] = (int)items[7 + i];
    r.partial = (int)items[12];
    r.latitude_interval = latitude_intervals[r.level];
    r.longitude_interval = r.latitude_interval * zone_of(r.latitude)->factor;
    r.columns = zone_of(r.latitude)->columns[r.level];
    r.posts = posts_of_level[r.level];
    r.column_bytes = column_bytes_of_level[r.level];
    return r;
}

void second_headers(uint8_t *out, const int64_t *items) {
    struct reading r = reading_of(items);
    memset(out, ' ', HEADERS);
    make_uhl(out, &r);
    make_dsi(out, &r);
    make_acc(out, &r);
}

/* Length, heights and room: the part of the order that both writers have. */
static uint64_t judge_grid(const uint8_t *grid, size_t bytes, size_t due, bool voids, size_t room, size_t room_due) {
    if (bytes != 2 * due)
        return refused(10, due);
    for (size_t i = 0; i < due; i++)
        if (!height_allowed(height_in_grid(grid, i), voids))
            return refused(11, i);
    return room < room_due ? refused(12, room_due) : 0;
}

static void column_from_grid(uint8_t *column, size_t number, const uint8_t *grid, size_t first, size_t count) {
    int heights[MOST_POSTS];
    for (size_t p = 0; p < count; p++)
        heights[p] = height_in_grid(grid, first + p);
    make_column(column, number, heights, count);
}

uint64_t second_write(uint32_t year, uint8_t *out, size_t room, const int64_t *items, const uint8_t *grid, size_t bytes) {
    uint64_t answer = judge_year(year);
    for (int item = 1; item <= ITEMS && !is_refused(answer); item++)
        if (!item_allowed(item, items[item - 1]))
            answer = refused(9, (uint64_t)item);
    if (is_refused(answer))
        return answer;
    struct reading r = reading_of(items);
    size_t columns_due = (size_t)r.columns, posts_due = (size_t)r.posts;
    answer = judge_grid(grid, bytes, columns_due * posts_due, voids_allowed(year, &r), room,
                        HEADERS + columns_due * r.column_bytes);
    if (is_refused(answer))
        return answer;
    second_headers(out, items);
    for (size_t k = 0; k < columns_due; k++)
        column_from_grid(out + HEADERS + k * r.column_bytes, k, grid, k * posts_due, posts_due);
    return 0;
}

uint64_t second_write_column(uint8_t *out, size_t room, uint64_t level, uint64_t number, const uint8_t *posts_given,
                             size_t bytes) {
    if (level > 2)
        return refused(9, 1);
    if (number >= (uint64_t)zones[0].columns[level])
        return refused(8, 0);
    size_t due = (size_t)posts_of_level[level];
    uint64_t answer = judge_grid(posts_given, bytes, due, true, room, column_bytes_of_level[level]);
    if (!is_refused(answer))
        column_from_grid(out, (size_t)number, posts_given, 0, due);
    return answer;
}
