/* tool.c - a small host of the library for the tests against GDAL: writes, judges, reads and edits cells kept in files.
 *
 *   tool YEAR write LEVEL LATITUDE LONGITUDE OUT SEED   writes a cell; the seed settles its items and heights
 *   tool YEAR posts FILE                                every post as it stands in an accepted cell, 16 bits, high byte first
 *   tool YEAR lookups FILE EVERY                        the same for each EVERYth column, by lookup of each post
 *   tool YEAR judge FILE                                accepted LEVEL COLUMNS POSTS, or refused NUMBER PLACE
 *   tool YEAR describe FILE                             the thirteen items on one line, or refused NUMBER PLACE; of no year
 *   tool YEAR position FILE                             for each line LATITUDE LONGITUDE of standard input, in tenths of seconds:
 *                                                       COLUMN POST HEIGHT of the nearest post, or refused NUMBER PLACE
 *   tool YEAR edit FILE COLUMN POST HEIGHT              edits in place; prints where it was refused
 *
 * It ends with 0 where the library did not refuse, 1 where it did, 2 where the command or a file is at fault.
 */
#include "dted.h"

#include <inttypes.h>
#include <stdio.h>
#include <stdlib.h>
#include <string.h>

/* A whole file, or the grid of a cell. */
struct bytes {
    uint8_t *at;
    size_t length;
};

/* The rule year that the calls name. */
static uint32_t year;

static void fail(const char *what) {
    fprintf(stderr, "tool: %s\n", what);
    exit(2);
}

static struct bytes room_for(size_t length) {
    struct bytes room = {malloc(length + 1), length};
    if (room.at == NULL)
        fail("out of memory");
    return room;
}

/* ---- files ---- */

static struct bytes read_file(const char *path) {
    FILE *file = fopen(path, "rb");
    if (file == NULL || fseek(file, 0, SEEK_END) != 0)
        fail(path);
    struct bytes whole = room_for((size_t)ftell(file));
    rewind(file);
    if (fread(whole.at, 1, whole.length, file) != whole.length)
        fail(path);
    fclose(file);
    return whole;
}

static void write_file(const char *path, struct bytes whole) {
    FILE *file = fopen(path, "wb");
    if (file == NULL || fwrite(whole.at, 1, whole.length, file) != whole.length || fclose(file) != 0)
        fail(path);
}

/* ---- answers ---- */

/* Prints a refusal; 1 where there was one. */
static int refused(dted_answer answer) {
    if (dted_number(answer) == DTED_OK)
        return 0;
    printf("refused %u %" PRIu64 "\n", dted_number(answer), dted_place(answer));
    return 1;
}

/* ---- what a seed settles: interop.py says the same in Python ---- */

static uint32_t mixed(uint32_t seed, uint32_t column, uint32_t post) {
    uint32_t x = seed * 2654435761u ^ (column * 40503u + post) * 2246822519u;
    x ^= x >> 15;
    x *= 3266489917u;
    return x ^ x >> 16;
}

/* Heights of the whole range; where the cell is partial, one post in thirteen is void. */
static int height_of(uint32_t seed, int partial, uint32_t column, uint32_t post) {
    uint32_t x = mixed(seed, column, post);
    if (partial != 0 && x % 13 == 0)
        return DTED_VOID;
    return (int)(x % 21001) - 12000;
}

/* An accuracy, not available for one seed in three. */
static int64_t accuracy_of(uint32_t seed, uint32_t item) {
    uint32_t x = mixed(seed, 9999, item);
    return x % 3 == 0 ? DTED_NOT_AVAILABLE : (int64_t)(x % 10000);
}

static void items_of(uint32_t seed, int64_t *items) {
    items[DTED_SECURITY] = "SCUR"[seed % 4];
    items[DTED_EDITION] = 1 + seed * 7 % 99;
    items[DTED_MATCH_VERSION] = 'A' + seed * 5 % 26;
    items[DTED_DATUM] = seed / 2 % 2 == 0 ? DTED_MSL : DTED_E96;
    for (uint32_t item = DTED_ACCURACY; item <= DTED_RELATIVE_VERTICAL; item++)
        items[item] = accuracy_of(seed, item);
    items[DTED_PARTIAL] = seed % 2 == 0 ? 0 : 1 + seed * 11 % 99;
}

static struct bytes grid_of(uint32_t seed, int partial, dted_answer size) {
    struct bytes grid = room_for(2 * (size_t)dted_columns(size) * dted_posts(size));
    uint8_t *next = grid.at;
    for (uint32_t column = 0; column < dted_columns(size); column++)
        for (uint32_t post = 0; post < dted_posts(size); post++, next += 2)
            dted_put_height(next, height_of(seed, partial, column, post));
    return grid;
}

/* ---- commands ---- */

static int write_cell(char **given) {
    int64_t items[DTED_ITEMS];
    uint32_t seed = (uint32_t)strtoul(given[4], NULL, 10);
    items_of(seed, items);
    items[DTED_LEVEL] = atoi(given[0]);
    items[DTED_LATITUDE] = atoi(given[1]);
    items[DTED_LONGITUDE] = atoi(given[2]);
    dted_answer size = dted_grid((uint64_t)items[DTED_LEVEL], items[DTED_LATITUDE]);
    if (refused(size))
        return 1;
    struct bytes grid = grid_of(seed, items[DTED_PARTIAL] != 0, size);
    struct bytes cell = room_for(dted_cell_length(size));
    if (refused(dted_write(year, cell.at, cell.length, items, grid.at, grid.length)))
        return 1;
    write_file(given[3], cell);
    return 0;
}

static void put(int height) {
    uint8_t both[2];
    dted_put_height(both, height);
    fwrite(both, 1, 2, stdout);
}

static int posts(const char *path) {
    struct bytes cell = read_file(path);
    dted_answer size = dted_intake(year, cell.at, cell.length);
    if (refused(size))
        return 1;
    for (unsigned column = 0; column < dted_columns(size); column++) {
        const uint8_t *words = cell.at + DTED_HEADER_BYTES + column * dted_column_length(size) + DTED_PREAMBLE_BYTES;
        for (unsigned post = 0; post < dted_posts(size); post++)
            put(dted_word_height(words + 2 * post));
    }
    return 0;
}

static int lookups(const char *path, unsigned every) {
    struct bytes cell = read_file(path);
    dted_answer size = dted_intake(year, cell.at, cell.length);
    if (refused(size))
        return 1;
    for (unsigned column = 0; column < dted_columns(size); column += every)
        for (unsigned post = 0; post < dted_posts(size); post++) {
            dted_answer answer = dted_post(year, cell.at, cell.length, column, post);
            if (refused(answer))
                return 1;
            put(dted_height(answer));
        }
    return 0;
}

static int judge(const char *path) {
    struct bytes cell = read_file(path);
    dted_answer size = dted_intake(year, cell.at, cell.length);
    if (refused(size))
        return 1;
    printf("accepted %u %u %u\n", dted_level(size), dted_columns(size), dted_posts(size));
    return 0;
}

static int describe(const char *path) {
    struct bytes cell = read_file(path);
    int64_t items[DTED_ITEMS];
    if (refused(dted_describe(cell.at, cell.length, items)))
        return 1;
    for (int item = 0; item < DTED_ITEMS; item++)
        printf("%" PRId64 "%c", items[item], item + 1 < DTED_ITEMS ? ' ' : '\n');
    return 0;
}

static int position(const char *path) {
    struct bytes cell = read_file(path);
    int64_t latitude, longitude;
    int any = 0;
    while (scanf("%" SCNd64 " %" SCNd64, &latitude, &longitude) == 2) {
        dted_answer answer = dted_position(year, cell.at, cell.length, latitude, longitude);
        if (refused(answer))
            any = 1;
        else
            printf("%u %u %d\n", dted_position_column(answer), dted_position_post(answer), dted_height(answer));
    }
    return any;
}

static int edit(char **given) {
    struct bytes cell = read_file(given[0]);
    uint64_t column = strtoull(given[1], NULL, 10), post = strtoull(given[2], NULL, 10);
    if (refused(dted_edit(year, cell.at, cell.length, column, post, atoll(given[3]))))
        return 1;
    write_file(given[0], cell);
    return 0;
}

int main(int count, char **given) {
    const char *command = count > 2 ? given[2] : "";
    year = count > 1 ? (uint32_t)strtoul(given[1], NULL, 10) : 0;
    if (count == 8 && strcmp(command, "write") == 0)
        return write_cell(given + 3);
    if (count == 4 && strcmp(command, "posts") == 0)
        return posts(given[3]);
    if (count == 5 && strcmp(command, "lookups") == 0 && atoi(given[4]) > 0)
        return lookups(given[3], (unsigned)atoi(given[4]));
    if (count == 4 && strcmp(command, "judge") == 0)
        return judge(given[3]);
    if (count == 4 && strcmp(command, "describe") == 0)
        return describe(given[3]);
    if (count == 4 && strcmp(command, "position") == 0)
        return position(given[3]);
    if (count == 7 && strcmp(command, "edit") == 0)
        return edit(given + 3);
    fail("no such command: see the top of tool.c");
}
