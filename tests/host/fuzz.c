/* fuzz.c - a fuzzer's target over the whole C interface: the library and the second one, stopped at the first difference.
 *
 * An input is one byte that chooses, one for the rule year, three numbers of 8 bytes (high byte first), then bytes. The year is 1 or 2
 * for most bytes, and an unknown one for the others. Of the choosing byte:
 *   bits 0 to 2  the call
 *   bit 3        the bytes are a seed and patches for a made cell, else they are the cell, or the grid
 *   bit 4        checksums are mended after the patches
 *   bit 5        on which side of the lent bytes the untouchable page stands
 *   bit 6        the three numbers are brought near the ranges that are right
 *   bit 7        but the third, a height or an item, is left as it is
 */
#include "both.h"
#include "cells.h"
#include "dted.h"

#include <inttypes.h>
#include <stdio.h>
#include <stdlib.h>
#include <string.h>

int LLVMFuzzerInitialize(int *count, char ***texts);
int LLVMFuzzerTestOneInput(const uint8_t *input, size_t length);

void differ(const char *call, const char *what, uint64_t at, uint64_t library, uint64_t second) {
    fprintf(stderr, "%s: %s at %" PRIu64 ": %016" PRIX64 ", the second has %016" PRIX64 "\n", call, what, at, library, second);
    abort();
}

struct input {
    const uint8_t *bytes;
    size_t length;
};

static uint64_t take(struct input *input, size_t count) {
    uint64_t number = 0;
    for (; count > 0 && input->length > 0; count--, input->bytes++, input->length--)
        number = number << 8 | *input->bytes;
    return number;
}

/* The same bits, signed. */
static int64_t signed_of(uint64_t bits) {
    return bits <= INT64_MAX ? (int64_t)bits : -1 - (int64_t)(UINT64_MAX - bits);
}

/* Unknown years are listed, but for the last byte, which takes the third number. */
static uint32_t year_of(unsigned byte, uint64_t number) {
    static const uint32_t unknown[] = {0, 3, 17, 255, 256, 257, 258, 65537, 65538, 0x80000001, UINT32_MAX};
    if (byte < 224)
        return 1 + byte % 2;
    return byte == 255 ? (uint32_t)number : unknown[byte % COUNT(unknown)];
}

static struct cell cell;

/* A cell of level 0, or the front of one of level 1 or 2, from a seed; then bytes of it are replaced. */
static void make_cell(struct input *input, bool mend) {
    struct random random = {take(input, 4)};
    int64_t items[CELL_ITEMS], level = (int64_t)random_below(&random, 8);
    level = level < 3 ? level : 0;
    cell_items(&random, level, items);
    if (!random_one_in(&random, 4))
        items[1] = random_between(&random, 80, 89); /* zone V has the shortest cells, so more of them are tried */
    cell_make(&random, items, level == 0 ? SIZE_MAX : random_below(&random, 4), &cell);
    while (input->length >= 4) {
        size_t at = take(input, 3) % cell.length;
        cell.bytes[at] = (uint8_t)take(input, 1);
        if (mend && at >= CELL_HEADERS)
            cell_mend_checksum(&cell, (at - CELL_HEADERS) / cell.column_bytes);
    }
}

/* The writer's part: the items and the grid of a made cell, with numbers and words of the input put among them. */
static void write_cell(struct input *input, const uint64_t *numbers, int64_t value, bool near) {
    int64_t items[CELL_ITEMS];
    size_t bytes = cell.grid_bytes, room = near ? cell.length - 1 + numbers[1] % 3 : numbers[1] % (cell.length + 100);
    memcpy(items, cell.items, sizeof items);
    if (numbers[0] % 4 == 0)
        items[numbers[0] / 4 % CELL_ITEMS] = value;
    if (!near)
        bytes = numbers[0] % (bytes + 3);
    while (input->length >= 5 && cell.grid_bytes > 0)
        cell.grid[take(input, 4) % cell.grid_bytes] = (uint8_t)take(input, 1);
    both_write(room, true, items, cell.grid, bytes);
}

static void write_column(struct input *input, const uint64_t *numbers, bool near) {
    static const size_t posts[] = {121, 1201, 3601};
    static uint8_t grid[2 * 3601 + 2];
    uint64_t level = near ? numbers[0] % 3 : numbers[0];
    size_t due = 2 * posts[level % 3], count = input->length < sizeof grid ? input->length : sizeof grid;
    memset(grid, 0, sizeof grid);
    if (count > 0)
        memcpy(grid, input->bytes, count);
    both_write_column(near ? due + 12 : numbers[2] % 8000, true, level, near ? numbers[1] % 3602 : numbers[1], grid,
                      near ? due : count);
}

static void call_on_cell(unsigned call, const uint64_t *numbers, int64_t height, bool near) {
    int64_t items[CELL_ITEMS];
    uint64_t column = near ? numbers[0] % 62 : numbers[0], post = near ? numbers[1] % 122 : numbers[1];
    int64_t latitude = signed_of(numbers[0]), longitude = signed_of(numbers[1]);
    if (near && dted_number(both_describe(items)) == DTED_OK) {
        latitude = items[DTED_LATITUDE] * 36000 + latitude % 36001;
        longitude = items[DTED_LONGITUDE] * 36000 + longitude % 36001;
    }
    switch (call) {
    case 0: both_intake(); break;
    case 1: both_describe(items); break;
    case 2: both_post(column, post); break;
    case 3: both_position(latitude, longitude); break;
    default: both_edit(column, post, height); both_post(column, post); both_intake(); break;
    }
}

int LLVMFuzzerInitialize(int *count, char ***texts) {
    (void)count;
    (void)texts;
    both_open();
    return 0;
}

int LLVMFuzzerTestOneInput(const uint8_t *bytes, size_t length) {
    struct input input = {bytes, length};
    unsigned chosen = (unsigned)take(&input, 1), year = (unsigned)take(&input, 1), call = chosen & 7;
    bool made = (chosen & 8) != 0, mend = (chosen & 16) != 0, near = (chosen & 64) != 0;
    uint64_t numbers[3];
    for (int i = 0; i < 3; i++)
        numbers[i] = take(&input, 8);
    int64_t value = signed_of(numbers[2]);
    if (near && (chosen & 128) == 0)
        value %= 33000;
    both_side((chosen & 32) != 0 ? AT_START : AT_END);
    both_year(year_of(year, numbers[2]));
    if (call == 5)
        both_grid(near ? numbers[0] % 4 : numbers[0], near ? signed_of(numbers[1]) % 100 : signed_of(numbers[1]));
    else if (call == 7)
        write_column(&input, numbers, near);
    else if (call == 6) {
        struct input seed = {bytes, length < 4 ? length : 4};
        make_cell(made ? &input : &seed, mend);
        write_cell(&input, numbers, value, near);
    } else {
        if (made)
            make_cell(&input, mend);
        both_lend(made ? cell.bytes : input.bytes, made ? cell.length : input.length);
        call_on_cell(call, numbers, value, near);
    }
    return 0;
}
