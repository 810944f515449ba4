/* both.c - each call made twice, of the library and of the second reader and writer, and compared. */
#include "both.h"

#include "cells.h"
#include "second.h"

#include <stdio.h>
#include <stdlib.h>
#include <string.h>

const char *volatile both_calling = "nothing";

static enum side side_now = AT_START;
static uint32_t year_now = DTED_YEAR_2;
static struct lent cell_pages, out_pages, grid_pages, item_pages;

/* The second one's bytes: of the exact length, so that a checked build sees it reach outside, too. */
struct copy {
    uint8_t *bytes;
    size_t length;
};
static struct copy cell_copy, out_copy;

static bool cell_is_null;

static void copy_resize(struct copy *copy, size_t length) {
    if (copy->bytes == NULL || copy->length != length) {
        free(copy->bytes);
        copy->bytes = malloc(length > 0 ? length : 1);
        copy->length = length;
        if (copy->bytes == NULL) {
            perror("malloc");
            exit(2);
        }
    }
}

void both_open(void) {
    lent_map(&cell_pages, BOTH_MOST);
    lent_map(&out_pages, BOTH_MOST);
    lent_map(&grid_pages, BOTH_MOST);
    lent_map(&item_pages, sizeof(int64_t) * BOTH_ITEMS);
}

void both_side(enum side side) {
    side_now = side;
}

void both_year(uint32_t year) {
    year_now = year;
}

/* ---- comparing ---- */

/* Whatever the second one says: a number that is given at all, and of a header field one that it can give, at a place in it. */
static bool is_told(dted_answer answer) {
    unsigned number = dted_number(answer);
    if (number < DTED_FIELD_IMPOSSIBLE)
        return number <= DTED_ROOM && number != 2;
    size_t f = cell_field_at(dted_place(answer));
    return f < CELL_FIELDS && (number == DTED_FIELD_IMPOSSIBLE || number == cell_fields[f].besides);
}

static dted_answer same(const char *call, dted_answer library, uint64_t second, bool told) {
    both_calling = "nothing";
    if (library.bits != second)
        differ(call, "the answer", 0, library.bits, second);
    if (!told)
        differ(call, "a number that is not given, or not there", 0, library.bits, second);
    return library;
}

static dted_answer same_answer(const char *call, dted_answer library, uint64_t second) {
    return same(call, library, second, is_told(library));
}

/* Of a call that names the year: 17 where it is unknown, and there alone. */
static dted_answer same_in_year(const char *call, dted_answer library, uint64_t second) {
    bool known = year_now == 1 || year_now == 2;
    return same(call, library, second, known ? is_told(library) : library.bits == (UINT64_C(17) << 56 | year_now));
}

static void same_bytes(const char *call, const char *what, const uint8_t *library, const uint8_t *second, size_t length) {
    size_t at = 0;
    if (length == 0 || memcmp(library, second, length) == 0)
        return;
    while (library[at] == second[at])
        at++;
    differ(call, what, at, library[at], second[at]);
}

static void same_margin(const char *call, const struct lent *lent) {
    if (!lent_margin_kept(lent))
        differ(call, "a byte outside the lent ones", 0, 0, 0);
}

/* ---- calls on the lent cell ---- */

void both_lend(const uint8_t *cell, size_t length) {
    cell_is_null = cell == NULL;
    lent_place(&cell_pages, side_now, length);
    copy_resize(&cell_copy, length);
    if (length > 0) {
        memcpy(cell_pages.bytes, cell, length);
        memcpy(cell_copy.bytes, cell, length);
    }
}

const uint8_t *both_cell(void) {
    return cell_pages.bytes;
}

/* The cell's address for a call that may only read it. */
static const uint8_t *cell_to_read(const char *call) {
    lent_protect(&cell_pages, true);
    both_calling = call;
    return cell_is_null ? NULL : cell_pages.bytes;
}

static const uint8_t *cell_for_second(void) {
    return cell_is_null ? NULL : cell_copy.bytes;
}

dted_answer both_intake(void) {
    const char *call = "dted_intake";
    dted_answer answer = dted_intake(year_now, cell_to_read(call), cell_pages.length);
    return same_in_year(call, answer, second_intake(year_now, cell_for_second(), cell_copy.length));
}

dted_answer both_describe(int64_t *items) {
    const char *call = "dted_describe";
    int64_t copy[BOTH_ITEMS];
    int64_t *lent = (int64_t *)(void *)lent_place(&item_pages, side_now, sizeof copy);
    for (int i = 0; i < BOTH_ITEMS; i++)
        lent[i] = copy[i] = -777000000000 - i;
    dted_answer answer = dted_describe(cell_to_read(call), cell_pages.length, lent);
    if (dted_number(answer) != DTED_OK)
        same_bytes(call, "an item of a refused call", item_pages.bytes, (uint8_t *)copy, sizeof copy);
    same_answer(call, answer, second_describe(cell_for_second(), cell_copy.length, copy));
    for (int i = 0; i < BOTH_ITEMS; i++)
        if (lent[i] != copy[i])
            differ(call, "an item", (uint64_t)i + 1, (uint64_t)lent[i], (uint64_t)copy[i]);
    same_margin(call, &item_pages);
    memcpy(items, lent, sizeof copy);
    return answer;
}

dted_answer both_post(uint64_t column, uint64_t post) {
    const char *call = "dted_post";
    dted_answer answer = dted_post(year_now, cell_to_read(call), cell_pages.length, column, post);
    return same_in_year(call, answer, second_post(year_now, cell_for_second(), cell_copy.length, column, post));
}

dted_answer both_position(int64_t latitude, int64_t longitude) {
    const char *call = "dted_position";
    dted_answer answer = dted_position(year_now, cell_to_read(call), cell_pages.length, latitude, longitude);
    return same_in_year(call, answer, second_position(year_now, cell_for_second(), cell_copy.length, latitude, longitude));
}

dted_answer both_edit(uint64_t column, uint64_t post, int64_t height) {
    const char *call = "dted_edit";
    lent_protect(&cell_pages, false);
    both_calling = call;
    dted_answer answer = dted_edit(year_now, cell_is_null ? NULL : cell_pages.bytes, cell_pages.length, column, post, height);
    if (dted_number(answer) != DTED_OK)
        same_bytes(call, "a byte of a refused call", cell_pages.bytes, cell_copy.bytes, cell_copy.length);
    uint8_t *copy = cell_is_null ? NULL : cell_copy.bytes;
    same_in_year(call, answer, second_edit(year_now, copy, cell_copy.length, column, post, height));
    same_bytes(call, "a byte of the cell", cell_pages.bytes, cell_copy.bytes, cell_copy.length);
    same_margin(call, &cell_pages);
    return answer;
}

/* ---- calls without a cell ---- */

dted_answer both_grid(uint64_t level, int64_t latitude) {
    both_calling = "dted_grid";
    return same_answer("dted_grid", dted_grid(level, latitude), second_grid(level, latitude));
}

/* An output full of bytes that no writer would leave there by chance, in both copies. */
static uint8_t *lend_output(size_t room, bool null_out) {
    lent_place(&out_pages, side_now, room);
    copy_resize(&out_copy, room);
    for (size_t i = 0; i < room; i++)
        out_copy.bytes[i] = (uint8_t)(0x81 + i % 101);
    memcpy(out_pages.bytes, out_copy.bytes, room);
    return null_out && room == 0 ? NULL : out_pages.bytes;
}

static const uint8_t *lend_grid(const uint8_t *grid, size_t bytes) {
    lent_place(&grid_pages, side_now, bytes);
    if (bytes > 0)
        memcpy(grid_pages.bytes, grid, bytes);
    lent_protect(&grid_pages, true);
    return grid == NULL ? NULL : grid_pages.bytes;
}

static void same_before(const char *call, dted_answer answer) {
    if (dted_number(answer) != DTED_OK)
        same_bytes(call, "a byte of a refused call", out_pages.bytes, out_copy.bytes, out_copy.length);
}

static void same_output(const char *call) {
    same_bytes(call, "a byte of the output", out_pages.bytes, out_copy.bytes, out_copy.length);
    same_margin(call, &out_pages);
}

dted_answer both_write(size_t room, bool null_out, const int64_t *items, const uint8_t *grid, size_t bytes) {
    const char *call = "dted_write";
    uint8_t *out = lend_output(room, null_out);
    const uint8_t *lent_grid = lend_grid(grid, bytes);
    int64_t *lent_items = (int64_t *)(void *)lent_place(&item_pages, side_now, sizeof *items * BOTH_ITEMS);
    memcpy(lent_items, items, sizeof *items * BOTH_ITEMS);
    lent_protect(&item_pages, true);
    both_calling = call;
    dted_answer answer = dted_write(year_now, out, room, lent_items, lent_grid, bytes);
    same_before(call, answer);
    same_in_year(call, answer, second_write(year_now, out == NULL ? NULL : out_copy.bytes, room, items, grid, bytes));
    same_output(call);
    return answer;
}

dted_answer both_write_column(size_t room, bool null_out, uint64_t level, uint64_t number, const uint8_t *posts, size_t bytes) {
    const char *call = "dted_write_column";
    uint8_t *out = lend_output(room, null_out);
    const uint8_t *lent_posts = lend_grid(posts, bytes);
    both_calling = call;
    dted_answer answer = dted_write_column(out, room, level, number, lent_posts, bytes);
    same_before(call, answer);
    uint8_t *copy = out == NULL ? NULL : out_copy.bytes;
    same_answer(call, answer, second_write_column(copy, room, level, number, posts, bytes));
    same_output(call);
    return answer;
}

const uint8_t *both_out(void) {
    return out_pages.bytes;
}
