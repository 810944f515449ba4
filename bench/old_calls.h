/* old_calls.h - another archive of the library, its names with old_ before them. One of before 0.5.0 names no year in its calls: it is
 * linked where OLD_YEARLESS is defined, and answers every year as year 1. */
#ifndef OLD_CALLS_H
#define OLD_CALLS_H

#include "plain.h"

#include <stdbool.h>

#ifndef OLD_YEARLESS

NAMED_CALLS(old_dted);
#define OLD(call) old_dted_##call
enum { OLD_IS_YEARLESS = false };

#else

dted_answer old_dted_intake(const uint8_t *cell, size_t length);
dted_answer old_dted_post(const uint8_t *cell, size_t length, uint64_t column, uint64_t post);
dted_answer old_dted_edit(uint8_t *cell, size_t length, uint64_t column, uint64_t post, int64_t height);
dted_answer old_dted_write(uint8_t *out, size_t room, const int64_t *items, const uint8_t *grid, size_t bytes);

static dted_answer yearless_intake(uint32_t year, const uint8_t *cell, size_t length) {
    (void)year;
    return old_dted_intake(cell, length);
}

static dted_answer yearless_post(uint32_t year, const uint8_t *cell, size_t length, uint64_t column, uint64_t post) {
    (void)year;
    return old_dted_post(cell, length, column, post);
}

static dted_answer yearless_edit(uint32_t year, uint8_t *cell, size_t length, uint64_t column, uint64_t post, int64_t height) {
    (void)year;
    return old_dted_edit(cell, length, column, post, height);
}

static dted_answer yearless_write(uint32_t year, uint8_t *out, size_t room, const int64_t *items, const uint8_t *grid, size_t bytes) {
    (void)year;
    return old_dted_write(out, room, items, grid, bytes);
}

#define OLD(call) yearless_##call
enum { OLD_IS_YEARLESS = true };

#endif

#endif
