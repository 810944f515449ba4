/* bare.c - the calls as the archive has them, under names of their own. */
#include "bare.h"

uint64_t dted_intake(uint64_t year, const uint8_t *cell, size_t length);
uint64_t dted_describe(const uint8_t *cell, size_t length, int64_t *items);
uint64_t dted_post(uint64_t year, const uint8_t *cell, size_t length, uint64_t column, uint64_t post);
uint64_t dted_position(uint64_t year, const uint8_t *cell, size_t length, int64_t latitude, int64_t longitude);
uint64_t dted_edit(uint64_t year, uint8_t *cell, size_t length, uint64_t column, uint64_t post, int64_t height);
uint64_t dted_grid(uint64_t level, int64_t latitude);
uint64_t dted_write(uint64_t year, uint8_t *out, size_t room, const int64_t *items, const uint8_t *grid, size_t bytes);
uint64_t dted_write_column(uint8_t *out, size_t room, uint64_t level, uint64_t number, const uint8_t *posts, size_t bytes);

uint64_t bare_intake(uint64_t year, const uint8_t *cell, size_t length) {
    return dted_intake(year, cell, length);
}

uint64_t bare_describe(const uint8_t *cell, size_t length, int64_t *items) {
    return dted_describe(cell, length, items);
}

uint64_t bare_post(uint64_t year, const uint8_t *cell, size_t length, uint64_t column, uint64_t post) {
    return dted_post(year, cell, length, column, post);
}

uint64_t bare_position(uint64_t year, const uint8_t *cell, size_t length, int64_t latitude, int64_t longitude) {
    return dted_position(year, cell, length, latitude, longitude);
}

uint64_t bare_edit(uint64_t year, uint8_t *cell, size_t length, uint64_t column, uint64_t post, int64_t height) {
    return dted_edit(year, cell, length, column, post, height);
}

uint64_t bare_grid(uint64_t level, int64_t latitude) {
    return dted_grid(level, latitude);
}

uint64_t bare_write(uint64_t year, uint8_t *out, size_t room, const int64_t *items, const uint8_t *grid, size_t bytes) {
    return dted_write(year, out, room, items, grid, bytes);
}

uint64_t bare_write_column(uint8_t *out, size_t room, uint64_t level, uint64_t number, const uint8_t *posts, size_t bytes) {
    return dted_write_column(out, room, level, number, posts, bytes);
}
