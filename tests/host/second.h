/* second.h - an independent second reader and writer of DTED cells, to be compared with the proved one.
 *
 * Each call takes the same numbers and bytes as the call of that name in dted.h, and gives the same 64 bits: a refusal's
 * number in the top 8 and its place in the other 56; else 0 on top, what the answer holds in the next 8, and values in parts of 16.
 * Nothing here is shared with the library, not even constants: a slip in one is meant to show against the other.
 */
#ifndef SECOND_H
#define SECOND_H

#include "texts.h"

#include <stddef.h>
#include <stdint.h>

uint64_t second_intake(uint32_t year, const uint8_t *cell, size_t length);
uint64_t second_describe(const uint8_t *cell, size_t length, int64_t *items);
uint64_t second_post(uint32_t year, const uint8_t *cell, size_t length, uint64_t column, uint64_t post);
uint64_t second_position(uint32_t year, const uint8_t *cell, size_t length, int64_t latitude, int64_t longitude);
uint64_t second_edit(uint32_t year, uint8_t *cell, size_t length, uint64_t column, uint64_t post, int64_t height);
uint64_t second_grid(uint64_t level, int64_t latitude);
uint64_t second_write(uint32_t year, uint8_t *out, size_t room, const int64_t *items, const uint8_t *grid, size_t bytes);
uint64_t second_write_column(uint8_t *out, size_t room, uint64_t level, uint64_t number, const uint8_t *posts, size_t bytes);

/* The headers alone, of items that are all in range: tests cut cells after any column. */
void second_headers(uint8_t *out, const int64_t *items);

/* The forty header fields, in the order in which they are judged, and each text that some accepted header has in field `f`. */
#define SECOND_FIELDS 40
const struct texts *second_possible(size_t f);

#endif
