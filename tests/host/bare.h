/* bare.h - the calls as the archive has them: each answers a plain number of 64 bits.
 *
 * dted.h says that an answer is passed as such a number is. No file can read both: what they declare differs in that alone, and
 * in the year: here it is all that stands in its place, of which the archive takes 32 bits.
 */
#ifndef BARE_H
#define BARE_H

#include <stddef.h>
#include <stdint.h>

uint64_t bare_intake(uint64_t year, const uint8_t *cell, size_t length);
uint64_t bare_describe(const uint8_t *cell, size_t length, int64_t *items);
uint64_t bare_post(uint64_t year, const uint8_t *cell, size_t length, uint64_t column, uint64_t post);
uint64_t bare_position(uint64_t year, const uint8_t *cell, size_t length, int64_t latitude, int64_t longitude);
uint64_t bare_edit(uint64_t year, uint8_t *cell, size_t length, uint64_t column, uint64_t post, int64_t height);
uint64_t bare_grid(uint64_t level, int64_t latitude);
uint64_t bare_write(uint64_t year, uint8_t *out, size_t room, const int64_t *items, const uint8_t *grid, size_t bytes);
uint64_t bare_write_column(uint8_t *out, size_t room, uint64_t level, uint64_t number, const uint8_t *posts, size_t bytes);

#endif
