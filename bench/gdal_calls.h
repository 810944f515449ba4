/* gdal_calls.h - GDAL on the same cell, from a file in memory and with its checksums verified, where GDAL is there to be measured. */
#ifndef GDAL_CALLS_H
#define GDAL_CALLS_H

#include <stdbool.h>
#include <stddef.h>
#include <stdint.h>

/* What is measured, by its version; null where this program was built without GDAL. */
const char *gdal_version(void);

/* Lends GDAL the bytes of a cell, and a second time as those to be edited; false where GDAL does not take them. */
bool gdal_start(uint8_t *cell, uint8_t *edited, size_t length, int columns, int posts, int latitude, int longitude);

/* Opens the cell, reads every post into `heights`, rows from the north, and closes it. */
bool gdal_read_all(int16_t *heights);

/* Reads one post of the cell, which stays open; the column is read anew. */
bool gdal_read_post(int column, int post, int16_t *height);

/* Makes one post of the edited cell, which stays open, another height; the column is read anew, and written. */
bool gdal_edit_post(int column, int post, int16_t height);

/* Writes a cell of the heights of `rows`, as gdal_read_all gives them, to a file in memory. */
bool gdal_give(int16_t *rows);
bool gdal_write(void);

#endif
