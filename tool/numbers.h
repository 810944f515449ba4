/* numbers.h - numbers and angles of the command line. Where a word is none, that is told on standard error, and false. */
#ifndef NUMBERS_H
#define NUMBERS_H

#include <stdbool.h>
#include <stdint.h>

/* A whole number of up to 64 bits, in digits alone. */
bool take_count(const char *word, uint64_t *value);

/* Metres, of up to 64 bits with a sign, or `void`. */
bool take_height(const char *word, int64_t *height);

/* A rule year of dted.h. */
bool take_year(const char *word, uint32_t *year);

/* A finite number above 0. */
bool take_factor(const char *word, double *value);

/* Tenths of arc-seconds, north and east positive, from degrees in decimal or D:M:S, with a sign or a letter. The nearest tenth; of
 * two the one further from 0. */
bool take_latitude(const char *word, int64_t *tenths);
bool take_longitude(const char *word, int64_t *tenths);

#endif
