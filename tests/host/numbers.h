/* numbers.h - numbers from a seed, and numbers that are apt to break a call. */
#ifndef NUMBERS_H
#define NUMBERS_H

#include <stdbool.h>
#include <stddef.h>
#include <stdint.h>

#define COUNT(array) (sizeof(array) / sizeof((array)[0]))

struct random {
    uint64_t state;
};

uint64_t random_next(struct random *random);
uint64_t random_below(struct random *random, uint64_t count); /* 0 to count - 1; count is not 0 */
bool random_one_in(struct random *random, uint64_t count);
int64_t random_between(struct random *random, int64_t least, int64_t most); /* both included; less than 2^63 apart */

/* A random of its own for case `number` of a seed. */
struct random random_of_case(uint64_t seed, uint64_t number);

/* Limits of the paper and of the machine's words, their neighbours, and numbers whose product with a column's bytes wraps. */
extern const uint64_t odd_indices[];
extern const size_t odd_index_count;
extern const int64_t odd_numbers[];
extern const size_t odd_number_count;

/* One of the above, at times moved by a power of two, so that a number cut to fewer bits would look right. */
uint64_t random_odd_index(struct random *random, uint64_t right);
int64_t random_odd_number(struct random *random, int64_t right);

#endif
