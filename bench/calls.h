/* calls.h - a set of calls to be compared and measured: the library's, or those of plain.h. */
#ifndef CALLS_H
#define CALLS_H

#include "dted.h"

#include <stdbool.h>

/* The processors that archives and plain C are made for: the one that BASE_CPU names, and x86-64-v3. */
enum cpu { BASE, V3, CPUS };

struct calls {
    const char *who;
    enum cpu cpu;
    dted_answer (*intake)(uint32_t year, const uint8_t *cell, size_t length);
    dted_answer (*post)(uint32_t year, const uint8_t *cell, size_t length, uint64_t column, uint64_t post);
    dted_answer (*edit)(uint32_t year, uint8_t *cell, size_t length, uint64_t column, uint64_t post, int64_t height);
    dted_answer (*write)(uint32_t year, uint8_t *out, size_t room, const int64_t *items, const uint8_t *grid, size_t bytes);
    bool yearless; /* whatever year is named, they answer as in year 1 */
    bool older;    /* of an archive that may refuse the word 8000 */
    bool compared; /* with the library, before anything is timed */
};

/* The processor's name, as a compiler's -march has it. */
const char *cpu_name(enum cpu cpu);

/* The next number of a row that its seed fixes; the seed is not 0. */
static inline uint64_t next_random(uint64_t *seed) {
    *seed ^= *seed << 13;
    *seed ^= *seed >> 7;
    *seed ^= *seed << 17;
    return *seed * UINT64_C(2685821657736338717) >> 16;
}

#endif
