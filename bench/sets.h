/* sets.h - the sets of calls that are there to be measured on this machine. */
#ifndef SETS_H
#define SETS_H

#include "calls.h"

enum { MOST_SETS = 9 };

/* The library's first, then plain C by the first compiler for each processor; find_sets fills them. */
extern struct calls sets[MOST_SETS];
extern size_t set_count;

/* Takes those that this program is linked with and that the processor runs, and prints which are left out. */
void find_sets(void);

/* Prints the compilers of plain C. */
void print_compilers(void);

#endif
