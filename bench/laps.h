/* laps.h - what the bench times, and the report of it. */
#ifndef LAPS_H
#define LAPS_H

#include "cell.h"

enum { ROUNDS = 31, MOST_LAPS = 250 };

/* What is measured. ONE_COLUMN is a step of intake and no act of its own: the headers and one column. */
enum act { INTAKE, POST, EDIT, WRITE, HEADERS, ONE_COLUMN, ACTS };

/* One thing that is timed: `calls` calls at once. */
struct lap {
    enum act act;
    const char *who;
    enum cpu cpu;
    struct cell *cell;
    const struct calls *with; /* null for a limit and for GDAL */
    unsigned calls;
    uint64_t (*run)(const struct lap *lap, unsigned round); /* gives the same for all laps of an act and a cell that do the same */
    double seconds[ROUNDS];                                 /* of one call */
    uint64_t gave;
};

typedef uint64_t run_lap(const struct lap *lap, unsigned round);

extern struct lap laps[MOST_LAPS];
extern size_t lap_count;

/* One more lap, by no set of calls. */
struct lap *plan(enum act act, struct cell *cell, const char *who, enum cpu cpu, unsigned calls, run_lap *run);

/* All acts, on cells of all levels. */
void plan_acts(void);

/* GDAL on the cell of level 2: sees that it reads and writes what it must, and prints what is measured of it; plans its lap of an act on
 * a cell, where it has one; and sees that a round was right. */
void start_gdal(void);
void plan_gdal(enum act act, struct cell *cell);
void check_gdal_round(void);

/* Runs every lap once in each round. */
void run_rounds(void);

/* Prints the ratios of every act at level 2, the times at every level, and the parts of intake. */
void print_acts(void);
void print_levels(void);
void print_parts(void);

/* Cells a second that one thread and that all cores judge, one cell to a thread. */
void print_throughput(void);

#endif
