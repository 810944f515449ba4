/* rounds.c - runs the laps: every one once in each round, those of one act and one cell next to each other and shuffled each time, so
 * that a drift of the machine, and what the lap before left in the cache, hit all alike. Directly before it is timed a lap is run
 * untimed, so that it finds its bytes as it leaves them itself, and not between the cache lines of the lap before. */
#define _POSIX_C_SOURCE 200809L
#include "laps.h"

#include <string.h>
#include <time.h>

static double now(void) {
    struct timespec t;
    clock_gettime(CLOCK_THREAD_CPUTIME_ID, &t);
    return (double)t.tv_sec + (double)t.tv_nsec * 1e-9;
}

static void run_once(struct lap *lap, unsigned round) {
    struct cell *cell = lap->cell;
    lap->run(lap, round);
    double start = now();
    lap->gave = lap->run(lap, round);
    lap->seconds[round] = (now() - start) / lap->calls;
    if (lap->act == WRITE && lap->with && memcmp(cell->out, cell->bytes, cell->length) != 0)
        stop("a written cell differs");
}

static bool are_alike(const struct lap *a, const struct lap *b) { return a->run == b->run && a->act == b->act && a->cell == b->cell; }

/* Laps that do the same gave the same, and the edited cells are equal. */
static void check_round(void) {
    for (size_t i = 1; i < lap_count; i++)
        if (are_alike(&laps[i], &laps[i - 1]) && laps[i].gave != laps[i - 1].gave)
            stop("answers differ in a measured round");
    for (int level = 0; level < LEVELS; level++)
        for (size_t i = 1; i < set_count; i++)
            if (memcmp(cells[level].edited[0], cells[level].edited[i], cells[level].length) != 0)
                stop("edited cells differ");
    check_gdal_round();
}

/* The number of laps from this one on that are of one act on one cell. */
static size_t act_size(size_t from) {
    size_t to = from;
    while (to < lap_count && laps[to].act == laps[from].act && laps[to].cell == laps[from].cell)
        to++;
    return to - from;
}

/* So many laps from this one on, in an order that the seed fixes. */
static void run_shuffled(size_t from, size_t count, unsigned round, uint64_t *seed) {
    size_t order[MOST_LAPS];
    for (size_t i = 0; i < count; i++)
        order[i] = from + i;
    for (size_t left = count; left > 0; left--) {
        size_t drawn = next_random(seed) % left;
        run_once(&laps[order[drawn]], round);
        order[drawn] = order[left - 1];
    }
}

void run_rounds(void) {
    uint64_t seed = 20261116;
    for (unsigned round = 0; round < ROUNDS; round++) {
        for (size_t from = 0, count; from < lap_count; from += count) {
            count = act_size(from);
            run_shuffled(from, count, round, &seed);
        }
        check_round();
    }
}
