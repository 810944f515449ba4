/* acts.c - the acts that are timed, as laps of the sets of calls and of the limits. */
#include "laps.h"
#include "limit.h"

#include <string.h>

struct lap laps[MOST_LAPS];
size_t lap_count;

/* ---- laps of a set of calls ---- */

/* Of a cell that is cut after its headers these are judged alone; cut after one column, both are. */
static size_t bytes_for(enum act act, const struct cell *cell) {
    return act == INTAKE ? cell->length : DTED_HEADER_BYTES + (act == ONE_COLUMN ? cell->column_bytes : 0);
}

static uint64_t intake(const struct lap *lap, unsigned round) {
    const struct cell *cell = lap->cell;
    size_t bytes = bytes_for(lap->act, cell);
    uint64_t sum = 0;
    (void)round;
    for (unsigned i = 0; i < lap->calls; i++)
        sum += lap->with->intake(DTED_YEAR_2, cell->bytes, bytes).bits;
    return sum;
}

static uint64_t post(const struct lap *lap, unsigned round) {
    const struct cell *cell = lap->cell;
    uint64_t sum = 0;
    (void)round;
    for (const struct pick *pick = cell->picks; pick < cell->picks + PICKS; pick++)
        sum += lap->with->post(DTED_YEAR_2, cell->bytes, cell->length, pick->column, pick->post).bits;
    return sum;
}

static uint64_t edit(const struct lap *lap, unsigned round) {
    const struct cell *cell = lap->cell;
    uint8_t *edited = cell->edited[lap->with - sets];
    uint64_t sum = 0;
    for (const struct pick *pick = cell->picks; pick < cell->picks + PICKS; pick++)
        sum += lap->with->edit(DTED_YEAR_2, edited, cell->length, pick->column, pick->post, pick->height - (int)round).bits;
    return sum;
}

static uint64_t whole(const struct lap *lap, unsigned round) {
    const struct cell *cell = lap->cell;
    uint64_t sum = 0;
    (void)round;
    for (unsigned i = 0; i < lap->calls; i++)
        sum += lap->with->write(DTED_YEAR_2, cell->out, cell->length, cell->items, cell->grid, cell->grid_bytes).bits;
    return sum;
}

/* ---- laps of the limits ---- */

static uint64_t pass_over(const struct lap *lap, const uint8_t *bytes, size_t length) {
#ifdef WITH_V3
    if (lap->cpu == V3)
        return read_pass_v3(bytes, length);
#endif
    (void)lap;
    return read_pass(bytes, length);
}

static uint64_t read_cell(const struct lap *lap, unsigned round) {
    uint64_t sum = 0;
    (void)round;
    for (unsigned i = 0; i < lap->calls; i++)
        sum += pass_over(lap, lap->cell->bytes, lap->cell->length);
    return sum;
}

static uint64_t read_columns(const struct lap *lap, unsigned round) {
    const struct cell *cell = lap->cell;
    uint64_t sum = 0;
    (void)round;
    for (const struct pick *pick = cell->picks; pick < cell->picks + PICKS; pick++)
        sum += pass_over(lap, cell->bytes + DTED_HEADER_BYTES + pick->column * cell->column_bytes, cell->column_bytes);
    return sum;
}

static uint64_t read_grid(const struct lap *lap, unsigned round) {
    uint64_t sum = 0;
    (void)round;
    for (unsigned i = 0; i < lap->calls; i++)
        sum += pass_over(lap, lap->cell->grid, lap->cell->grid_bytes);
    return sum;
}

static uint64_t copy_grid(const struct lap *lap, unsigned round) {
    const struct cell *cell = lap->cell;
    (void)round;
    for (unsigned i = 0; i < lap->calls; i++)
        memcpy(cell->out, cell->grid, cell->grid_bytes);
    return cell->out[0];
}

/* ---- the plan ---- */

struct lap *plan(enum act act, struct cell *cell, const char *who, enum cpu cpu, unsigned calls, run_lap *run) {
    if (lap_count == MOST_LAPS)
        stop("too many laps");
    struct lap *lap = &laps[lap_count++];
    *lap = (struct lap){.act = act, .cell = cell, .who = who, .cpu = cpu, .calls = calls, .run = run};
    return lap;
}

static void plan_sets(enum act act, struct cell *cell, unsigned calls, run_lap *run) {
    for (size_t i = 0; i < set_count; i++) {
        if (!sets[i].compared)
            stop("a set of calls was not compared with the library");
        plan(act, cell, sets[i].who, sets[i].cpu, calls, run)->with = &sets[i];
    }
}

/* For each processor that some set is for. */
static void plan_pass(enum act act, struct cell *cell, unsigned calls, run_lap *run) {
    bool there[CPUS] = {false};
    for (size_t i = 0; i < set_count; i++)
        there[sets[i].cpu] = true;
    for (enum cpu cpu = BASE; cpu < CPUS; cpu++)
        if (there[cpu])
            plan(act, cell, "read-only pass", cpu, calls, run);
}

static void plan_level(int level) {
    static const unsigned turns[LEVELS] = {100, 5, 1}; /* a whole cell of level 0 is too soon done to be timed once */
    struct cell *cell = &cells[level];
    plan_sets(INTAKE, cell, turns[level], intake);
    plan_pass(INTAKE, cell, turns[level], read_cell);
    plan_gdal(INTAKE, cell);
    plan_sets(POST, cell, PICKS, post);
    plan_pass(POST, cell, PICKS, read_columns);
    plan_gdal(POST, cell);
    plan_sets(EDIT, cell, PICKS, edit);
    plan_pass(EDIT, cell, PICKS, read_columns);
    plan_gdal(EDIT, cell);
    plan_sets(WRITE, cell, turns[level], whole);
    plan_pass(WRITE, cell, turns[level], read_grid);
    plan(WRITE, cell, "copy", BASE, turns[level], copy_grid);
    plan_gdal(WRITE, cell);
    plan_sets(HEADERS, cell, PICKS, intake);
    plan_sets(ONE_COLUMN, cell, PICKS, intake);
}

/* The cell is good, so are the posts that are looked up and edited, and a cut cell is refused where it ends. */
static void check_cell(const struct cell *cell) {
    for (enum act act = HEADERS; act <= ONE_COLUMN; act++) {
        dted_answer cut = dted_intake(DTED_YEAR_2, cell->bytes, bytes_for(act, cell));
        if (dted_number(cut) != DTED_CUT || dted_place(cut) != bytes_for(act, cell))
            stop("a cut cell is not refused where it ends");
    }
    if (dted_number(dted_intake(DTED_YEAR_2, cell->bytes, bytes_for(INTAKE, cell))) != DTED_OK)
        stop("a cell is refused");
    for (const struct pick *pick = cell->picks; pick < cell->picks + PICKS; pick++)
        if (dted_number(dted_post(DTED_YEAR_2, cell->bytes, cell->length, pick->column, pick->post)) != DTED_OK)
            stop("a post that is to be looked up is refused");
}

void plan_acts(void) {
    for (int level = 0; level < LEVELS; level++) {
        check_cell(&cells[level]);
        plan_level(level);
    }
}
