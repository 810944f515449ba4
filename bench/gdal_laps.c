/* gdal_laps.c - GDAL's laps on the cell of level 2, and whether it does there what is measured. */
#include "gdal_calls.h"
#include "laps.h"

#include <stdio.h>
#include <string.h>

static struct cell *cell = &cells[2];
static uint8_t *edited;
static int16_t *rows;

/* ---- laps ---- */

static uint64_t read_all(const struct lap *lap, unsigned round) {
    (void)lap, (void)round;
    return gdal_read_all(rows);
}

static uint64_t read_posts(const struct lap *lap, unsigned round) {
    uint64_t good = 0;
    int16_t height;
    (void)lap, (void)round;
    for (const struct pick *pick = cell->picks; pick < cell->picks + PICKS; pick++)
        good += gdal_read_post((int)pick->column, (int)pick->post, &height);
    return good;
}

static uint64_t edit_posts(const struct lap *lap, unsigned round) {
    uint64_t good = 0;
    (void)lap;
    for (const struct pick *pick = cell->picks; pick < cell->picks + PICKS; pick++)
        good += gdal_edit_post((int)pick->column, (int)pick->post, (int16_t)(pick->height - (int)round));
    return good;
}

static uint64_t write_all(const struct lap *lap, unsigned round) {
    (void)lap, (void)round;
    return gdal_write();
}

void plan_gdal(enum act act, struct cell *on) {
    static run_lap *const runs[] = {[INTAKE] = read_all, [POST] = read_posts, [EDIT] = edit_posts, [WRITE] = write_all};
    if (gdal_version() && on == cell)
        plan(act, cell, "GDAL", BASE, act == POST || act == EDIT ? PICKS : 1, runs[act]);
}

void check_gdal_round(void) {
    if (!gdal_version())
        return;
    for (size_t i = 0; i < lap_count; i++)
        if (strcmp(laps[i].who, "GDAL") == 0 && laps[i].gave != laps[i].calls)
            stop("GDAL failed in a measured round");
    if (memcmp(cell->edited[0], edited, cell->length) != 0)
        stop("GDAL's edited cell differs");
}

/* ---- before anything is timed ---- */

/* The last post of the cell made any word, with the checksum that is then right. */
static unsigned put_last_word(unsigned word) {
    uint8_t *check = cell->bytes + cell->length - 4, *last = check - 2;
    unsigned was = (unsigned)last[0] << 8 | last[1];
    uint32_t sum = (uint32_t)check[0] << 24 | (uint32_t)check[1] << 16 | (uint32_t)check[2] << 8 | check[3];
    sum = sum - last[0] - last[1] + (word >> 8) + (word & 0xFF);
    last[0] = (uint8_t)(word >> 8);
    last[1] = (uint8_t)word;
    for (int i = 0; i < 4; i++)
        check[i] = (uint8_t)(sum >> (24 - 8 * i));
    return was;
}

/* Whether GDAL reads a cell with a post word that the library refuses. */
static bool takes_bad_word(void) {
    unsigned was = put_last_word(9001);
    if (dted_number(dted_intake(DTED_YEAR_2, cell->bytes, cell->length)) != DTED_WORD)
        stop("a word out of range is not refused");
    bool taken = gdal_read_all(rows);
    put_last_word(was);
    return taken;
}

/* GDAL reads what was written, and refuses a cell with one wrong checksum. */
static void check_gdal(void) {
    if (!gdal_read_all(rows))
        stop("GDAL does not read the cell");
    for (size_t x = 0; x < cell->columns; x++)
        for (size_t y = 0; y < cell->posts; y++)
            if (rows[(cell->posts - 1 - y) * cell->columns + x] != formula((int)x, (int)y))
                stop("GDAL reads other heights");
    if (!gdal_give(rows) || !gdal_write())
        stop("GDAL does not write a cell");
    cell->bytes[cell->length - 1] ^= 1;
    if (gdal_read_all(rows))
        stop("GDAL verifies no checksums");
    cell->bytes[cell->length - 1] ^= 1;
}

void start_gdal(void) {
    if (!gdal_version()) {
        printf("GDAL: not measured, its header files are not installed\n");
        return;
    }
    edited = memcpy(room_for(cell->length), cell->bytes, cell->length);
    rows = (int16_t *)(void *)room_for(cell->grid_bytes);
    if (!gdal_start(cell->bytes, edited, cell->length, (int)cell->columns, (int)cell->posts, (int)cell->items[DTED_LATITUDE],
                    (int)cell->items[DTED_LONGITUDE]))
        stop("GDAL does not open the cell");
    check_gdal();
    printf("GDAL: %s, checksums verified; a height out of range it %s\n", gdal_version(), takes_bad_word() ? "reads" : "refuses");
}
