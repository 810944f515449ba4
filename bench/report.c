/* report.c - prints what the bench timed: see laps.h. bench/draw reads it: cells of a row are two blanks or more apart. */
#include "laps.h"

#include <math.h>
#include <stdio.h>
#include <stdlib.h>
#include <string.h>

static const char *const act_names[ACTS] = {"intake", "one post", "one edit", "whole write", "headers alone", "one column"};

struct spread {
    double low, middle, high; /* quartiles */
};

static int by_size(const void *a, const void *b) {
    double x = *(const double *)a, y = *(const double *)b;
    return (x > y) - (x < y);
}

static struct spread spread_of(double value[ROUNDS]) {
    qsort(value, ROUNDS, sizeof *value, by_size);
    return (struct spread){value[ROUNDS / 4], value[ROUNDS / 2], value[ROUNDS - 1 - ROUNDS / 4]};
}

/* Of a lap's times, in microseconds. */
static double median(const struct lap *lap) {
    double value[ROUNDS];
    for (int i = 0; i < ROUNDS; i++)
        value[i] = 1e6 * lap->seconds[i];
    return spread_of(value).middle;
}

/* Of the ratios of two laps' times in the same rounds. */
static struct spread ratio(const struct lap *lap, const struct lap *to) {
    double value[ROUNDS];
    for (int i = 0; i < ROUNDS; i++)
        value[i] = lap->seconds[i] / to->seconds[i];
    return spread_of(value);
}

/* The first lap of that act on the same cell and for the same processor whose maker's name begins so, or null. */
static const struct lap *beside(const struct lap *lap, enum act act, const char *who) {
    for (const struct lap *other = laps; other < laps + lap_count; other++)
        if (other->act == act && other->cell == lap->cell && other->cpu == lap->cpu && strncmp(other->who, who, strlen(who)) == 0)
            return other;
    return NULL;
}

/* Plain C by the first compiler. */
static const struct lap *plain_beside(const struct lap *lap) { return beside(lap, lap->act, "plain C"); }

/* How many places after the point a time is given with. */
static int places(double time) { return fabs(time) < 1 ? 3 : fabs(time) < 100 ? 2 : 0; }

static bool is_at(const struct lap *lap, int level) { return lap->cell == &cells[level] && lap->act != ONE_COLUMN; }

static void print_act(const struct lap *lap) {
    const struct lap *pass = beside(lap, lap->act, "read-only pass");
    struct spread plain = ratio(lap, plain_beside(lap));
    double time = median(lap);
    char half[64], read[32] = "-";
    snprintf(half, sizeof half, "%.2f to %.2f", plain.low, plain.high);
    if (pass)
        snprintf(read, sizeof read, "%.2f", ratio(lap, pass).middle);
    printf("%-13s  %-14s  %-9s  %10.2f  %14s  %17s  %12.*f\n", act_names[lap->act], lap->who, cpu_name(lap->cpu), plain.middle, half,
           read, places(time), time);
}

void print_acts(void) {
    printf("\n%-13s  %-14s  %-9s  %10s  %14s  %17s  %12s\n", "act", "by", "for", "of plain C", "middle half", "of read-only pass",
           "microseconds");
    for (const struct lap *lap = laps; lap < laps + lap_count; lap++)
        if (is_at(lap, LEVELS - 1))
            print_act(lap);
}

/* ---- growth with the cell ---- */

/* The same lap on the cell of another level. */
static const struct lap *at_level(const struct lap *lap, int level) {
    const struct lap moved = {.cell = &cells[level], .cpu = lap->cpu};
    return beside(&moved, lap->act, lap->who);
}

void print_levels(void) {
    printf("\n%-13s  %-14s  %-9s", "at level", "by", "for");
    for (int level = 0; level < LEVELS; level++)
        printf("  %d: microseconds  %d: of plain C", level, level);
    printf("\n");
    for (const struct lap *lap = laps; lap < laps + lap_count; lap++) {
        if (!is_at(lap, 0))
            continue;
        printf("%-13s  %-14s  %-9s", act_names[lap->act], lap->who, cpu_name(lap->cpu));
        for (int level = 0; level < LEVELS; level++) {
            const struct lap *there = at_level(lap, level);
            double time = median(there);
            printf("  %15.*f  %13.2f", places(time), time, ratio(there, plain_beside(there)).middle);
        }
        printf("\n");
    }
}

/* ---- the parts of intake ---- */

enum part { OF_HEADERS, OF_COLUMNS, REST, ALL, PARTS };

/* A cell that is cut after one column takes the headers and that column, found in the cache; what a whole intake takes beyond the
 * headers and that for each column is memory that is waited for. */
static double part_in(const struct lap *all, enum part part, int round) {
    double whole = all->seconds[round], headers = beside(all, HEADERS, all->who)->seconds[round];
    double columns = (beside(all, ONE_COLUMN, all->who)->seconds[round] - headers) * (double)all->cell->columns;
    const double value[PARTS] = {headers, columns, whole - headers - columns, whole};
    return value[part];
}

static void print_part(const struct lap *all, enum part part) {
    static const char *const names[PARTS] = {"headers", "columns, from the cache", "rest", "all"};
    double time[ROUNDS], share[ROUNDS];
    for (int i = 0; i < ROUNDS; i++) {
        time[i] = 1e6 * part_in(all, part, i);
        share[i] = 100 * part_in(all, part, i) / all->seconds[i];
    }
    double middle = spread_of(time).middle;
    printf("%-14s  %-9s  %-23s  %12.*f  %7.1f%%\n", all->who, cpu_name(all->cpu), names[part], places(middle), middle,
           spread_of(share).middle);
}

void print_parts(void) {
    printf("\n%-14s  %-9s  %-23s  %12s  %8s\n", "intake by", "for", "part", "microseconds", "share");
    for (const struct lap *lap = laps; lap < laps + lap_count; lap++)
        if (lap->act == INTAKE && lap->with && is_at(lap, LEVELS - 1))
            for (enum part part = OF_HEADERS; part < PARTS; part++)
                print_part(lap, part);
}
