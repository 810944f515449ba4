/* years.h - the rule years: an unknown one in every call, and what years 1 and 2 make of the same bytes. */
#ifndef YEARS_H
#define YEARS_H

#include "cells.h"
#include "numbers.h"

/* Names one unknown year in each call that takes a year, over the cell that is lent: it is refused before all else. */
void years_unknown(struct random *random, const struct cell *cell);

/* Judges, reads and edits a cell, damaged or not, under both years. */
void years_on_cell(struct random *random, const struct cell *cell);

/* Writes a cell's grid under both years. */
void years_in_writer(const struct cell *cell);

/* Whether so many cases met what differs from year to year, and what does not. */
void expect_years_seen(uint64_t cases);

#endif
