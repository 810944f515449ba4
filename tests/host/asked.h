/* asked.h - numbers to call with: mostly right for a cell, at its edges, or far out. */
#ifndef ASKED_H
#define ASKED_H

#include "cells.h"
#include "numbers.h"

uint64_t any_column(struct random *random, const struct cell *cell);
uint64_t any_post(struct random *random, const struct cell *cell);

/* In tenths of arc-seconds. */
int64_t any_latitude(struct random *random, const struct cell *cell);
int64_t any_longitude(struct random *random, const struct cell *cell);

/* Void at times, and at times no height at all. */
int64_t any_height(struct random *random);

/* Neither 1 nor 2, often one that would be, cut to fewer bits. */
uint32_t any_unknown_year(struct random *random);

#endif
