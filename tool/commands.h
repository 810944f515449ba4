/* commands.h - the commands. Each is lent room for a cell with the rule year in it, and its own words, of which main.c has counted that
 * they are there; null ends them. Each answers an exit status. */
#ifndef COMMANDS_H
#define COMMANDS_H

#include "cells.h"

int check(struct cell *cell, char **words);
int info(struct cell *cell, char **words);
int post(struct cell *cell, char **words);
int at(struct cell *cell, char **words);
int set(struct cell *cell, char **words);
int relief(struct cell *cell, char **words);

#endif
