/* same.h - whether two sets of calls answer alike and leave the same bytes. */
#ifndef SAME_H
#define SAME_H

#include "calls.h"

/* Compares them on many small cells, good, damaged, cut and edited, on spoiled headers and on columns of every level with each word
 * changed in turn, on cells of level 1 that are written, and on this large cell; gives the number of comparisons. The program ends with a message where they differ, or where the spoiled headers did not bring out
 * each refusal that each field can give. `spare` has room for the large cell. Cells with the word 8000 are not tried with an older
 * archive: those of before 0.4.0 refuse them. Years other than 1 are named only where neither set is yearless. */
size_t compare(const struct calls *a, const struct calls *b, const uint8_t *large, uint8_t *spare, size_t length);

#endif
