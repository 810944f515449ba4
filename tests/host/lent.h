/* lent.h - memory to lend to a call: it stands flush against a page that cannot be touched, before or after it. */
#ifndef LENT_H
#define LENT_H

#include <stdbool.h>
#include <stddef.h>
#include <stdint.h>

enum side { AT_START, AT_END };

struct lent {
    uint8_t *first, *end; /* the pages that can be touched; the pages before and after cannot */
    uint8_t *bytes;       /* what is lent of them */
    size_t length;
    enum side side;
    bool read_only;
};

/* Maps pages for up to `most` bytes. Ends the program where there is no memory. */
void lent_map(struct lent *lent, size_t most);

/* Lends `length` bytes at the start or at the end of the pages, writable, and marks the margin on the open side. */
uint8_t *lent_place(struct lent *lent, enum side side, size_t length);

/* Forbids or allows writing to the bytes lent: what a call may only read stands where a write is a fault. */
void lent_protect(struct lent *lent, bool read_only);

/* Whether the margin is as it was marked. */
bool lent_margin_kept(const struct lent *lent);

#endif
