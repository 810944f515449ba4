/* lent.c - memory to lend to a call: it stands flush against a page that cannot be touched, before or after it. */
#define _DEFAULT_SOURCE 1 /* MAP_ANONYMOUS */
#include "lent.h"

#include <stdio.h>
#include <stdlib.h>
#include <sys/mman.h>
#include <unistd.h>

#define MARGIN 64

static void give_up(const char *what) {
    perror(what);
    exit(2);
}

static size_t page_size(void) {
    return (size_t)sysconf(_SC_PAGESIZE);
}

static size_t whole_pages(size_t length) {
    return (length + page_size() - 1) / page_size() * page_size();
}

void lent_map(struct lent *lent, size_t most) {
    size_t inner = whole_pages(most + MARGIN), guard = page_size();
    uint8_t *pages = mmap(NULL, inner + 2 * guard, PROT_NONE, MAP_PRIVATE | MAP_ANONYMOUS, -1, 0);
    if (pages == MAP_FAILED)
        give_up("mmap");
    if (mprotect(pages + guard, inner, PROT_READ | PROT_WRITE) != 0)
        give_up("mprotect");
    *lent = (struct lent){pages + guard, pages + guard + inner, pages + guard, 0, AT_START, false};
}

static uint8_t *margin_of(const struct lent *lent) {
    return lent->side == AT_START ? lent->bytes + lent->length : lent->bytes - MARGIN;
}

static uint8_t mark(size_t i) {
    return (uint8_t)(0xA5 + 31 * i);
}

uint8_t *lent_place(struct lent *lent, enum side side, size_t length) {
    if (length > (size_t)(lent->end - lent->first) - MARGIN) {
        fputs("lent_place: more than was mapped\n", stderr);
        exit(2);
    }
    lent_protect(lent, false);
    lent->side = side;
    lent->length = length;
    lent->bytes = side == AT_START ? lent->first : lent->end - length;
    for (size_t i = 0; i < MARGIN; i++)
        margin_of(lent)[i] = mark(i);
    return lent->bytes;
}

void lent_protect(struct lent *lent, bool read_only) {
    if (lent->read_only == read_only)
        return;
    size_t span = whole_pages(lent->length + MARGIN);
    uint8_t *from = lent->side == AT_START ? lent->first : lent->end - span;
    if (mprotect(from, span, read_only ? PROT_READ : PROT_READ | PROT_WRITE) != 0)
        give_up("mprotect");
    lent->read_only = read_only;
}

bool lent_margin_kept(const struct lent *lent) {
    for (size_t i = 0; i < MARGIN; i++)
        if (margin_of(lent)[i] != mark(i))
            return false;
    return true;
}
