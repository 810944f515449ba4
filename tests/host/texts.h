/* texts.h - sets of short texts: each text that a header field may ever hold. */
#ifndef TEXTS_H
#define TEXTS_H

#include <stdbool.h>
#include <stddef.h>

struct text {
    char bytes[16]; /* zeros behind the text */
    size_t count;
};

struct texts {
    struct text *list;
    size_t count, room;
};

/* Adds a text; a text may be added many times until the set is closed. Ends the program where there is no memory. */
void texts_add(struct texts *texts, const struct text *text);

/* Sorts the set and keeps each text once: from here on it can be asked. */
void texts_close(struct texts *texts);

bool texts_have(const struct texts *texts, const struct text *text);

#endif
