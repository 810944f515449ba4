/* texts.c - sets of short texts: each text that a header field may ever hold. */
#include "texts.h"

#include <stdio.h>
#include <stdlib.h>
#include <string.h>

static int compared(const void *one, const void *other) {
    const struct text *a = one, *b = other;
    return memcmp(a->bytes, b->bytes, sizeof a->bytes);
}

void texts_add(struct texts *texts, const struct text *text) {
    if (texts->count > 0 && compared(&texts->list[texts->count - 1], text) == 0)
        return; /* most texts come many times in a row */
    if (texts->count == texts->room) {
        texts->room = texts->room == 0 ? 64 : 2 * texts->room;
        texts->list = realloc(texts->list, texts->room * sizeof *texts->list);
        if (texts->list == NULL) {
            perror("realloc");
            exit(2);
        }
    }
    texts->list[texts->count++] = *text;
}

void texts_close(struct texts *texts) {
    size_t kept = 0;
    qsort(texts->list, texts->count, sizeof *texts->list, compared);
    for (size_t i = 0; i < texts->count; i++)
        if (kept == 0 || compared(&texts->list[kept - 1], &texts->list[i]) != 0)
            texts->list[kept++] = texts->list[i];
    texts->count = kept;
}

bool texts_have(const struct texts *texts, const struct text *text) {
    return bsearch(text, texts->list, texts->count, sizeof *texts->list, compared) != NULL;
}
