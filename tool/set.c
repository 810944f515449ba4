/* set.c - dted set: one post of a cell made another height, or void. */
#define _POSIX_C_SOURCE 200809L
#include "commands.h"
#include "files.h"
#include "numbers.h"
#include "replace.h"
#include "say.h"

#include <errno.h>
#include <unistd.h>

/* A correction: which post, what it is to be, and what it was. */
struct correction {
    uint64_t column, post;
    int64_t height;
    int before;
};

/* Reads a cell, judges it whole, and corrects it in memory. */
static int correct(struct cell *cell, int descriptor, const char *name, struct correction *correction) {
    if (!read_all(descriptor, cell->bytes, CELL_ROOM, &cell->length))
        return complain(TROUBLE, name, strerror(errno));
    int status = judge_cell(cell, name);
    if (status != DONE)
        return status;
    dted_answer before = dted_post(cell->year, cell->bytes, cell->length, correction->column, correction->post);
    if (dted_number(before) != DTED_OK)
        return refused(cell, name, before);
    correction->before = dted_height(before);
    dted_answer edit = dted_edit(cell->year, cell->bytes, cell->length, correction->column, correction->post, correction->height);
    return dted_number(edit) == DTED_OK ? DONE : refused(cell, name, edit);
}

/* From standard input to standard output, where nothing but the cell goes. */
static int set_stream(struct cell *cell, struct correction *correction) {
    int status = correct(cell, STDIN_FILENO, "-", correction);
    if (status == DONE && !write_all(STDOUT_FILENO, cell->bytes, cell->length))
        return complain(TROUBLE, "standard output", strerror(errno));
    return status;
}

/* In a file, under a lock from before it is read until it is replaced, so that of two corrections at once both are kept. */
static int set_file(struct cell *cell, const char *name, struct correction *correction) {
    char before[HEIGHT_ROOM], after[HEIGHT_ROOM];
    struct locked file;
    int status = lock_file(&file, name);
    if (status != DONE)
        return status;
    status = correct(cell, file.descriptor, name, correction);
    if (status == DONE)
        status = replace_file(&file, name, cell->bytes, cell->length);
    close(file.descriptor);
    if (status != DONE)
        return status;
    return say(STDOUT_FILENO, "%s: column %" PRIu64 ", post %" PRIu64 ": %s, now %s\n", shown(name), correction->column,
               correction->post, height_words(before, correction->before), height_words(after, (int)correction->height));
}

int set(struct cell *cell, char **words) {
    struct correction correction = {0};
    if (!take_count(words[1], &correction.column) || !take_count(words[2], &correction.post))
        return TROUBLE;
    if (!take_height(words[3], &correction.height))
        return TROUBLE;
    return strcmp(words[0], "-") == 0 ? set_stream(cell, &correction) : set_file(cell, words[0], &correction);
}
