/* check.c - dted check: one line for each file, accepted or refused. */
#include "commands.h"
#include "files.h"
#include "progress.h"
#include "say.h"

#include <errno.h>
#include <unistd.h>

/* Reads a file; where it cannot be read, that is told. */
static bool read_told(struct cell *cell, const char *name, struct progress *progress) {
    if (read_file(name, cell->bytes, CELL_ROOM, &cell->length))
        return true;
    const char *why = strerror(errno);
    wipe_progress(progress, STDERR_FILENO);
    complain(TROUBLE, name, why);
    return false;
}

/* The line of a file that was read. */
static int say_verdict(struct cell *cell, const char *name, struct progress *progress) {
    cell->grid = dted_intake(cell->year, cell->bytes, cell->length);
    wipe_progress(progress, STDOUT_FILENO);
    if (dted_number(cell->grid) == DTED_OK)
        return say(STDOUT_FILENO, "%s: accepted, %s\n", shown(name), grid_words(cell->grid));
    int status = say(STDOUT_FILENO, "%s: %s\n", shown(name), refusal_words(cell, cell->grid));
    return status == DONE ? REFUSED : status;
}

int check(struct cell *cell, char **words) {
    struct progress progress = {0};
    int highest = DONE;
    while (words[progress.files])
        progress.files++;
    for (; progress.done < progress.files; progress.done++) {
        show_progress(&progress);
        const char *name = words[progress.done];
        bool there = read_told(cell, name, &progress);
        int status = there ? say_verdict(cell, name, &progress) : TROUBLE;
        progress.refused += status == REFUSED;
        highest = status > highest ? status : highest;
        if (there && status == TROUBLE)
            break; /* the line was not written: so would be no other */
    }
    wipe_progress(&progress, STDERR_FILENO);
    return highest;
}
