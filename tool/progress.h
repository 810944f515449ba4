/* progress.h - how far a run has come, on standard error where that is a terminal. */
#ifndef PROGRESS_H
#define PROGRESS_H

#include <stddef.h>
#include <stdint.h>

struct progress {
    size_t files, done, refused;
    size_t width;      /* of the text that is shown; 0 where there is none */
    int64_t shown_at;  /* in milliseconds */
};

/* Shows it, at most ten times a second; nothing for one file alone. */
void show_progress(struct progress *progress);

/* Takes it away before a line goes to this descriptor, where that is a terminal. */
void wipe_progress(struct progress *progress, int descriptor);

#endif
