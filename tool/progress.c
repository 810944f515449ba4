/* progress.c - how far a run has come, on a terminal. */
#define _POSIX_C_SOURCE 200809L
#include "progress.h"
#include "files.h"

#include <stdio.h>
#include <time.h>
#include <unistd.h>

/* Milliseconds of a clock that nobody sets; never 0. */
static int64_t clock_now(void) {
    struct timespec now;
    clock_gettime(CLOCK_MONOTONIC, &now);
    return (int64_t)now.tv_sec * 1000 + now.tv_nsec / 1000000 + 1;
}

void show_progress(struct progress *progress) {
    char text[80];
    if (progress->files < 2 || !isatty(STDERR_FILENO))
        return;
    int64_t now = clock_now();
    if (progress->shown_at != 0 && now - progress->shown_at < 100)
        return;
    /* back at the start of the row, so that a line from elsewhere goes over it */
    int length = snprintf(text, sizeof text, "\r %zu of %zu, %zu refused\r", progress->done, progress->files, progress->refused);
    write_all(STDERR_FILENO, text, (size_t)length);
    progress->width = (size_t)length - 2;
    progress->shown_at = now;
}

void wipe_progress(struct progress *progress, int descriptor) {
    char text[80];
    if (progress->width == 0 || !isatty(descriptor))
        return;
    int length = snprintf(text, sizeof text, "\r%*s\r", (int)progress->width, "");
    write_all(STDERR_FILENO, text, (size_t)length);
    progress->width = 0;
}
