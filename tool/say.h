/* say.h - lines for people. A line goes out by one write, so that lines of programs that share a pipe do not mix. */
#ifndef SAY_H
#define SAY_H

#include <stdbool.h>

/* Exit statuses; of several the highest counts. */
enum { DONE = 0, REFUSED = 1, TROUBLE = 2 };

/* A name as a line shows it: control bytes as `?`, so that a line stays a line. Good until the next call. */
const char *shown(const char *name);

/* A line, its end given with it. Where standard output does not take it, that is told, and TROUBLE. */
int say(int descriptor, const char *format, ...) __attribute__((format(printf, 2, 3)));

/* `dted: NAME: WHY` on standard error; the status is handed back. */
int complain(int status, const char *name, const char *why);

/* The same for a word of the command line that is not what is due there; false. */
bool wrong_word(const char *word, const char *why);

#endif
