/* say.c - lines for people: each goes out by one write. */
#define _POSIX_C_SOURCE 200809L
#include "say.h"
#include "files.h"

#include <ctype.h>
#include <errno.h>
#include <limits.h>
#include <stdarg.h>
#include <stdio.h>
#include <string.h>
#include <unistd.h>

const char *shown(const char *name) {
    static char text[PATH_MAX];
    size_t length = 0;
    for (; name[length] && length + 1 < sizeof text; length++)
        text[length] = name[length];
    text[length] = '\0';
    for (char *byte = text; *byte; byte++)
        if (iscntrl((unsigned char)*byte))
            *byte = '?';
    return text;
}

int say(int descriptor, const char *format, ...) {
    char line[PATH_MAX + 512]; /* a name, and more than any line has beside it */
    va_list values;
    va_start(values, format);
    vsnprintf(line, sizeof line, format, values);
    va_end(values);
    if (write_all(descriptor, line, strlen(line)))
        return DONE;
    return descriptor == STDOUT_FILENO ? complain(TROUBLE, "standard output", strerror(errno)) : TROUBLE;
}

int complain(int status, const char *name, const char *why) {
    say(STDERR_FILENO, "dted: %s: %s\n", shown(name), why);
    return status;
}

bool wrong_word(const char *word, const char *why) {
    complain(TROUBLE, word, why);
    return false;
}
