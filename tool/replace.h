/* replace.h - a file that is replaced by another of its name: whoever opens the name finds the old one whole or the new one whole,
 * also after a crash. */
#ifndef REPLACE_H
#define REPLACE_H

#include <limits.h>
#include <stddef.h>
#include <stdint.h>
#include <sys/stat.h>

/* A file under a lock, which closing its descriptor ends. */
struct locked {
    int descriptor;
    char path[PATH_MAX];
    struct stat status;
};

/* Opens and locks a regular file; where the name is a link, the file that it leads to. TROUBLE, told, where it cannot. */
int lock_file(struct locked *file, const char *name);

/* Puts a new file with these bytes in its place, with its mode, and with its owner and group, or its group, where that is allowed.
 * TROUBLE, told, where it cannot: then the old file is there as it was, or, where the folder alone did not reach the disk, the new
 * one. */
int replace_file(const struct locked *file, const char *name, const uint8_t *bytes, size_t length);

#endif
