/* files.h - what the examples share: a file read whole, a file written whole, a refusal in words, a number
 * from an argument. */
#ifndef FILES_H
#define FILES_H

#include <dted_words.h>
#include <errno.h>
#include <inttypes.h>
#include <stdio.h>
#include <stdlib.h>

/* Exit statuses. */
enum { DONE = 0, REFUSED = 1, TROUBLE = 2 };

/* The bytes of a file, for the caller to free; null, with a line on standard error, where it cannot be read. With one byte more
 * than the longest cell has, a file that goes on is told from one that ends there. */
static inline uint8_t *read_file(const char *name, size_t *length) {
    size_t most = DTED_LONGEST_CELL + 1;
    uint8_t *bytes = malloc(most);
    FILE *file = bytes ? fopen(name, "rb") : NULL;
    int good = file != NULL;
    if (good) {
        *length = fread(bytes, 1, most, file);
        good = !ferror(file);
    }
    if (!good) {
        perror(name);
        free(bytes);
        bytes = NULL;
    }
    if (file)
        fclose(file);
    return bytes;
}

/* Writes the bytes as a file. */
static inline int write_file(const char *name, const uint8_t *bytes, size_t length) {
    FILE *file = fopen(name, "wb");
    int good = file && fwrite(bytes, 1, length, file) == length;
    if (file && fclose(file) != 0)
        good = 0;
    if (!good)
        perror(name);
    return good ? DONE : TROUBLE;
}

/* A line on standard error for a refused answer, in the words of dted_words.h. */
static inline int refused(const char *what, dted_answer answer) {
    char text[DTED_WORDS_ROOM];
    fprintf(stderr, "%s: %s\n", what, dted_refusal(text, sizeof text, answer));
    return REFUSED;
}

/* A whole number, of all of its text; 0, with a line on standard error, where it is none. */
static inline int is_number(const char *text, int64_t *value) {
    char *end;
    errno = 0;
    *value = strtoll(text, &end, 10);
    if (errno == 0 && end != text && *end == '\0')
        return 1;
    fprintf(stderr, "%s: not a number\n", text);
    return 0;
}

#endif
