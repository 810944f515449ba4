/* files.h - bytes of files, whole: reads and writes that are cut short or broken by a signal go on. Each is false where it failed,
 * and errno says why. */
#ifndef FILES_H
#define FILES_H

#include <stdbool.h>
#include <stddef.h>
#include <stdint.h>

/* Standard input, output and error that were closed are taken, so that no file gets their numbers; to use them fails as before. */
bool take_closed(void);

/* Reads to the end or until `room` is full. */
bool read_all(int descriptor, uint8_t *bytes, size_t room, size_t *length);

/* The same for a file by its name; `-` is standard input. */
bool read_file(const char *name, uint8_t *bytes, size_t room, size_t *length);

bool write_all(int descriptor, const void *bytes, size_t length);

/* Closes what was read, or written and synced, where errno has still to be told. */
void close_silently(int descriptor);

#endif
