/* stored.h - the stored cells, from the folder that is given when this is compiled. */
#ifndef STORED_H
#define STORED_H

#include <stddef.h>

/* The front of a stored file, as much as there is room for; SIZE_MAX where there is no such file. */
size_t stored_read(const char *name, void *to, size_t room);

#endif
