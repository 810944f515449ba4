/* files.c - bytes of files, read and written whole. */
#define _POSIX_C_SOURCE 200809L
#include "files.h"

#include <errno.h>
#include <fcntl.h>
#include <string.h>
#include <unistd.h>

bool take_closed(void) {
    for (int descriptor = 0; descriptor <= STDERR_FILENO; descriptor++) {
        /* the wrong way round: reading standard input fails, and so does writing the others */
        int way = descriptor == STDIN_FILENO ? O_WRONLY : O_RDONLY;
        if (fcntl(descriptor, F_GETFD) < 0 && open("/dev/null", way) != descriptor)
            return false;
    }
    return true;
}

bool read_all(int descriptor, uint8_t *bytes, size_t room, size_t *length) {
    *length = 0;
    while (*length < room) {
        ssize_t more = read(descriptor, bytes + *length, room - *length);
        if (more == 0)
            break;
        if (more > 0)
            *length += (size_t)more;
        else if (errno != EINTR)
            return false;
    }
    return true;
}

void close_silently(int descriptor) {
    int why = errno;
    close(descriptor);
    errno = why;
}

bool read_file(const char *name, uint8_t *bytes, size_t room, size_t *length) {
    if (strcmp(name, "-") == 0)
        return read_all(STDIN_FILENO, bytes, room, length);
    int descriptor = open(name, O_RDONLY);
    if (descriptor < 0)
        return false;
    bool good = read_all(descriptor, bytes, room, length);
    close_silently(descriptor);
    return good;
}

bool write_all(int descriptor, const void *bytes, size_t length) {
    const uint8_t *next = bytes;
    while (length > 0) {
        ssize_t done = write(descriptor, next, length);
        if (done < 0 && errno != EINTR)
            return false;
        if (done > 0) {
            next += done;
            length -= (size_t)done;
        }
    }
    return true;
}
