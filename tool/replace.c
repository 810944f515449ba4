/* replace.c - a file that is replaced by another of its name, whole or not at all. */
#define _XOPEN_SOURCE 700 /* realpath */
#include "replace.h"
#include "files.h"
#include "say.h"

#include <errno.h>
#include <fcntl.h>
#include <stdio.h>
#include <stdlib.h>
#include <string.h>
#include <sys/file.h>
#include <unistd.h>

/* Whether the path still leads to the file that is open: who waited for the lock may hold one that was replaced meanwhile. */
static bool is_there(const struct locked *file) {
    struct stat now;
    return stat(file->path, &now) == 0 && now.st_dev == file->status.st_dev && now.st_ino == file->status.st_ino;
}

/* Opens the file at the path and locks it; false, with a reason, where it cannot. It is opened for writing, though nothing is written
 * to it: a cell that may not be written is not replaced. */
static bool open_locked(struct locked *file, const char **why) {
    file->descriptor = open(file->path, O_RDWR | O_NONBLOCK | O_NOCTTY); /* a pipe is told, not waited for */
    bool good = file->descriptor >= 0 && fstat(file->descriptor, &file->status) == 0;
    bool regular = good && S_ISREG(file->status.st_mode);
    if (regular && flock(file->descriptor, LOCK_EX) == 0)
        return true;
    *why = good && !regular ? "not a regular file" : strerror(errno);
    if (file->descriptor >= 0)
        close(file->descriptor);
    return false;
}

int lock_file(struct locked *file, const char *name) {
    const char *why;
    for (;;) {
        if (!realpath(name, file->path))
            return complain(TROUBLE, name, strerror(errno));
        if (!open_locked(file, &why))
            return complain(TROUBLE, name, why);
        if (is_there(file))
            return DONE;
        close(file->descriptor);
    }
}

/* Gives a new file the old one's owner and group; where that is not allowed the group alone, so that a file which a group shares
 * stays with it; where that is not allowed either it stays the caller's. */
static bool hand_over(int descriptor, const struct stat *like) {
    if (fchown(descriptor, like->st_uid, like->st_gid) == 0)
        return true;
    return errno == EPERM && (fchown(descriptor, (uid_t)-1, like->st_gid) == 0 || errno == EPERM);
}

/* Fills a new file, like the old one but for its bytes, and has the disk take it. A new owner takes bits from the mode: it comes
 * after. */
static bool fill(int descriptor, const struct stat *like, const uint8_t *bytes, size_t length) {
    return hand_over(descriptor, like) && fchmod(descriptor, like->st_mode & 07777) == 0 && write_all(descriptor, bytes, length) &&
           fsync(descriptor) == 0;
}

/* Makes the new file, its name from a pattern for mkstemp, and renames it; where that fails, it is removed. */
static bool put_in_place(char *made, const struct locked *file, const uint8_t *bytes, size_t length) {
    int descriptor = mkstemp(made);
    if (descriptor < 0)
        return false;
    bool good = fill(descriptor, &file->status, bytes, length);
    close_silently(descriptor);
    if (good && rename(made, file->path) == 0)
        return true;
    int why = errno;
    unlink(made);
    errno = why;
    return false;
}

/* Has the disk take a folder's names; there are file systems on which that cannot be asked for. */
static bool sync_folder(int descriptor) {
    return fsync(descriptor) == 0 || errno == EINVAL;
}

int replace_file(const struct locked *file, const char *name, const uint8_t *bytes, size_t length) {
    char folder[PATH_MAX], made[2 * PATH_MAX];
    const char *base = strrchr(file->path, '/') + 1;
    snprintf(folder, sizeof folder, "%.*s", (int)(base - file->path), file->path);
    /* hidden, and with an end that no cell has; a long name is cut, so that the new one is not too long */
    snprintf(made, sizeof made, "%s.%.200s.dted-XXXXXX", folder, base);
    int descriptor = open(folder, O_RDONLY | O_DIRECTORY); /* before anything is changed: it may fail */
    if (descriptor < 0)
        return complain(TROUBLE, name, strerror(errno));
    bool good = put_in_place(made, file, bytes, length) && sync_folder(descriptor);
    close_silently(descriptor);
    return good ? DONE : complain(TROUBLE, name, strerror(errno));
}
