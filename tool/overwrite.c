/* For fallocate. */
#define _GNU_SOURCE

#include "overwrite.h"

#include <errno.h>
#include <fcntl.h>
#include <stdlib.h>
#include <sys/stat.h>
#include <unistd.h>

bool write_all(int descriptor, const void *bytes, size_t length)
{
    const uint8_t *next = bytes;
    while (length > 0) {
        ssize_t now = write(descriptor, next, length);
        if (now < 0 && errno != EINTR)
            return false;
        next += now > 0 ? now : 0;
        length -= now > 0 ? (size_t)now : 0;
    }
    return true;
}

bool sync_file(int descriptor)
{
    return fsync(descriptor) == 0 || errno == EINVAL || errno == ENOTSUP;
}

static bool is_at_start(int descriptor)
{
    return lseek(descriptor, 0, SEEK_SET) == 0;
}

static bool read_old(overwriting *w)
{
    size_t done = 0;
    while (done < w->old_length) {
        ssize_t now = pread(w->descriptor, w->old + done, w->old_length - done, (off_t)done);
        if (now < 0)
            return false;
        if (now == 0)
            w->old_length = done;
        done += (size_t)now;
    }
    return true;
}

/* Some file systems cannot set room aside. There a full disk shows in writing. */
static bool has_room(int descriptor, size_t length)
{
    return fallocate(descriptor, FALLOC_FL_KEEP_SIZE, 0, (off_t)length) == 0 || errno == ENOTSUP || errno == ENOSYS ||
           errno == EINVAL;
}

bool begin_overwriting(overwriting *w, int descriptor, size_t length)
{
    struct stat found;
    *w = (overwriting){ .descriptor = descriptor };
    if (fstat(descriptor, &found) != 0)
        return false;
    w->old_size = found.st_size;
    w->old_length = found.st_size < (off_t)length ? (size_t)found.st_size : length;
    w->old = malloc(w->old_length + 1);
    return w->old != NULL && read_old(w) && has_room(descriptor, length);
}

bool overwrite(overwriting *w, const void *bytes, size_t length)
{
    return is_at_start(w->descriptor) && write_all(w->descriptor, bytes, length);
}

bool cut_overwritten(const overwriting *w, size_t length)
{
    return ftruncate(w->descriptor, (off_t)length) == 0 && sync_file(w->descriptor);
}

bool put_back(const overwriting *w)
{
    return is_at_start(w->descriptor) && write_all(w->descriptor, w->old, w->old_length) &&
           cut_overwritten(w, (size_t)w->old_size);
}

void end_overwriting(overwriting *w)
{
    free(w->old);
    w->old = NULL;
    if (w->descriptor >= 0)
        close(w->descriptor);
    w->descriptor = -1;
}
