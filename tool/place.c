/* For O_PATH and fstatfs. */
#define _GNU_SOURCE

#include "place.h"

#include <errno.h>
#include <fcntl.h>
#include <limits.h>
#include <stdlib.h>
#include <string.h>
#include <sys/vfs.h>
#include <unistd.h>

#include "file.h"

/* As many links as the kernel follows. */
enum { MOST_LINKS = 40, PROC_FILE_SYSTEM = 0x9FA0 };

int keep_above_standard(int descriptor)
{
    if (descriptor < 0 || descriptor > STDERR_FILENO)
        return descriptor;
    int moved = fcntl(descriptor, F_DUPFD_CLOEXEC, STDERR_FILENO + 1);
    close(descriptor);
    return moved;
}

static bool is_one_file(const struct stat *a, const struct stat *b)
{
    return a->st_dev == b->st_dev && a->st_ino == b->st_ino;
}

/* ---- Following a name ---- */

/* Opens the folder of the path's last name. Links are relative to the folder they are in, so that one is the start. */
static bool enter_folder(place *p, const char *path)
{
    char folder[PATH_MAX] = ".";
    const char *slash = strrchr(path, '/'), *last = slash != NULL ? slash + 1 : path;
    if (*last == '\0') {
        errno = fstatat(p->folder, path, &p->found, 0) == 0 ? EISDIR : errno;
        return false;
    }
    errno = ENAMETOOLONG;
    if (strlen(last) > MOST_LAST_NAME)
        return false;
    if (slash != NULL)
        *(char *)mempcpy(folder, path, (size_t)(last - path)) = '\0';
    int entered = keep_above_standard(openat(p->folder, folder, O_PATH | O_DIRECTORY | O_CLOEXEC));
    if (entered < 0)
        return false;
    leave_place(p);
    p->folder = entered;
    strcpy(p->last, last);
    return true;
}

static bool is_folder(int folder, const char *name)
{
    struct stat named, found;
    return stat(name, &named) == 0 && fstat(folder, &found) == 0 && is_one_file(&named, &found);
}

static bool holds_own_descriptors(int folder)
{
    return is_folder(folder, "/proc/self/fd") || is_folder(folder, "/proc/thread-self/fd");
}

/* A descriptor that the caller has opened stays open when a program is executed. Those opened here do not. */
static bool is_callers(int descriptor)
{
    int flags = fcntl(descriptor, F_GETFD);
    return flags >= 0 && (flags & FD_CLOEXEC) == 0;
}

static bool take_descriptor(place *p)
{
    char *end = NULL;
    long number = strtol(p->last, &end, 10);
    bool is_number = '0' <= p->last[0] && p->last[0] <= '9' && *end == '\0';
    p->descriptor = is_number && number <= INT_MAX ? (int)number : -1;
    p->exists = is_callers(p->descriptor) && fstat(p->descriptor, &p->found) == 0;
    errno = is_number ? EBADF : ENOENT;
    leave_place(p);
    return p->exists;
}

/* The links in /proc are descriptors of other processes: what they say is no name. */
static bool is_in_proc(int folder)
{
    struct statfs found;
    return fstatfs(folder, &found) == 0 && found.f_type == PROC_FILE_SYSTEM;
}

/* Asks the kernel first, which may refuse to follow a link of someone else's. */
static bool look_at(place *p)
{
    p->exists = fstatat(p->folder, p->last, &p->found, 0) == 0;
    if (p->exists && S_ISDIR(p->found.st_mode)) {
        errno = EISDIR;
        return false;
    }
    p->is_fixed = (p->exists && !S_ISREG(p->found.st_mode)) || is_in_proc(p->folder);
    return p->exists || errno == ENOENT;
}

/* Whether the place is a link that leads to another name. Gives that name. */
static bool is_link(const place *p, char path[PATH_MAX])
{
    ssize_t length = is_in_proc(p->folder) ? -1 : readlinkat(p->folder, p->last, path, PATH_MAX - 1);
    if (length >= 0)
        path[length] = '\0';
    return length >= 0;
}

static bool follow(place *p, char path[PATH_MAX])
{
    for (int links = 0; links <= MOST_LINKS; links++) {
        if (!enter_folder(p, path))
            return false;
        if (holds_own_descriptors(p->folder))
            return take_descriptor(p);
        if (!look_at(p))
            return false;
        if (!is_link(p, path))
            return true;
    }
    errno = ELOOP;
    return false;
}

bool find_place(const char *name, place *p)
{
    char path[PATH_MAX];
    *p = (place){ .descriptor = -1, .folder = AT_FDCWD };
    errno = ENAMETOOLONG;
    if (strlen(name) >= sizeof path)
        return false;
    strcpy(path, name);
    if (follow(p, path))
        return true;
    leave_place(p);
    return false;
}

void leave_place(place *p)
{
    int reason = errno;
    if (p->folder >= 0)
        close(p->folder);
    p->folder = -1;
    errno = reason;
}

bool may_be_written(const place *p)
{
    return p->descriptor >= 0 || !p->exists || faccessat(p->folder, p->last, W_OK, 0) == 0;
}

/* ---- Comparing places ---- */

bool is_standard_output(const char *name)
{
    place p;
    if (is_standard(name))
        return true;
    bool is_found = find_place(name, &p);
    leave_place(&p);
    return is_found && p.descriptor == STDOUT_FILENO;
}

static bool are_one_descriptor(const place *a, const place *b)
{
    return a->descriptor >= 0 && a->descriptor == b->descriptor;
}

static bool are_one_regular_file(const place *a, const place *b)
{
    return a->exists && b->exists && S_ISREG(a->found.st_mode) && is_one_file(&a->found, &b->found);
}

static bool are_one_free_place(const place *a, const place *b)
{
    struct stat folder_a, folder_b;
    return !a->exists && !b->exists && strcmp(a->last, b->last) == 0 && fstat(a->folder, &folder_a) == 0 &&
           fstat(b->folder, &folder_b) == 0 && is_one_file(&folder_a, &folder_b);
}

/* '-' is this descriptor. */
static bool find_standard_or_place(const char *name, int standard, place *p)
{
    if (!is_standard(name))
        return find_place(name, p);
    *p = (place){ .descriptor = standard, .folder = -1 };
    p->exists = fstat(standard, &p->found) == 0;
    return p->exists;
}

static bool are_one(const char *a, int standard_a, const char *b, int standard_b)
{
    place place_a, place_b;
    bool are_found = find_standard_or_place(a, standard_a, &place_a);
    are_found = find_standard_or_place(b, standard_b, &place_b) && are_found;
    bool are_one = are_found && (are_one_descriptor(&place_a, &place_b) || are_one_regular_file(&place_a, &place_b) ||
                                 are_one_free_place(&place_a, &place_b));
    leave_place(&place_a);
    leave_place(&place_b);
    return are_one;
}

bool are_one_output(const char *a, const char *b)
{
    return are_one(a, STDOUT_FILENO, b, STDOUT_FILENO);
}

bool is_output_read(const char *output, const char *input)
{
    return are_one(output, STDOUT_FILENO, input, STDIN_FILENO);
}
