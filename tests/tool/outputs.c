/* Writes files with the tool's own code, over a system that fails or sends a signal where it is told to.
 *
 *   outputs [CALL=NUMBER[+]:WHAT ..] [timeout=MILLISECONDS] [TEXT>NAME ..]
 *
 * The call of this number, counted from 1, and with a + all after it, fail for the reason WHAT, as EIO. If that is a
 * signal, as TERM, they send it to this program first; SLEEP waits a while. Each file gets its text. The exit status is
 * 0 if all are written. */
#define _GNU_SOURCE

#include <errno.h>
#include <signal.h>
#include <stdbool.h>
#include <stdio.h>
#include <stdlib.h>
#include <string.h>
#include <sys/types.h>
#include <time.h>

#include "../../tool/clock.h"
#include "../../tool/output.h"

/* ---- What is to go wrong ---- */

typedef struct {
    const char *name;
    int number;
} named_number;

static const named_number reasons[] = {
    { "EIO", EIO },       { "EBUSY", EBUSY },   { "EPERM", EPERM },     { "ENOSPC", ENOSPC },
    { "EINVAL", EINVAL }, { "EEXIST", EEXIST }, { "ENOTSUP", ENOTSUP },
};
static const named_number signals[] = { { "TERM", SIGTERM }, { "INT", SIGINT }, { "HUP", SIGHUP } };

enum { REASONS = sizeof reasons / sizeof reasons[0], SIGNALS = sizeof signals / sizeof signals[0], MOST_TROUBLES = 8 };

typedef struct {
    char call[16], what[16];
    int from, to;
} trouble;

static trouble troubles[MOST_TROUBLES];
static int trouble_count;

static int number_of(const char *name, const named_number *known, int count)
{
    for (int n = 0; n < count; n++)
        if (strcmp(known[n].name, name) == 0)
            return known[n].number;
    return 0;
}

static bool read_trouble(const char *text)
{
    trouble t = { .from = 0 };
    char plus = '\0';
    if (sscanf(text, "%15[a-z]=%d:%15s", t.call, &t.from, t.what) == 3)
        t.to = t.from;
    else if (sscanf(text, "%15[a-z]=%d%c:%15s", t.call, &t.from, &plus, t.what) == 4 && plus == '+')
        t.to = 1000;
    else
        return false;
    troubles[trouble_count++] = t;
    return true;
}

static void wait_a_while(void)
{
    struct timespec left = { 0, 300000000 };
    while (nanosleep(&left, &left) != 0)
        continue;
}

/* Whether this call is to fail. */
static bool has_trouble(const char *call, int number)
{
    for (int n = 0; n < trouble_count; n++) {
        const trouble *t = &troubles[n];
        if (strcmp(t->call, call) != 0 || number < t->from || t->to < number)
            continue;
        if (strcmp(t->what, "SLEEP") == 0)
            wait_a_while();
        if (number_of(t->what, signals, SIGNALS) != 0)
            raise(number_of(t->what, signals, SIGNALS));
        errno = number_of(t->what, reasons, REASONS);
        if (errno != 0)
            return true;
    }
    return false;
}

/* ---- The calls, as the linker puts them before those of the system ---- */

#define TROUBLED(call, parameters, values)                                                                             \
    int __real_##call parameters;                                                                                      \
    int __wrap_##call parameters;                                                                                      \
    int __wrap_##call parameters                                                                                       \
    {                                                                                                                  \
        static int number;                                                                                             \
        return has_trouble(#call, ++number) ? -1 : __real_##call values;                                               \
    }

TROUBLED(renameat, (int from, const char *old, int to, const char *new), (from, old, to, new))
TROUBLED(linkat, (int from, const char *old, int to, const char *new, int flags), (from, old, to, new, flags))
TROUBLED(unlinkat, (int folder, const char *name, int flags), (folder, name, flags))
TROUBLED(fsync, (int descriptor), (descriptor))
TROUBLED(fchown, (int descriptor, uid_t user, gid_t group), (descriptor, user, group))
TROUBLED(fchmod, (int descriptor, mode_t mode), (descriptor, mode))
TROUBLED(ftruncate, (int descriptor, off_t length), (descriptor, length))
TROUBLED(fallocate, (int descriptor, int mode, off_t start, off_t length), (descriptor, mode, start, length))

ssize_t __real_write(int descriptor, const void *bytes, size_t length);
ssize_t __wrap_write(int descriptor, const void *bytes, size_t length);

/* Half of the bytes are written before it fails. */
ssize_t __wrap_write(int descriptor, const void *bytes, size_t length)
{
    static int number;
    if (!has_trouble("write", ++number))
        return __real_write(descriptor, bytes, length);
    int reason = errno;
    if (__real_write(descriptor, bytes, length / 2) < 0)
        return -1;
    errno = reason;
    return -1;
}

/* ---- The whole ---- */

static bool read_output(char *text, output *o)
{
    char *name = strchr(text, '>');
    if (name == NULL)
        return false;
    *name = '\0';
    *o = (output){ name + 1, text, strlen(text) };
    return true;
}

int main(int count, char **arguments)
{
    static const command draw = { .name = "draw" };
    order o = { .command = &draw };
    output outputs[MOST_OUTPUTS];
    size_t written = 0;
    for (int n = 1; n < count; n++) {
        if (sscanf(arguments[n], "timeout=%u", &o.timeout) == 1 || read_trouble(arguments[n]))
            continue;
        if (written == MOST_OUTPUTS || !read_output(arguments[n], &outputs[written++]))
            return 2;
    }
    start_clock(&o);
    return write_outputs(outputs, written) ? EXIT_SUCCESS : EXIT_FAILURE;
}
