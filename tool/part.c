/* For openat and its kin, sigaction and clock_gettime. */
#define _POSIX_C_SOURCE 200809L

#include "part.h"

#include <errno.h>
#include <fcntl.h>
#include <stdint.h>
#include <stdio.h>
#include <string.h>
#include <time.h>
#include <unistd.h>

#include "message.h"
#include "place.h"

/* A part for each output, and one that keeps the file whose place it takes. The names are enough that those of parts
   that a kill left behind do not matter. */
enum { MOST_PARTS = 6, NAMES = 1 << 24, MOST_TRIES = 1 << 16 };

/* SIGXFSZ is not among them: whoever writes ignores it, and the write fails. */
static const int ending_signals[] = { SIGHUP,  SIGINT,  SIGQUIT, SIGPIPE,   SIGALRM, SIGTERM,
                                      SIGUSR1, SIGUSR2, SIGXCPU, SIGVTALRM, SIGPROF };

enum { ENDING_SIGNALS = sizeof ending_signals / sizeof ending_signals[0] };

/* For the signal handler. */
static part parts[MOST_PARTS];

/* ---- Signals ---- */

void hold_signals(sigset_t *before)
{
    sigset_t held;
    sigemptyset(&held);
    for (int n = 0; n < ENDING_SIGNALS; n++)
        sigaddset(&held, ending_signals[n]);
    sigprocmask(SIG_BLOCK, &held, before);
}

void release_signals(const sigset_t *before)
{
    int reason = errno;
    sigprocmask(SIG_SETMASK, before, NULL);
    errno = reason;
}

/* The signal has its default action again, and is delivered when this returns. */
HANDLER static void end_by_signal(int number)
{
    remove_parts();
    raise(number);
}

void guard_parts(void)
{
    struct sigaction guard = { .sa_handler = end_by_signal, .sa_flags = (int)SA_RESETHAND }, now;
    sigfillset(&guard.sa_mask);
    for (int n = 0; n < ENDING_SIGNALS; n++)
        if (sigaction(ending_signals[n], NULL, &now) == 0 && now.sa_handler == SIG_DFL)
            sigaction(ending_signals[n], &guard, NULL);
}

/* ---- Parts ---- */

static part *find_free_part(void)
{
    for (int n = 0; n < MOST_PARTS; n++)
        if (!parts[n].exists)
            return &parts[n];
    return NULL;
}

/* Two runs at the same time start at different names. */
static uint32_t first_name(void)
{
    struct timespec now = { 0 };
    clock_gettime(CLOCK_REALTIME, &now);
    return (uint32_t)now.tv_nsec * 31 + (uint32_t)getpid() * 40503;
}

/* Makes a file, empty or as a link to the file of the name `last`, under this name. Returns a descriptor, 0 for a link,
   or -1. */
static int try_name(const part *p, mode_t mode, const char *last)
{
    if (last != NULL)
        return linkat(p->folder, last, p->folder, p->name, 0);
    return openat(p->folder, p->name, O_WRONLY | O_CREAT | O_EXCL | O_NOFOLLOW | O_CLOEXEC, mode);
}

static part *make_file(int folder, mode_t mode, const char *last, int *descriptor)
{
    sigset_t before;
    part *p = find_free_part();
    uint32_t name = first_name();
    int made = -1;
    errno = EMFILE;
    if (p == NULL)
        return NULL;
    p->folder = folder;
    hold_signals(&before);
    for (int tries = 0; made < 0 && tries < MOST_TRIES && (tries == 0 || errno == EEXIST); tries++) {
        snprintf(p->name, sizeof p->name, ".jokulvisp-%06x.part", (unsigned)((name + (unsigned)tries) % NAMES));
        made = try_name(p, mode, last);
    }
    p->exists = made >= 0;
    release_signals(&before);
    *descriptor = made;
    return made >= 0 ? p : NULL;
}

part *make_part(int folder, mode_t mode, int *descriptor)
{
    part *p = make_file(folder, mode, NULL, descriptor);
    *descriptor = keep_above_standard(*descriptor);
    return p;
}

part *link_part(int folder, const char *last)
{
    int none = -1;
    return make_file(folder, 0, last, &none);
}

bool move_part(part **p, const char *last)
{
    if (renameat((*p)->folder, (*p)->name, (*p)->folder, last) != 0)
        return false;
    forget_part(p);
    return true;
}

void forget_part(part **p)
{
    (*p)->exists = false;
    *p = NULL;
}

void remove_part(part **p)
{
    sigset_t before;
    if (*p == NULL)
        return;
    hold_signals(&before);
    if (unlinkat((*p)->folder, (*p)->name, 0) != 0)
        complain((*p)->name, "cannot be removed: %s", strerror(errno));
    forget_part(p);
    release_signals(&before);
}

void remove_parts(void)
{
    for (int n = 0; n < MOST_PARTS; n++)
        if (parts[n].exists)
            unlinkat(parts[n].folder, parts[n].name, 0);
}
