/* For sigaction, setitimer, clock_gettime and the size of a terminal. */
#define _DEFAULT_SOURCE

#include "clock.h"

#include <errno.h>
#include <signal.h>
#include <stdio.h>
#include <string.h>
#include <sys/ioctl.h>
#include <sys/time.h>
#include <time.h>
#include <unistd.h>

#include "part.h"
#include "usage.h"

enum { LINE = 79, TICK = 250, SHOWN_AFTER = 1000 }; /* in characters; in milliseconds */

/* What the signal handler works with. */
static struct {
    struct timespec start;
    uint32_t timeout; /* in milliseconds, 0 for none */
    char command[32], farewell[2 * LINE];
    size_t columns; /* of the terminal that are written to */
    volatile sig_atomic_t is_running, stage, rows_done, rows;
    volatile sig_atomic_t width; /* of the line on the terminal */
} timer;

/* The handler calls only what may be called at any time: write, and no printf. */
static void put(const char *text)
{
    if (write(STDERR_FILENO, text, strlen(text)) < 0)
        return;
}

/* ---- The line on the terminal ---- */

typedef struct {
    char text[LINE + 1];
    size_t length;
} line;

static void append(line *l, const char *text)
{
    for (; *text != '\0' && l->length < LINE; text++)
        l->text[l->length++] = *text;
}

static void append_number(line *l, uint64_t number)
{
    char digits[21] = "", *first = digits + sizeof digits - 1;
    do {
        *--first = (char)('0' + number % 10);
        number /= 10;
    } while (number > 0);
    append(l, first);
}

/* Shows the line in place of the one that is there, as far as the terminal has room for it. An empty one leaves the
   cursor at the start. */
static void show(line *l)
{
    line shown = { "\r", 1 };
    if (l->length > timer.columns)
        l->length = timer.columns;
    l->text[l->length] = '\0';
    append(&shown, l->text);
    while (shown.length <= (size_t)timer.width)
        append(&shown, " ");
    put(shown.text);
    if (l->length == 0)
        put("\r");
    timer.width = (sig_atomic_t)l->length;
}

static void erase_line(void)
{
    if (timer.width > 0)
        show(&(line){ "", 0 });
}

static void show_progress(uint64_t seconds)
{
    static const char *const doing[] = { "", " % of the rows are painted", " % of the old list's rows are painted",
                                         "repainting" };
    line l = { "", 0 };
    append(&l, timer.command);
    if (timer.rows > 0)
        append_number(&l, 100 * (uint64_t)timer.rows_done / (uint64_t)timer.rows);
    append(&l, doing[timer.stage]);
    append(&l, ", ");
    append_number(&l, seconds);
    append(&l, " s");
    show(&l);
}

bool shows_progress(const order *o)
{
    return !o->is_quiet && isatty(STDERR_FILENO);
}

void begin_stage(stage s, uint32_t rows)
{
    timer.stage = DOING_NOTHING;
    timer.rows = (sig_atomic_t)rows;
    timer.rows_done = 0;
    timer.stage = s;
}

void note_row(void)
{
    timer.rows_done++;
}

void end_stage(void)
{
    sigset_t before;
    hold_signals(&before);
    timer.stage = DOING_NOTHING;
    erase_line();
    release_signals(&before);
}

/* ---- The clock ---- */

static uint64_t elapsed(void)
{
    struct timespec now = timer.start;
    clock_gettime(CLOCK_MONOTONIC, &now);
    int64_t seconds = now.tv_sec - timer.start.tv_sec, nanoseconds = now.tv_nsec - timer.start.tv_nsec;
    return (uint64_t)((1000000000 * seconds + nanoseconds) / 1000000);
}

static void give_up(void)
{
    remove_parts();
    erase_line();
    put(timer.farewell);
    _exit(GAVE_UP);
}

/* In the background the terminal belongs to others. */
static bool is_in_foreground(void)
{
    return tcgetpgrp(STDERR_FILENO) == getpgrp();
}

/* The timer and the clock need not agree to the millisecond. */
HANDLER static void tick(int number)
{
    int reason = errno;
    uint64_t now = elapsed();
    (void)number;
    if (timer.is_running && timer.timeout > 0 && now + 1 >= timer.timeout)
        give_up();
    if (timer.is_running && timer.stage != DOING_NOTHING && now >= SHOWN_AFTER && is_in_foreground())
        show_progress(now / 1000);
    errno = reason;
}

static void prepare_texts(const order *o)
{
    snprintf(timer.command, sizeof timer.command, "jokulvisp: %s: ", o->command->name);
    snprintf(timer.farewell, sizeof timer.farewell, "%sgave up after %.10g %s (--timeout).\n", timer.command,
             o->timeout / 1000.0, o->timeout == 1000 ? "second" : "seconds");
}

/* The last column is left free, for many terminals go on in the next line after it. */
static size_t count_columns(void)
{
    struct winsize size = { 0 };
    bool is_known = ioctl(STDERR_FILENO, TIOCGWINSZ, &size) == 0 && size.ws_col > 1;
    return is_known && size.ws_col < LINE ? (size_t)size.ws_col - 1 : LINE - 1;
}

/* In microseconds, and such that the timeout is up at a tick. */
static uint64_t tick_length(const order *o)
{
    uint64_t ticks = shows_progress(o) ? o->timeout / TICK + 1 : 1;
    return o->timeout == 0 ? 1000 * TICK : (1000 * (uint64_t)o->timeout + ticks - 1) / ticks;
}

static void set_timer(uint64_t length)
{
    struct timeval tick = { (time_t)(length / 1000000), (suseconds_t)(length % 1000000) };
    setitimer(ITIMER_REAL, &(struct itimerval){ tick, tick }, NULL);
}

void start_clock(const order *o)
{
    struct sigaction ticking = { .sa_handler = tick, .sa_flags = SA_RESTART };
    sigset_t alarm;
    if (o->timeout == 0 && !shows_progress(o))
        return;
    prepare_texts(o);
    timer.columns = count_columns();
    timer.timeout = o->timeout;
    timer.is_running = true;
    clock_gettime(CLOCK_MONOTONIC, &timer.start);
    sigfillset(&ticking.sa_mask);
    sigaction(SIGALRM, &ticking, NULL);
    sigemptyset(&alarm);
    sigaddset(&alarm, SIGALRM);
    sigprocmask(SIG_UNBLOCK, &alarm, NULL);
    set_timer(tick_length(o));
}

void stop_clock(void)
{
    if (!timer.is_running)
        return;
    timer.is_running = false;
    set_timer(0);
    erase_line();
}
