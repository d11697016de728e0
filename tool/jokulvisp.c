/* jokulvisp: what is in a display list, whether it draws and what, from the command line. */
#include <errno.h>
#include <stdbool.h>
#include <stdio.h>
#include <string.h>

#include "command.h"
#include "message.h"
#include "order.h"
#include "usage.h"

static int run_command(const command *c, int count, char **arguments)
{
    order o;
    if (!read_order(&o, c, count, arguments))
        return GAVE_UP;
    return o.wants_help ? print_help_of(c) : c->run(&o);
}

static bool asks_for_help(const char *argument)
{
    return strcmp(argument, "help") == 0 || strcmp(argument, "--help") == 0 || strcmp(argument, "-h") == 0;
}

static bool asks_for_version(const char *argument)
{
    return strcmp(argument, "--version") == 0 || strcmp(argument, "-V") == 0;
}

/* The arguments are those behind the one that asks for help. */
static int run_help(int count, char **arguments)
{
    if (count > 1)
        return explain_usage(NULL, arguments[1], "help takes at most one command");
    if (count == 0 || asks_for_help(arguments[0]))
        return print_help();
    const command *c = find_command(arguments[0]);
    return c != NULL ? print_help_of(c) : explain_usage(NULL, arguments[0], "no such command");
}

static int run(int count, char **arguments)
{
    if (count < 1)
        return explain_usage(NULL, NULL, "no command given");
    const char *first = arguments[0];
    const command *c = find_command(first);
    if (c != NULL)
        return run_command(c, count, arguments);
    if (asks_for_help(first))
        return run_help(count - 1, arguments + 1);
    if (asks_for_version(first))
        return count == 1 ? print_version() : explain_usage(NULL, first, "takes no arguments");
    bool is_option = first[0] == '-';
    return explain_usage(NULL, first, is_option ? "no such option, or it comes before the command" : "no such command");
}

/* Output is buffered, so a full disk may show only here. A reader that closes a pipe has read enough, and there is
   nothing to say about that. */
static bool is_all_written(void)
{
    errno = 0;
    bool is_flushed = fflush(stdout) == 0;
    if (is_flushed && !ferror(stdout))
        return true;
    if (errno != EPIPE)
        complain("standard output", "%s", errno != 0 ? strerror(errno) : "cannot be written");
    return false;
}

/* Messages of several runs at once are not mixed up if each line of them is written at once. */
int main(int count, char **arguments)
{
    static char line[BUFSIZ];
    setvbuf(stderr, line, _IOLBF, sizeof line);
    int status = run(count - 1, arguments + 1);
    return status == GAVE_UP || is_all_written() ? status : GAVE_UP;
}
