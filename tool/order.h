/* What the command line asks for. */
#ifndef ORDER_H
#define ORDER_H

#include <stdbool.h>
#include <stdint.h>
#include <stdio.h>

#include "command.h"

enum { MOST_FILES = 2 };

struct order {
    const command *command;
    bool wants_help;                   /* the command's help, and nothing else of what follows */
    bool is_quiet;                     /* no answer and no warning is printed */
    bool wants_exit_code;              /* the exit status tells more than whether the command succeeded */
    const char *files[MOST_FILES];     /* to read, as many as the command takes */
    const char *ram_g;                 /* to read; NULL where none is given, as below */
    uint32_t width, height, limit;     /* all within the library's limits */
    uint32_t timeout;                  /* in milliseconds; 0 where none is given */
    const char *output, *tags, *marks; /* to write */
};

/* Reads the arguments, of which the first is the command's name. If they are wrong, says why on standard error and
   returns false. */
bool read_order(order *o, const command *c, int count, char **arguments);

/* Standard output, or standard error where a file goes to standard output. */
FILE *stream_for_answers(const order *o);

#endif
