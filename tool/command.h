/* The tool's commands: how each is called, what it takes, and what its help says. */
#ifndef COMMAND_H
#define COMMAND_H

#include <stdbool.h>
#include <stddef.h>

#include "jokulvisp.h"

/* A number's digits, as part of a text. */
#define TEXT_OF(number) TEXT_OF_DIGITS(number)
#define TEXT_OF_DIGITS(digits) #digits

/* What the values of options may be, as help and messages put it. */
#define SIZE_RANGE "1x1 to " TEXT_OF(JV_MAX_WIDTH) "x" TEXT_OF(JV_MAX_HEIGHT)
#define LIMIT_RANGE "1 to " TEXT_OF(JV_MAX_LIMIT)
#define TIMEOUT_RANGE "0.001 to 1000000"
enum { MOST_TIMEOUT = 1000000000 }; /* in milliseconds */

typedef struct order order;

typedef struct {
    const char *name;
    int (*run)(const order *o); /* returns the exit status */
    const char *options;        /* the letters of the options that it takes */
    int files;                  /* how many it reads */
    const char *takes;          /* which files these are */
    const char *usage, *summary, *about, *status, *examples;
} command;

/* An option has a letter here even where the command line has only its long name. */
typedef struct {
    char letter;
    const char *name;
    bool has_short_name;
    const char *value; /* what follows it, or NULL */
    const char *about;
} option_names;

/* Row n of each table, or NULL past its end. */
const command *command_at(size_t n);
const option_names *option_at(size_t n);

/* The command or the option, or NULL where there is none. */
const command *find_command(const char *name);
const option_names *find_option(char letter);

bool takes_option(const command *c, char letter);

#endif
