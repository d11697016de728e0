/* How the tool is called, and what its exit status says. */
#ifndef USAGE_H
#define USAGE_H

#include "command.h"

enum { SUCCEEDED = 0, LIST_AT_FAULT = 1, GAVE_UP = 2 };

/* Prints what the tool can do, or one of its commands. Returns the exit status. */
int print_help(void);
int print_help_of(const command *c);

int print_version(void);

/* Says on standard error what is wrong with the command line: with an option or an argument of it, or with the whole
   where `what` is NULL; in a command, or before there is one where `c` is NULL. Returns the exit status. */
int explain_usage(const command *c, const char *what, const char *why);

#endif
