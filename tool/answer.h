/* What the library answered, in words. */
#ifndef ANSWER_H
#define ANSWER_H

#include <stdio.h>

#include "reason.h"

/* Prints the answer, unless the order is to be quiet: its number, what that means, the word at fault if there is one,
   and a hint if the file is something else than a list. Returns the exit status. */
int tell_answer(FILE *out, const finished_run *run);

/* Prints a line with such a hint, if there is one, after these words. */
void print_hint(FILE *out, const char *before, const display_list *list);

#endif
