/* Single words of a list, as text. */
#ifndef WORD_H
#define WORD_H

#include <stdbool.h>
#include <stdint.h>
#include <stdio.h>

#include "list.h"

/* Prints the word at this offset on a line of its own. */
void print_word(FILE *out, const display_list *list, size_t offset);

/* Whether the word at this offset is a CALL or JUMP that leads to a word of the list; if so, to which. */
bool leads_within(const display_list *list, size_t offset, size_t *target);

/* Why jv_read_word refuses these bits, without a full stop. */
void print_why_refused(FILE *out, uint32_t bits);

#endif
