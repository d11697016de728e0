/* What a number means, in full and for the case at hand. */
#ifndef REASON_H
#define REASON_H

#include <stdbool.h>
#include <stdio.h>

#include "input.h"
#include "jokulvisp.h"
#include "order.h"

/* The run of one list, and what it came to. */
typedef struct {
    const order *order;
    const run_input *input;
    const display_list *list;
    jv_answer answer;
} finished_run;

/* Prints 'done 24', 'fault 17 at 16 after 5' or 'refused 2'. */
void print_number(FILE *out, jv_answer answer);

/* Whether nothing was run. */
bool is_refusal(uint32_t number);

/* Whether a word is at fault. For the other faults the place is that of the word that would have been next. */
bool has_word_at_fault(uint32_t number);

/* Prints what the number means and, where there is more to say, what it means here: a sentence or two on one line,
   without a line end. */
void print_reason(FILE *out, const finished_run *run);

#endif
