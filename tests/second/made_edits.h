/* Edits of made lists, such as someone at a screen tool could make: a value changed, words inserted, taken away,
   swapped or doubled, and calls and jumps that still lead to where they did. */
#ifndef MADE_EDITS_H
#define MADE_EDITS_H

#include "made_lists.h"

/* Gives the list after one edit or a few, seldom none. It goes with the same frame, RAM_G length and limit. */
void edit_list(made_list *edited, const made_list *made);

/* Puts one word into it that is most likely at fault. */
void put_fault_into(made_list *made);

#endif
