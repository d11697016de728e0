/* Calls and jumps of a list whose words move. */
#ifndef TARGETS_H
#define TARGETS_H

#include <stdbool.h>
#include <stddef.h>
#include <stdint.h>

/* Whether the word is a CALL or a JUMP. */
bool leads_on(uint32_t word);

/* Has the calls and jumps among these words lead to the words that they led to before `taken` words at `at` became
   `put` others. What led into those that were taken leads to the first of what is there now. Says whether one of them
   has changed. */
bool move_targets(uint32_t *words, size_t count, size_t at, size_t taken, size_t put);

#endif
