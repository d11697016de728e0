/* jv_check as the tests call it: on copies of what is lent, so that a byte written shows; and how a list and its answer
   are printed. */
#ifndef LIST_CHECK_H
#define LIST_CHECK_H

#include <stdbool.h>
#include <stddef.h>
#include <stdint.h>

#include "../second/runner.h"
#include "jokulvisp.h"

/* What jv_check gives. RAM_G is a run of that length with bytes that stay the same from one call to the next; it can be
   one byte longer than is allowed. */
jv_answer answer_of_library(const run_request *request);

/* Whether every byte that was lent so far came back as it was. */
bool is_all_as_lent(void);

bool are_equal_answers(jv_answer a, jv_answer b);

void print_answer(const char *before, jv_answer a);

/* A word with the names of its command and fields, and where in its list it stands. */
void print_list_word(size_t place, uint32_t bits);

/* The numbers, then the list word by word with the names of commands and fields. */
void print_request(const run_request *request);

/* So much memory, for `free`; where there is none, the tests end. */
void *allocated(size_t length);

/* A copy of exactly this length, so that a sanitizer sees a byte read past it; NULL for 0 bytes. */
uint8_t *copied(const uint8_t *bytes, size_t length);

/* A list's words as its bytes, and the word whose bytes begin here. */
void put_words(uint8_t *bytes, const uint32_t *words, size_t count);
uint32_t word_at(const uint8_t *byte);

#endif
