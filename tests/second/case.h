/* A case that both programs are asked about, as data: a few numbers, and a few runs of words or bytes. Its kind
   (kind.h) makes it and asks both programs; here it can be printed, and made smaller (shrink.h), by who does not know
   what it is for. */
#ifndef CASE_H
#define CASE_H

#include <stdbool.h>
#include <stdint.h>

#include "jokulvisp.h"

enum { MOST_NUMBERS = 12, MOST_RUNS = 12, MOST_RUN_WORDS = JV_MAX_LIST_BYTES / 4 + 4 };

/* An amount gets smaller by halves, towards its rest; a pattern bit by bit. An oddity is an amount that says something
   only where it is not at its rest. A place is an amount, of bytes before the words of a call, that may have to move
   along when some of them go. */
typedef enum { AMOUNT, ODDITY, PLACE, PATTERN } number_form;

typedef struct {
    const char *name;
    number_form form;
    uint32_t value;
    uint32_t rest; /* the value that says least */
} case_number;

/* The first two have words, the others bytes. */
typedef enum {
    A_LIST, /* a display list */
    A_CALL, /* a call of the ring: CALL_HEAD words that say which (rings.c), then the host's words */
    MEMORY, /* has a length that may change, towards its rest */
    A_FRAME /* as many bytes as the case's numbers ask for, and those behind them */
} run_form;

enum { CALL_KIND, CALL_GIVEN, CALL_READ, CALL_WRITE, CALL_OFFSET, CALL_FAULT, CALL_CUT, CALL_HEAD };

/* The words or bytes are the kind's. A call that is gone is not made. */
typedef struct {
    const char *name;
    run_form form;
    uint32_t *words;
    uint8_t *bytes;
    uint32_t count;
    uint32_t rest;
    bool is_gone;
} case_run;

typedef struct {
    case_number number[MOST_NUMBERS];
    unsigned numbers;
    case_run run[MOST_RUNS];
    unsigned runs;
} test_case;

bool has_words(const case_run *run);

/* How many words at the run's start are no list's and no host's words, and stay. */
uint32_t head_of(const case_run *run);

/* How large a case is. */
typedef struct {
    unsigned long calls, words, bytes, bits;
} case_size;

case_size size_of_case(const test_case *c);

/* 'made smaller: 212 words to 3', and so on with whatever else the case has. */
void print_sizes(case_size before, case_size after);

/* All of it: the numbers, the words with their names, and the bytes that are not 0. Where these are very many, only how
   many there are. */
void print_case(const test_case *c);

#endif
