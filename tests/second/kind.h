/* What is compared: five kinds of cases, each with its way to make one from drawn numbers and to ask both programs. */
#ifndef KIND_H
#define KIND_H

#include <stdbool.h>
#include <stdint.h>

#include "case.h"

/* What is done beside comparing: nothing; what the second program answered is counted; or both answers are printed, and
   where they differ first. */
typedef enum { QUIETLY, COUNTING, TELLING } manner;

typedef struct {
    const char *name;         /* on the command line, and of many cases */
    unsigned long cases;      /* as many are made if nobody says otherwise */
    unsigned long told_every; /* so many */
    void (*start)(void);      /* before the first case */

    /* From the numbers drawn next (draw.h). The words and bytes lie in memory that is the kind's, for one case. */
    void (*make)(test_case *c);

    bool (*agree)(const test_case *c, manner how);

    /* What was counted; and whether that is enough, as it has to be after the usual number of cases. */
    void (*print_tally)(void);
    bool (*is_enough_met)(void);

    /* Whether what all cases share came back as it was lent. */
    bool (*is_all_as_lent)(void);
} case_kind;

extern const case_kind words_kind, lists_kind, pictures_kind, repaints_kind, rings_kind;

/* Where something does not hold that has to, they do not agree any more; `mistake` says what that is, if there is
   telling. */
void expect(bool *agree, bool does_hold, manner how, const char *mistake);

/* Whether something was met often enough; prints it if it was not. */
bool is_met(const char *what, unsigned long times, unsigned long least);

/* The same of a number, by whom it came. */
bool is_number_met(const char *by, uint32_t number, unsigned long times, unsigned long least);

/* How often each of jv_check's numbers came, and each kind of action. */
enum { NUMBERS = JV_FAR_END + 1, ACTION_KINDS = 5 };
bool is_number(uint32_t number);
void print_numbers_met(const char *what, const unsigned long times[NUMBERS]);
void print_actions_met(const unsigned long times[ACTION_KINDS]);
bool are_numbers_met(const unsigned long times[NUMBERS], unsigned long least);

/* For a kind whose cases share nothing. */
bool is_nothing_shared(void);

#endif
