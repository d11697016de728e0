/* What cases with a list have in common: their numbers, and what is lent of them to be read. */
#ifndef LIST_CASE_H
#define LIST_CASE_H

#include <stdbool.h>
#include <stddef.h>
#include <stdint.h>

#include "../shared/list_check.h"
#include "case.h"
#include "jokulvisp.h"
#include "made_lists.h"
#include "runner.h"

/* The last word of a list may be cut, so that its length is no multiple of 4. */
enum { WIDTH, HEIGHT, LIMIT, LIST_CUT, LIST_NUMBERS };

/* RAM_G, which all of them have, full of drawn bytes. */
void fill_ram_g(void);

/* Whether none of its bytes was written since. */
bool is_ram_g_as_filled(void);

/* Starts a case with these numbers and no run. */
void start_list_case(test_case *c, uint32_t width, uint32_t height, uint32_t limit);

/* Adds the made list and gives how many bytes its last word is cut by. The words are put where it is told, at most
   MOST_RUN_WORDS. */
uint32_t add_list(test_case *c, const char *name, uint32_t *words, const made_list *made);

void add_ram_g(test_case *c, size_t length);

/* ---- What is lent ---- */

/* A copy of just that length, so that a byte written shows, and a byte read past it shows to a sanitizer. A long run of
   bytes is lent as it is. */
typedef struct {
    uint8_t *bytes;
    size_t length;
    bool is_copy;
} lent_copy;

lent_copy lend_list(const case_run *run, uint32_t cut);
lent_copy lend_bytes(const case_run *run);

/* Whether it is as it was lent. */
bool is_list_kept(const lent_copy *lent, const case_run *run);
bool are_bytes_kept(const lent_copy *lent, const case_run *run);

void take_copy_back(lent_copy *lent);

/* What a run of this list is asked. */
run_request request_of(const test_case *c, const lent_copy *list, size_t ram_g_length);

/* A case with one list. */
typedef struct {
    const test_case *c;
    lent_copy list, ram_g;
    run_request request;
} lent_case;

enum { THE_LIST, THE_RAM_G };

lent_case lend_case(const test_case *c);

/* Says whether it is as it was lent. */
bool take_case_back(lent_case *lent);

jv_answer check_by_library(const lent_case *lent);

#endif
