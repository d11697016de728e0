/* Repainting as the tests call it: by the library and by the second program (repainter.c), on runs that paint_check.h
   lends. */
#ifndef REPAINT_CHECK_H
#define REPAINT_CHECK_H

#include <stddef.h>
#include <stdint.h>

#include "../second/repainter.h"
#include "jokulvisp.h"
#include "paint_check.h"

enum { OLD_LIST = 1, NEW_LIST = 2 };

/* One of the two programs. */
typedef struct {
    const char *call; /* what its call is called */
    jv_answer (*repaint)(const repaint_request *request);
} repaint_program;

extern const repaint_program repainting_library, repainting_second_program;

/* The request that lends these runs. `run` is the new list's. */
repaint_request lending_for_repaint(const uint8_t *old_list, size_t old_list_length, const run_request *run,
                                    const uint8_t *ram_g, const lent_runs *lent);

/* Both lists, with the numbers that go with them, and how much is lent. */
void print_repaint_request(const repaint_request *request);

#endif
