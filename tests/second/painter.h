/* A second program that paints display lists, in plain C over runner.c. Like it, it is written from document 01 and the
   guide, apart from the library. It paints one action after the other, each over the whole frame; the library paints
   one row after the other, each with all actions. */
#ifndef PAINTER_H
#define PAINTER_H

#include <stdbool.h>
#include <stddef.h>
#include <stdint.h>

#include "runner.h"

/* What painting is asked. `picture` and `tags` are lent to be written; `ram_g` has run.ram_g_length bytes. */
typedef struct {
    run_request run;
    const uint8_t *ram_g;
    uint8_t *picture;
    size_t picture_length;
    uint8_t *tags;
    size_t tags_length;
} paint_request;

/* Numbers 1 to 4, then the run, as in run_list. Number 1 also says that a lent run has another length than the frame
   (3 * width * height and width * height bytes). Every number but 0 leaves picture and tags as they were. */
run_answer paint_frame(const paint_request *request);

/* The same for one row of the frame, whose runs are lent (3 * width and width bytes). Number 1 also says that the frame
   has no such row. */
run_answer paint_frame_row(const paint_request *request, uint32_t row);

/* The same for so many rows from `first` on. */
run_answer paint_frame_rows(const paint_request *request, uint32_t first, uint32_t count);

/* 'An action reaches a row exactly if it covers such a pixel there', one in both frame and scissor. */
bool does_reach_row(const run_action *action, uint32_t width, uint32_t row);

/* How many pixels the list's actions cover within frame and scissor, each action counted by itself. */
uint64_t count_covered_pixels(const run_request *request);

#endif
