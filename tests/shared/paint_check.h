/* Painting as the tests call it: by the library and by the second program (painter.c), on runs that are full of a
   pattern and stand between bytes that nobody lent, so that every byte written shows. */
#ifndef PAINT_CHECK_H
#define PAINT_CHECK_H

#include <stdbool.h>
#include <stddef.h>
#include <stdint.h>

#include "../second/painter.h"
#include "jokulvisp.h"

/* One of the two programs. */
typedef struct {
    const char *frame_call, *row_call; /* what its calls are called */
    jv_answer (*paint)(const paint_request *request);
    jv_answer (*paint_row)(const paint_request *request, uint32_t row);
} painter;

extern const painter library, second_program;

/* A picture and tags that are lent to be painted, and marks for who asks for them. */
typedef struct {
    uint8_t *picture, *tags, *marks;
    size_t picture_length, tags_length, marks_length;
    uint8_t *picture_block, *tags_block, *marks_block; /* with the bytes around them */
} lent_runs;

/* Gives runs of these lengths full of the pattern. */
lent_runs lend(size_t picture_length, size_t tags_length);
lent_runs lend_with_marks(size_t picture_length, size_t tags_length, size_t marks_length);

void take_back(lent_runs *lent);

/* Whether the bytes around the runs are as they were; and whether those of the runs are, too. */
bool is_kept_inside(const lent_runs *lent);
bool is_as_lent(const lent_runs *lent);

/* The request that lends these runs. */
paint_request lending(const run_request *run, const uint8_t *ram_g, const lent_runs *lent);

/* A pixel as it comes out. */
typedef struct {
    uint8_t red, green, blue, tag;
} shown_pixel;

shown_pixel pixel_at(const uint8_t *picture, const uint8_t *tags, size_t at);

/* The pixel there of runs that are full of the pattern. */
shown_pixel lent_pixel_at(size_t at);

bool are_equal_pixels(shown_pixel a, shown_pixel b);
void print_pixel(const char *before, shown_pixel p);

#endif
