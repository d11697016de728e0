/* Frames for made lists, and runs to lend for them: small for the most part, for the emulator is slow; out of bounds
   now and then. */
#ifndef FRAMES_H
#define FRAMES_H

#include <stddef.h>
#include <stdint.h>

#include "../shared/paint_check.h"
#include "case.h"
#include "made_lists.h"

/* The longest sides that are drawn, just out of bounds. */
enum { WIDEST = JV_MAX_WIDTH + 3, HIGHEST = JV_MAX_HEIGHT + 3 };

/* How large a frame is for the most part, and once in how many times a side is out of bounds or larger than that, and
   the frame the largest there is. */
typedef struct {
    frame_size usual;
    uint32_t bad_in, large_in, full_in;
} frame_manner;

frame_size draw_frame(const frame_manner *m);

/* A number that says of a lent run whether it has its length (0), a byte more (1) or a byte less (2): mostly the first,
   and one of the others once in so many times. */
case_number draw_beside(const char *name, uint32_t times);

/* What the run's length then is. */
size_t length_beside(size_t length, case_number beside);

/* The pixel that differs first, of those that both runs have whole, where one does. */
void print_first_pixel(const lent_runs *ours, const lent_runs *theirs, size_t width);

#endif
