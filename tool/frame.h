/* Frames: what is painted, and the files that it is written to. */
#ifndef FRAME_H
#define FRAME_H

#include <stdbool.h>
#include <stddef.h>
#include <stdint.h>

#include "clock.h"
#include "input.h"
#include "jokulvisp.h"
#include "order.h"

typedef struct {
    uint8_t picture[3 * JV_MAX_WIDTH * JV_MAX_HEIGHT], tags[JV_MAX_WIDTH * JV_MAX_HEIGHT], marks[JV_MAX_HEIGHT];
} frame;

size_t pixels_of(const order *o);

/* Paints the first list, and shows this as the stage meanwhile. Returns the answer of jv_paint. */
jv_answer paint_list(frame *f, const order *o, const run_input *input, stage s);

/* Writes the picture, and the tags and the marks if they are asked for: all of these files or none. If that fails, says
   so on standard error and returns false. */
bool write_frame(const frame *f, const order *o);

#endif
