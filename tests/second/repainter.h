/* A second program that repaints after an edit, in plain C over runner.c and painter.c. Like them, it is written from
   document 01 and the guide, apart from the library. It keeps the actions of both lists and asks of each row, pixel by
   pixel, which of them reach it. */
#ifndef REPAINTER_H
#define REPAINTER_H

#include <stddef.h>
#include <stdint.h>

#include "painter.h"

/* What repainting is asked. `paint` is the new list's; the old list goes with its RAM_G, frame and limit. `marks` is
   lent to be written. */
typedef struct {
    const uint8_t *old_list;
    size_t old_list_length;
    paint_request paint;
    uint8_t *marks;
    size_t marks_length;
} repaint_request;

/* As document 01's number table says: for 2 and the fault numbers `list` is 1, the old one, or 2, the new one, and
   otherwise 0; the count is of the rows marked, or of the words that the faulty list fetched. */
typedef struct {
    uint32_t number, list, place, count;
} repaint_answer;

/* Numbers 1 to 4, then the old run, then the new. Number 1 also says that a lent run has another length than the frame
   (3 * width * height, width * height and height bytes). Every number but 0 leaves picture, tags and marks as they
   were. */
repaint_answer repaint_frame(const repaint_request *request);

/* The request to run the old list. */
run_request old_run_of(const repaint_request *request);

#endif
