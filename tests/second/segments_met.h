/* How often the made lists draw each sort of segment. */
#ifndef SEGMENTS_MET_H
#define SEGMENTS_MET_H

#include <stdbool.h>

#include "runner.h"

/* One segment may be of several sorts. */
typedef enum {
    IN_LINES,
    IN_A_STRIP,
    WITH_EQUAL_ENDS,
    OF_WIDTH_0,
    AT_THE_BOUND, /* an end is as far away as it may be */
    IN_SIGHT,     /* it covers a pixel of frame and scissor */
    SEGMENT_SORTS
} segment_sort;

/* Counts the action if it is a segment. */
void count_segment(unsigned long times[SEGMENT_SORTS], const run_request *request, const run_action *action);

void print_segments_met(const unsigned long times[SEGMENT_SORTS]);
bool are_segments_met(const unsigned long times[SEGMENT_SORTS], unsigned long least);

#endif
