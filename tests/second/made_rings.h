/* Rings made up from drawn numbers: runs, marks, and calls one after the other on them, such as a host could make. The
   host writes commands with ranges near their ends, runs the ring, writes on and resets it after a fault. Now and then
   something is wrong, and some rings are wild: any marks and any bytes. */
#ifndef MADE_RINGS_H
#define MADE_RINGS_H

#include <stdbool.h>
#include <stddef.h>
#include <stdint.h>

#include "../shared/ring_check.h"

/* The bytes of a run are those of one long stretch of drawn bytes, from a place below this on. */
enum { STARTS_BELOW = 65536 };

/* Longer than the ring, so that the host's words can be too many. */
enum { MOST_MADE_WORDS = MOST_WAITING_WORDS + 8 };

/* What was cut off the host's words is the start of the next ones. */
typedef struct {
    bool is_wild;
    size_t length[RING_RUNS], start[RING_RUNS];
    ring_marks marks;
    uint32_t calls;
    uint32_t cut[3], cut_count;
} made_ring;

typedef struct {
    ring_call call;
    ring_marks marks;
    uint8_t words[4 * MOST_MADE_WORDS];
    size_t words_length;
} made_call;

void make_ring(made_ring *made);

/* The next call of the ring, whose marks are now these. It is handed them but for every thirtieth call or so. */
void make_ring_call(made_call *call, made_ring *made, ring_marks now);

#endif
