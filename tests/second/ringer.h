/* A second program that runs the coprocessor's ring, in plain C. Like the others, it is written from document 01 and
   the guide, apart from the library. It takes the waiting words out of the ring, splits them into commands, and carries
   these out. */
#ifndef RINGER_H
#define RINGER_H

#include <stddef.h>
#include <stdint.h>

typedef struct {
    uint32_t read, write, offset, fault;
} ring_marks;

/* What running is asked. The ring is not written, the others are. */
typedef struct {
    const uint8_t *ring;
    size_t ring_length;
    uint8_t *ram_dl;
    size_t ram_dl_length;
    uint8_t *shown;
    size_t shown_length;
    uint8_t *ram_g;
    size_t ram_g_length;
    ring_marks marks;
} ring_run_request;

/* What the host's call is asked. The words are not written. */
typedef struct {
    uint8_t *ring;
    size_t ring_length;
    const uint8_t *words;
    size_t words_length;
    ring_marks marks;
} ring_write_request;

/* The marks are those after the call; `reported` is the read mark as the chip shows it. */
typedef struct {
    uint32_t number, place, count, reported;
    ring_marks marks;
} ring_answer;

ring_answer run_ring(const ring_run_request *request);
ring_answer write_ring(const ring_write_request *request);
ring_answer reset_ring(void);

#endif
