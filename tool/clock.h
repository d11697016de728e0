/* The time that a command may take, and what a terminal shows of its progress meanwhile. */
#ifndef CLOCK_H
#define CLOCK_H

#include <stdbool.h>
#include <stdint.h>

#include "order.h"

/* Starts the clock. When the order's timeout is up, if it has one, all parts of files are removed, standard error says
   that the command gave up, and the program ends, whatever it is doing then. */
void start_clock(const order *o);

/* Stops the clock, if it is running, and erases what it shows. */
void stop_clock(void);

/* Whether anyone can see progress: standard error is a terminal, and the order is not quiet. */
bool shows_progress(const order *o);

typedef enum { DOING_NOTHING, PAINTING, PAINTING_OLD_LIST, REPAINTING } stage;

/* Says what is done from here on, until the stage ends, and with how many rows, 0 if they cannot be counted. From the
   second second on the terminal shows it. */
void begin_stage(stage s, uint32_t rows);

/* Says that one more row is done. */
void note_row(void);

/* Says that nothing is done any more that could be shown, and erases what is shown. */
void end_stage(void);

#endif
