/* The command `draw`: a list's picture, and its tags, as files. */
#ifndef DRAW_H
#define DRAW_H

#include "order.h"

/* Gives the exit status. */
int run_draw(const order *o);

#endif
