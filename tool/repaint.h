/* The command `repaint`: the picture of a list after an edit, and which rows the edit concerns. */
#ifndef REPAINT_H
#define REPAINT_H

#include "order.h"

/* Gives the exit status. */
int run_repaint(const order *o);

#endif
