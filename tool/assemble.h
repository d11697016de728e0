/* The command `assemble`: a list made out of text. */
#ifndef ASSEMBLE_H
#define ASSEMBLE_H

#include "order.h"

/* Returns the exit status. */
int run_assemble(const order *o);

#endif
