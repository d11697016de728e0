/* The command `check`: whether a list draws. */
#ifndef CHECK_H
#define CHECK_H

#include "order.h"
#include "reason.h"

/* Returns the exit status. */
int run_check(const order *o);

/* What jv_check says of the first list. */
finished_run check_list(const order *o, const run_input *input);

#endif
