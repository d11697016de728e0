/* Commands that are spelt almost like something else. */
#ifndef NEAREST_H
#define NEAREST_H

#include "text.h"

/* The command that differs in the fewest letters, small ones being the same as large ones, or NULL where none is near
   enough. */
const char *find_nearest(piece name);

#endif
