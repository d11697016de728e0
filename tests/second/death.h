/* The last words of a program that dies over a case: by a signal, by a sanitizer, or because someone ends it that
   hangs. They are the command that repeats the case. */
#ifndef DEATH_H
#define DEATH_H

#include <stdint.h>

/* From now on they are printed: this command, and behind it the seed. */
void prepare_for_death(const char *command);

/* The seed of the case that is tried next. */
void note_seed(uint64_t seed);

#endif
