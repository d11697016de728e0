/* The command `words`: a list as text, word by word. */
#ifndef WORDS_H
#define WORDS_H

#include "order.h"

/* Returns the exit status. */
int run_words(const order *o);

#endif
