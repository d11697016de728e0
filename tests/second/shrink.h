/* Makes a case smaller by itself. It knows of numbers and runs only, and of one question. */
#ifndef SHRINK_H
#define SHRINK_H

#include <stdbool.h>

#include "case.h"

/* It stops after so many questions, though more might be taken away. */
enum { MOST_TRIES = 10000 };

/* Whether the case still shows what it is kept for. */
typedef bool is_sought(const void *asker, const test_case *c);

typedef struct {
    unsigned long tries;
    bool is_spent; /* it stopped for want of tries */
} shrunk;

/* Takes away from the case what can go while the answer stays yes, as it is at the start: calls, words, numbers, bits
   and bytes, until nothing more can. */
shrunk shrink(test_case *c, is_sought *is_still, const void *asker);

#endif
