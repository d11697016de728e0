/* Files that are written whole or not at all, and all of them or none. */
#ifndef OUTPUT_H
#define OUTPUT_H

#include <stdbool.h>
#include <stddef.h>

enum { MOST_OUTPUTS = 3 };

typedef struct {
    const char *name; /* '-' for standard output */
    const void *bytes;
    size_t length;
} output;

/* Writes these files, at most MOST_OUTPUTS. A file that is replaced keeps its owner and its mode. If one cannot be
   written, the others are left or made as they were, and standard error says why, and what has changed nevertheless.
   Returns whether all are written. The clock is stopped before the first file changes. */
bool write_outputs(const output *outputs, size_t count);

#endif
