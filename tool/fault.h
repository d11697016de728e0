/* What is wrong with a text, line by line. */
#ifndef FAULT_H
#define FAULT_H

#include <stdbool.h>
#include <stdint.h>

#include "message.h"
#include "text.h"

/* More faults or warnings than these are counted and not told. */
enum { MOST_FAULTS_TOLD = 20 };

typedef struct {
    const char *name; /* the text's, as it is spoken */
    bool is_quiet;    /* warnings are not told */
    uint32_t line;    /* the one that is looked at */
    uint32_t count, warnings;
} faults;

/* Says on standard error what is wrong with the line, in the manner of printf. Returns false. */
__attribute__((format(printf, 2, 3))) bool blame(faults *f, const char *format, ...);

/* The same of something that is not wrong, but may be a mistake. */
__attribute__((format(printf, 2, 3))) void warn(faults *f, const char *format, ...);

/* Says how many faults and warnings were not told, if any. */
void tell_rest(const faults *f);

/* A piece as a message shows it. */
shown_bytes show(piece p);

#endif
