/* What a file seems to be that was taken for something else. */
#ifndef KIND_H
#define KIND_H

#include <stddef.h>
#include <stdint.h>

#include "list.h"

/* What a file that was given as a list is instead, and what to do about it; NULL for a list, be it at fault or not, and
   for what is not known. */
const char *find_hint(const display_list *list);

/* What a file that was given as a text is instead, as the end of a message; NULL for a text, and for what is not
   known. */
const char *find_other_than_text(const uint8_t *bytes, size_t length);

#endif
