/* UTF-8, as far as it tells what can be printed. */
#ifndef UTF8_H
#define UTF8_H

#include <stddef.h>

/* How many bytes the first character has, of so many bytes that there are. It is 0 for a control character, and for a
   byte that does not start a character. */
size_t character_length(const char *bytes, size_t length);

/* The same, but 0 also for a character that shows nothing, or changes the direction of what follows. */
size_t printable_length(const char *bytes, size_t length);

#endif
