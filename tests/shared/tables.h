/* How the tables of cases by hand are written. */
#ifndef TABLES_H
#define TABLES_H

#include <stdint.h>

#define LENGTH(array) (sizeof(array) / sizeof((array)[0]))

/* A case begins with its line and its name, and has a list: a table of words (list_words.h) and their number. */
#define CASE(name) __LINE__, name
#define LIST(...) (const uint32_t[]){ __VA_ARGS__ }, LENGTH(((const uint32_t[]){ __VA_ARGS__ }))

#endif
