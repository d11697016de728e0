/* Messages on standard error, and the names and other bytes in them, which must not do anything to a terminal. */
#ifndef MESSAGE_H
#define MESSAGE_H

#include <stdarg.h>
#include <stdbool.h>
#include <stddef.h>
#include <stdint.h>
#include <stdio.h>

/* Prints 'jokulvisp: NAME: MESSAGE' and a line end to standard error, in the manner of printf; NAME as print_name shows
   it, or nothing for NULL. Returns false. */
__attribute__((format(printf, 2, 3))) bool complain(const char *name, const char *format, ...);

/* The same about a line of a file: 'jokulvisp: NAME:LINE: MESSAGE'. */
__attribute__((format(printf, 3, 0))) bool
complain_of_line(const char *name, uint32_t line, const char *format, va_list values);

/* Prints a file's name, control characters escaped (\n, \x1B), '' for an empty one. */
void print_name(FILE *out, const char *name);

/* Some bytes escaped in the same way, cut short if there are many. */
typedef struct {
    char text[48];
} shown_bytes;

shown_bytes show_bytes(const char *bytes, size_t length);

/* The first for 1, the second for any other count: 'byte' or 'bytes'. */
const char *plural(size_t count, const char *one, const char *many);

#endif
