/* Files of bytes that are read. */
#ifndef FILE_H
#define FILE_H

#include <stdbool.h>
#include <stddef.h>
#include <stdint.h>
#include <stdio.h>

/* Beyond this a stream is not read to its end, for it may have none. */
enum { MOST_COUNTED_BYTES = 1 << 24 };

/* '-' names no file but standard input, or standard output where something is written. */
bool is_standard(const char *name);

/* Whether a file to read is standard input: '-', or one of the names that the system has for it, as /dev/stdin. */
bool is_standard_input(const char *name);

/* What messages call a file that is read: its name, or 'standard input'. */
const char *spoken_name(const char *name);

/* Reads the file of this name as far as there is room. Sets `length` to how many bytes it has, counted no further than
   MOST_COUNTED_BYTES. If it cannot be read, says so on standard error and returns false. */
bool read_file(const char *name, uint8_t *bytes, size_t room, size_t *length);

/* Prints 'It is LENGTH bytes long.', for a length that read_file has counted. */
void print_length(FILE *out, size_t length);

#endif
