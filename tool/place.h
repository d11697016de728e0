/* Where an output goes. */
#ifndef PLACE_H
#define PLACE_H

#include <stdbool.h>
#include <sys/stat.h>

enum { MOST_LAST_NAME = 255 };

/* Either a descriptor of this process, as /dev/stdout names one, or a name in a folder. */
typedef struct {
    int descriptor;                /* -1 for a name in a folder */
    int folder;                    /* open, for the calls that take a folder and a name in it; -1 for a descriptor */
    char last[MOST_LAST_NAME + 1]; /* the name in that folder */
    bool is_fixed;                 /* no file can take its place: a device, or a link in /proc that leads to no name */
    bool exists;
    struct stat found; /* if it exists */
} place;

/* Follows all links, also one to a file that does not exist yet. Returns false, with the reason in errno, if there is
   no such place. Otherwise call leave_place later. */
bool find_place(const char *name, place *p);
void leave_place(place *p);

/* Whether the output goes to standard output: '-', and what leads to descriptor 1, as /dev/stdout does. */
bool is_standard_output(const char *name);

/* Whether the file that exists there, if one does, may be written. Sets errno if not. */
bool may_be_written(const place *p);

/* Whether two outputs go to the same descriptor or the same regular file, existing or not. */
bool are_one_output(const char *a, const char *b);

/* Whether an output goes to the regular file that an input is read from. '-' is standard output or standard input. */
bool is_output_read(const char *output, const char *input);

/* Moves a descriptor above the three standard ones, which may have been closed by the caller: what is meant for them
   must not end up in a file. Returns the new one, or -1 for -1. */
int keep_above_standard(int descriptor);

#endif
