/* The lists whose words are measured. Each is close to 8192 bytes long, ends in DISPLAY and draws. */
#ifndef LISTS_H
#define LISTS_H

#include <stddef.h>
#include <stdint.h>

#include "jokulvisp.h"

enum { MOST_WORDS = JV_MAX_LIST_BYTES / 4 };

/* How much RAM_G the bitmaps of the lists need. */
enum { RAM_G_BYTES = 65536 };

/* Writes the list of this name and gives the number of its words, 0 where there is no such list:
     setters    every command that sets something and can be drawn, in turn
     vertices   points, rectangles and bitmaps with both kinds of vertex; a BEGIN and an END for every 60 of them
     calls      stretches called from each other, four deep, that save and restore contexts; jumps */
size_t write_list(const char *name, uint32_t words[MOST_WORDS]);

#endif
