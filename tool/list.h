/* Display lists as files hold them. */
#ifndef LIST_H
#define LIST_H

#include <stdbool.h>
#include <stddef.h>
#include <stdint.h>

#include "jokulvisp.h"

enum { MOST_LIST_WORDS = JV_MAX_LIST_BYTES / 4 };

/* There is room for one byte more than a list may have, so that the library can refuse one that is too long. */
typedef struct {
    uint8_t bytes[JV_MAX_LIST_BYTES + 1];
    size_t length; /* of the file, of which `bytes` holds the beginning */
} display_list;

/* Whether a list can have this length. */
bool has_list_length(size_t length);

/* How many of the file's bytes the list holds. */
size_t held_bytes(const display_list *list);

/* The word of these four bytes, and the word whose first byte is at this offset. */
uint32_t word_of(const uint8_t bytes[4]);
uint32_t word_at(const display_list *list, size_t offset);

/* Puts a word after those that the list has. */
void append_word(display_list *list, uint32_t bits);

#endif
