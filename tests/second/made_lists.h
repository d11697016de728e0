/* Display lists made up from drawn numbers: most of them such as a screen tool could write, with bitmaps set up and
   drawn, lines near and far, stretches called, contexts saved and restored; some with one fault in them, some spoilt,
   some mere noise. */
#ifndef MADE_LISTS_H
#define MADE_LISTS_H

#include <stdbool.h>
#include <stdint.h>

#include "../shared/list_check.h"
#include "runner.h"

typedef enum { WHOLE, WITH_A_FAULT, SPOILT, NOISE, LIST_KINDS } list_kind;

/* Longer than any list may be, so that a list can be too long. */
enum { MOST_MADE_BYTES = JV_MAX_LIST_BYTES + 16 };

typedef struct {
    uint8_t bytes[MOST_MADE_BYTES];
    run_request request; /* its list is `bytes` */
} made_list;

/* In pixels. */
typedef struct {
    uint32_t width, height;
} frame_size;

/* Makes a list of this kind along with frame, RAM_G length and limit. These are allowed ones but for every twentieth
   or so. */
void make_list(made_list *made, list_kind kind);

/* The same for this frame, so that most of what the list draws lies there or beside the edges, and is seen. */
void make_list_for_frame(made_list *made, list_kind kind, frame_size frame);

/* Another word of the same command for a list that aims at this frame, with the same handle and cell if it names them.
   CALL, JUMP and what is no command stay as they are. */
uint32_t draw_word_like(uint32_t word, frame_size frame);

/* A word that is most likely at fault at this place of a list of so many words. */
uint32_t draw_faulty_word(size_t at, size_t count);

/* A length that no list may have, for one that has `length`. */
size_t draw_bad_length(size_t length);

#endif
