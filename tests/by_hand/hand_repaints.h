/* Repaints worked out by hand, which both the library and the second program have to make: two lists, and what the
   repaint from the old one to the new one leaves of a frame that was full of other bytes. A row that is not marked is
   KEPT; of a marked one all pixels are drawn in signs, as in hand_pictures.h. */
#ifndef HAND_REPAINTS_H
#define HAND_REPAINTS_H

#include "hand_pictures.h"

#define FROM(...)                                                                                                      \
    .old_words = (const uint32_t[]){ __VA_ARGS__ }, .old_count = LENGTH(((const uint32_t[]){ __VA_ARGS__ }))
#define TO(...) .words = (const uint32_t[]){ __VA_ARGS__ }, .count = LENGTH(((const uint32_t[]){ __VA_ARGS__ }))

/* A row of a frame that is four pixels wide. */
#define KEPT "~~~~"

/* Has it repainted by both programs: over other bytes; the other way round, which has to mark the same rows; and over
   the old list's picture, which has to become the new list's. `file` is where it stands. */
void check_repaint(const char *file, const hand_picture *repaint);

#define CHECK_REPAINTS(part, table) check_repaints(__FILE__, part, table, LENGTH(table))
void check_repaints(const char *file, const char *part, const hand_picture *table, size_t count);

#endif
