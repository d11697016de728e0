/* What a vertex would draw, and where, for those who have to say why it cannot. */
#ifndef FOLLOW_H
#define FOLLOW_H

#include "bitmap.h"
#include "list.h"

/* In sixteenths of a pixel, after format and translation. */
typedef struct {
    int32_t x, y;
} vertex_place;

/* `before` is that of the vertex run before this one. Where this one completes a line, it is the line's first end. */
typedef struct {
    drawn_bitmap bitmap;
    vertex_place before, at;
} followed_vertex;

/* The vertex at this place, when the run comes to it as the last of so many words. All words before it must be known to
   be good. */
followed_vertex follow_to_vertex(const display_list *list, uint32_t place, uint32_t count);

#endif
