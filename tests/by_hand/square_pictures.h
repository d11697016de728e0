/* Pictures of 256 by 256, one pixel for each pair of bytes. */
#ifndef SQUARE_PICTURES_H
#define SQUARE_PICTURES_H

#include <stddef.h>
#include <stdint.h>

enum { SIDE = 256, PIXELS = SIDE * SIDE, CHANNELS = 3 };

/* What `paint` has left. */
extern uint8_t picture[CHANNELS * PIXELS];

/* Has the library paint the list of these words, which has to draw. */
void paint(const uint32_t *words, size_t count, const uint8_t *ram_g, size_t ram_g_length);

#endif
