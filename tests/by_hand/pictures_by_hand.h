/* The parts of pictures_by_hand.c. */
#ifndef PICTURES_BY_HAND_H
#define PICTURES_BY_HAND_H

void check_shapes_by_hand(void);
void check_lines_by_hand(void);
void check_pixels_by_hand(void);
void check_bitmaps_by_hand(void);
void check_many_by_hand(void);
void check_refusals_by_hand(void);

#endif
