/* The parts of repaints_by_hand.c. */
#ifndef REPAINTS_BY_HAND_H
#define REPAINTS_BY_HAND_H

void check_marks_by_hand(void);
void check_line_marks_by_hand(void);
void check_many_repaints_by_hand(void);
void check_repaint_refusals_by_hand(void);

#endif
