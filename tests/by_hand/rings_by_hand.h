/* The parts of rings_by_hand.c. */
#ifndef RINGS_BY_HAND_H
#define RINGS_BY_HAND_H

void check_ring_commands_by_hand(void);
void check_ring_turns_by_hand(void);
void check_ring_refusals_by_hand(void);

#endif
