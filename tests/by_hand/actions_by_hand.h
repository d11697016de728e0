/* The second program's actions, held against what a person works out. jv_check hands out none; what is drawn and
   repainted by them will be compared with these. */
#ifndef ACTIONS_BY_HAND_H
#define ACTIONS_BY_HAND_H

void check_actions_by_hand(void);

#endif
