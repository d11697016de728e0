/* Rings worked out by hand from document 01: commands, runs of several, the host's words, and calls that have to be
   refused. The library and the second program (ringer.c) both have to answer them, byte for byte. */
#include "rings_by_hand.h"

#include "../shared/check.h"

int main(void)
{
    check_ring_commands_by_hand();
    check_ring_turns_by_hand();
    check_ring_refusals_by_hand();
    return end_checks();
}
