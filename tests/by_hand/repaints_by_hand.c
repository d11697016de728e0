/* Repaints worked out by hand from document 01, and requests to repaint that have to be refused. The library and the
   second program (repainter.c) both have to give them, byte for byte. */
#include "repaints_by_hand.h"

#include "../shared/check.h"

int main(void)
{
    check_marks_by_hand();
    check_line_marks_by_hand();
    check_many_repaints_by_hand();
    check_repaint_refusals_by_hand();
    return end_checks();
}
