/* Pictures worked out by hand from document 01, and requests to paint that have to be refused. The library and the
   second program (painter.c) both have to give them, byte for byte. */
#include "pictures_by_hand.h"

#include "../shared/check.h"

int main(void)
{
    check_shapes_by_hand();
    check_lines_by_hand();
    check_pixels_by_hand();
    check_bitmaps_by_hand();
    check_many_by_hand();
    check_refusals_by_hand();
    return end_checks();
}
