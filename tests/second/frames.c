#include "frames.h"

#include <stdio.h>

#include "../shared/draw.h"

enum { ITS_LENGTH, A_BYTE_MORE, A_BYTE_LESS };

static uint32_t draw_side(uint32_t usual, uint32_t most, const frame_manner *m)
{
    if (draw_once_in(m->bad_in))
        return draw_once_in(2) ? 0 : most + draw_from(1, 3);
    if (draw_once_in(m->large_in))
        return draw_from(1, draw_once_in(5) ? most : most / 4);
    return draw_from(1, usual);
}

frame_size draw_frame(const frame_manner *m)
{
    uint32_t width = draw_side(m->usual.width, JV_MAX_WIDTH, m);
    uint32_t height = draw_side(m->usual.height, JV_MAX_HEIGHT, m);
    return draw_once_in(m->full_in) ? (frame_size){ JV_MAX_WIDTH, JV_MAX_HEIGHT } : (frame_size){ width, height };
}

case_number draw_beside(const char *name, uint32_t times)
{
    uint32_t beside = draw_once_in(times) ? draw_from(A_BYTE_MORE, A_BYTE_LESS) : ITS_LENGTH;
    return (case_number){ name, ODDITY, beside, ITS_LENGTH };
}

size_t length_beside(size_t length, case_number beside)
{
    switch (beside.value) {
    case A_BYTE_MORE:
        return length + 1;
    case A_BYTE_LESS:
        return length > 0 ? length - 1 : 0;
    default:
        return length;
    }
}

static bool is_pixel_alike(const lent_runs *ours, const lent_runs *theirs, size_t at)
{
    return are_equal_pixels(pixel_at(ours->picture, ours->tags, at), pixel_at(theirs->picture, theirs->tags, at));
}

void print_first_pixel(const lent_runs *ours, const lent_runs *theirs, size_t width)
{
    size_t pixels = ours->tags_length < ours->picture_length / 3 ? ours->tags_length : ours->picture_length / 3;
    size_t at = 0;
    while (at < pixels && is_pixel_alike(ours, theirs, at))
        at++;
    if (at == pixels)
        return;
    printf("    the first pixel that differs: column %zu, row %zu of what was lent\n", at % width, at / width);
    print_pixel("the library:       ", pixel_at(ours->picture, ours->tags, at));
    print_pixel("the second program:", pixel_at(theirs->picture, theirs->tags, at));
}
