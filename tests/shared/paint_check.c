#include "paint_check.h"

#include <stdio.h>
#include <stdlib.h>

#include "../second/answers.h"
#include "lent.h"
#include "list_check.h"

/* ---- The two programs ---- */

static jv_answer paint_by_library(const paint_request *p)
{
    const run_request *r = &p->run;
    return jv_paint(r->list, r->list_length, p->ram_g, r->ram_g_length, r->width, r->height, r->limit, p->picture,
                    p->picture_length, p->tags, p->tags_length);
}

static jv_answer paint_row_by_library(const paint_request *p, uint32_t row)
{
    const run_request *r = &p->run;
    return jv_paint_row(r->list, r->list_length, p->ram_g, r->ram_g_length, r->width, r->height, row, r->limit,
                        p->picture, p->picture_length, p->tags, p->tags_length);
}

static jv_answer paint_by_second_program(const paint_request *p)
{
    return as_answer(paint_frame(p));
}

static jv_answer paint_row_by_second_program(const paint_request *p, uint32_t row)
{
    return as_answer(paint_frame_row(p, row));
}

const painter library = { "jv_paint", "jv_paint_row", paint_by_library, paint_row_by_library };
const painter second_program = { "the second program", "the second program's row", paint_by_second_program,
                                 paint_row_by_second_program };

/* ---- What is lent ---- */

lent_runs lend_with_marks(size_t picture_length, size_t tags_length, size_t marks_length)
{
    lent_runs lent = {
        .picture_length = picture_length,
        .tags_length = tags_length,
        .marks_length = marks_length,
        .picture_block = patterned_block(picture_length),
        .tags_block = patterned_block(tags_length),
        .marks_block = patterned_block(marks_length),
    };
    lent.picture = lent.picture_block + AROUND;
    lent.tags = lent.tags_block + AROUND;
    lent.marks = lent.marks_block + AROUND;
    return lent;
}

lent_runs lend(size_t picture_length, size_t tags_length)
{
    return lend_with_marks(picture_length, tags_length, 0);
}

void take_back(lent_runs *lent)
{
    free(lent->picture_block);
    free(lent->tags_block);
    free(lent->marks_block);
    *lent = (lent_runs){ .picture = NULL };
}

bool is_kept_inside(const lent_runs *lent)
{
    return is_kept_around(lent->picture_block, lent->picture_length) &&
           is_kept_around(lent->tags_block, lent->tags_length) && is_kept_around(lent->marks_block, lent->marks_length);
}

bool is_as_lent(const lent_runs *lent)
{
    return has_pattern(lent->picture_block, 0, lent->picture_length + 2 * AROUND) &&
           has_pattern(lent->tags_block, 0, lent->tags_length + 2 * AROUND) &&
           has_pattern(lent->marks_block, 0, lent->marks_length + 2 * AROUND);
}

paint_request lending(const run_request *run, const uint8_t *ram_g, const lent_runs *lent)
{
    return (paint_request){ *run, ram_g, lent->picture, lent->picture_length, lent->tags, lent->tags_length };
}

/* ---- Pixels ---- */

shown_pixel pixel_at(const uint8_t *picture, const uint8_t *tags, size_t at)
{
    return (shown_pixel){ picture[3 * at], picture[3 * at + 1], picture[3 * at + 2], tags[at] };
}

shown_pixel lent_pixel_at(size_t at)
{
    size_t byte = AROUND + 3 * at;
    return (shown_pixel){ pattern_byte(byte), pattern_byte(byte + 1), pattern_byte(byte + 2),
                          pattern_byte(AROUND + at) };
}

bool are_equal_pixels(shown_pixel a, shown_pixel b)
{
    return a.red == b.red && a.green == b.green && a.blue == b.blue && a.tag == b.tag;
}

void print_pixel(const char *before, shown_pixel p)
{
    printf("    %s red %u, green %u, blue %u, tag %u\n", before, p.red, p.green, p.blue, p.tag);
}
