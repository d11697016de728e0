/* What the tool says of a bitmap that cannot be drawn, against the library: made lists in which bitmaps are set up by
   halves, saved, called and jumped over. Whatever is told, another RAM_G mends it exactly when RAM_G is to blame. */
#include "../../tool/bitmap.h"
#include "../../tool/follow.h"

#include <inttypes.h>
#include <stdio.h>

#include "../shared/check.h"
#include "../shared/draw.h"
#include "jokulvisp.h"

enum { LISTS = 30000, MOST_WORDS = 60, LIMIT = 500 };

static const uint8_t ram_g[JV_MAX_RAM_G_BYTES];

static uint32_t draw_format(void)
{
    static const uint32_t drawn[] = { JV_FORMAT_ARGB1555, JV_FORMAT_L8, JV_FORMAT_RGB565 };
    return drawn[draw_below(3)];
}

static uint32_t draw_target(void)
{
    return 4 * draw_below(MOST_WORDS);
}

static jv_bits draw_setting(void)
{
    switch (draw_below(8)) {
    case 0:
        return jv_write_word(JV_BITMAP_HANDLE, draw_below(3), 0, 0, 0, 0);
    case 1:
        return jv_write_word(JV_CELL, draw_below(4), 0, 0, 0, 0);
    case 2:
        return jv_write_word(JV_BITMAP_LAYOUT_H, draw_below(2), draw_below(2), 0, 0, 0);
    case 3:
        return jv_write_word(JV_BITMAP_SIZE_H, draw_below(2), draw_below(2), 0, 0, 0);
    case 4:
        return jv_write_word(JV_BITMAP_SOURCE, draw_below(300), 0, 0, 0, 0);
    case 5:
        return jv_write_word(JV_BITMAP_SIZE, 0, 0, 0, draw_below(4), draw_below(4));
    default:
        return jv_write_word(JV_BITMAP_LAYOUT, draw_format(), draw_below(6), draw_below(6), 0, 0);
    }
}

static jv_bits draw_vertex(void)
{
    if (draw_below(2) == 0)
        return jv_write_word(JV_VERTEX2F, 0, 0, 0, 0, 0);
    return jv_write_word(JV_VERTEX2II, 0, 0, draw_below(3), draw_below(4), 0);
}

static jv_bits draw_way(void)
{
    if (draw_below(3) == 0)
        return jv_write_word(JV_RETURN, 0, 0, 0, 0, 0);
    return jv_write_word(draw_below(4) == 0 ? JV_JUMP : JV_CALL, draw_target(), 0, 0, 0, 0);
}

/* Where there are many that save the context, more of them are saved than are kept. */
static jv_bits draw_word(uint32_t saves)
{
    uint32_t kind = draw_below(16 + saves);
    if (kind >= 16)
        return jv_write_word(JV_SAVE_CONTEXT, 0, 0, 0, 0, 0);
    if (kind < 2)
        return jv_write_word(JV_RESTORE_CONTEXT, 0, 0, 0, 0, 0);
    if (kind == 2)
        return draw_way();
    return kind < 5 ? draw_vertex() : draw_setting();
}

/* Begins with settings alone, so that often much is set up when the first vertex comes. */
static void make_list(display_list *list)
{
    list->length = 0;
    append_word(list, jv_write_word(JV_BEGIN, JV_PRIMITIVE_BITMAPS, 0, 0, 0, 0).bits);
    uint32_t settings = draw_below(20), saves = draw_below(8);
    for (uint32_t n = 1; n < MOST_WORDS; n++)
        append_word(list, n < settings ? draw_setting().bits : draw_word(saves).bits);
}

static jv_answer check(const display_list *list, size_t ram_g_length)
{
    return jv_check(list->bytes, list->length, ram_g, ram_g_length, 480, 272, LIMIT);
}

static bool is_still_at_fault(const display_list *list, size_t ram_g_length, jv_answer before)
{
    jv_answer answer = check(list, ram_g_length);
    return answer.number == JV_NO_BITMAP && answer.place == before.place && answer.count == before.count;
}

static void check_cause(const display_list *list, size_t ram_g_length, jv_answer answer, unsigned counts[])
{
    drawn_bitmap b = follow_to_vertex(list, answer.place, answer.count).bitmap;
    bitmap_fault cause = find_bitmap_fault(&b, ram_g_length);
    counts[cause]++;
    CHECK_HOLDS(cause != NOTHING_WRONG, "a cause is found for the fault at %" PRIu32, answer.place);
    if (cause != OUTSIDE_RAM_G) {
        CHECK_HOLDS(is_still_at_fault(list, JV_MAX_RAM_G_BYTES, answer), "cause %d is not RAM_G", cause);
    } else if (end_of_cell(&b) <= JV_MAX_RAM_G_BYTES) {
        CHECK_HOLDS(is_still_at_fault(list, end_of_cell(&b) - 1, answer), "a cell ends no earlier than told");
        CHECK_HOLDS(!is_still_at_fault(list, end_of_cell(&b), answer), "a cell ends no later than told");
    }
}

int main(void)
{
    unsigned counts[NOTHING_WRONG + 1] = { 0 };
    start_drawing(18);
    begin_part("why a bitmap cannot be drawn");
    for (unsigned n = 0; n < LISTS; n++) {
        static display_list list;
        size_t ram_g_length = draw_below(3) == 0 ? 0 : draw_below(1000);
        make_list(&list);
        jv_answer answer = check(&list, ram_g_length);
        if (answer.number == JV_NO_BITMAP)
            check_cause(&list, ram_g_length, answer, counts);
    }
    for (unsigned cause = 0; cause < NOTHING_WRONG; cause++)
        CHECK_HOLDS(counts[cause] >= 100, "cause %u comes up often enough, not %u times", cause, counts[cause]);
    return end_checks();
}
