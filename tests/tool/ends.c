/* Where the tool says that the ends of a line lie, against the second program: made lists with lines that go too far,
   with formats and translations that are saved, restored, called and jumped over. Where the library finds an end too
   far away, the same list with points in place of the lines has its last two points at both ends. */
#include "../../tool/follow.h"

#include <inttypes.h>
#include <stdio.h>

#include "../second/runner.h"
#include "../shared/check.h"
#include "../shared/draw.h"
#include "jokulvisp.h"

enum { LISTS = 30000, MOST_WORDS = 60, LIMIT = 500, LEAST_MET = 1000 };

static jv_bits draw_setting(void)
{
    int32_t far = (int32_t)draw_below(131072) - 65536, near = (int32_t)draw_below(2000) - 1000;
    int32_t translation = draw_below(3) == 0 ? far : near;
    switch (draw_below(4)) {
    case 0:
        return jv_write_word(JV_VERTEX_FORMAT, draw_below(JV_MAX_FRAC + 1), 0, 0, 0, 0);
    case 1:
        return jv_write_word(JV_VERTEX_TRANSLATE_X, (uint32_t)translation, 0, 0, 0, 0);
    case 2:
        return jv_write_word(JV_VERTEX_TRANSLATE_Y, (uint32_t)translation, 0, 0, 0, 0);
    default:
        return jv_write_word(JV_BEGIN, JV_PRIMITIVE_LINES + draw_below(2), 0, 0, 0, 0);
    }
}

static jv_bits draw_vertex(void)
{
    uint32_t x = draw_below(500), y = draw_below(500);
    if (draw_below(2) == 0)
        return jv_write_word(JV_VERTEX2II, x, y, 0, 0, 0);
    return jv_write_word(JV_VERTEX2F, x - 250, 3 * y - 750, 0, 0, 0);
}

static jv_bits draw_way(void)
{
    uint32_t target = 4 * draw_below(MOST_WORDS);
    if (draw_below(3) == 0)
        return jv_write_word(JV_RETURN, 0, 0, 0, 0, 0);
    return jv_write_word(draw_below(4) == 0 ? JV_JUMP : JV_CALL, target, 0, 0, 0, 0);
}

static jv_bits draw_word(void)
{
    uint32_t kind = draw_below(16);
    if (kind < 2)
        return jv_write_word(kind == 0 ? JV_SAVE_CONTEXT : JV_RESTORE_CONTEXT, 0, 0, 0, 0, 0);
    if (kind == 2)
        return draw_way();
    return kind < 8 ? draw_setting() : draw_vertex();
}

static void make_list(display_list *list)
{
    list->length = 0;
    append_word(list, jv_write_word(JV_BEGIN, JV_PRIMITIVE_LINES, 0, 0, 0, 0).bits);
    for (uint32_t n = 1; n < MOST_WORDS; n++)
        append_word(list, draw_word().bits);
}

/* ---- The same list with points ---- */

typedef struct {
    position before, at;
} last_points;

static void keep_point(void *taker, const run_action *action)
{
    last_points *kept = taker;
    kept->before = kept->at;
    kept->at = action->point.centre;
}

/* So many of its words are run. */
static last_points points_of(const display_list *list, uint32_t count)
{
    static display_list points;
    last_points last = { { 0, 0 }, { 0, 0 } };
    points.length = 0;
    for (size_t place = 0; place < list->length; place += 4) {
        jv_word word = jv_read_word(word_at(list, place));
        bool begins = word.command == JV_BEGIN;
        append_word(&points,
                    begins ? jv_write_word(JV_BEGIN, JV_PRIMITIVE_POINTS, 0, 0, 0, 0).bits : word_at(list, place));
    }
    run_list_for_actions(&(run_request){ points.bytes, points.length, 0, 480, 272, count }, keep_point, &last);
    return last;
}

/* ---- The whole ---- */

static bool is_at(vertex_place told, position seen)
{
    return told.x == seen.x && told.y == seen.y;
}

int main(void)
{
    unsigned met = 0;
    start_drawing(20);
    begin_part("where a far end lies");
    for (unsigned n = 0; n < LISTS; n++) {
        static display_list list;
        make_list(&list);
        jv_answer answer = jv_check(list.bytes, list.length, NULL, 0, 480, 272, LIMIT);
        if (answer.number != JV_FAR_END)
            continue;
        followed_vertex told = follow_to_vertex(&list, answer.place, answer.count);
        last_points seen = points_of(&list, answer.count);
        CHECK_HOLDS(is_at(told.before, seen.before), "the first end of the line at %" PRIu32, answer.place);
        CHECK_HOLDS(is_at(told.at, seen.at), "the second end of the line at %" PRIu32, answer.place);
        met++;
    }
    CHECK_HOLDS(met >= LEAST_MET, "far ends come up often enough, not %u times", met);
    return end_checks();
}
