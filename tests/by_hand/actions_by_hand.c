#include "actions_by_hand.h"

#include "../shared/check.h"
#include "../shared/list_check.h"
#include "../shared/list_words.h"

enum { MOST_ACTIONS = 16, MOST_WORDS = 64 };

typedef struct {
    run_action action[MOST_ACTIONS];
    size_t count;
} actions;

static void keep(void *taker, const run_action *action)
{
    actions *kept = taker;
    if (kept->count < MOST_ACTIONS)
        kept->action[kept->count++] = *action;
}

#define ACTIONS_OF(...)                                                                                                \
    actions_of((const uint32_t[]){ __VA_ARGS__ }, sizeof((const uint32_t[]){ __VA_ARGS__ }) / sizeof(uint32_t))

/* The actions of a list that draws, with a RAM_G of 64 bytes. */
static actions actions_of(const uint32_t *words, size_t count)
{
    uint8_t list[4 * MOST_WORDS];
    actions kept = { .count = 0 };
    put_words(list, words, count);
    run_answer ran = run_list_for_actions(&(run_request){ list, 4 * count, 64, 480, 272, JV_MAX_LIMIT }, keep, &kept);
    CHECK_HOLDS(ran.number == 0, "the list draws");
    return kept;
}

static bool is_at(position p, int32_t x, int32_t y)
{
    return p.x == x && p.y == y;
}

static void check_starting_values(void)
{
    begin_part("actions: starting values");
    actions got = ACTIONS_OF(CLEAR(1, 0, 1), BEGIN(POINTS), VERTEX2F(5, -7), DISPLAY());
    CHECK_HOLDS(got.count == 2, "a clear and a point");
    const run_action *clear = &got.action[0], *point = &got.action[1];
    CHECK_HOLDS(clear->kind == CLEARING && clear->flags == 5, "colour and tag are cleared");
    CHECK_HOLDS(clear->colour.red == 0 && clear->colour.green == 0 && clear->colour.blue == 0, "cleared to black");
    CHECK_HOLDS(clear->colour.alpha == 0 && clear->clear_stencil == 0 && clear->tag == 0, "and to zeros");
    CHECK_HOLDS(point->kind == A_POINT && is_at(point->point.centre, 5, -7) && point->point.size == 16, "a point");
    CHECK_HOLDS(point->colour.red == 255 && point->colour.green == 255 && point->colour.blue == 255, "white");
    CHECK_HOLDS(point->colour.alpha == 255 && point->tag == 255, "opaque, with tag 255");
    CHECK_HOLDS(point->scissor.x == 0 && point->scissor.y == 0, "scissor from the corner");
    CHECK_HOLDS(point->scissor.width == JV_MAX_SCISSOR && point->scissor.height == JV_MAX_SCISSOR, "over everything");
    CHECK_HOLDS(point->masks.colour == 15 && point->masks.stencil == 255 && point->masks.tag == 1, "masks all set");
    CHECK_HOLDS(point->alpha_test.func == ALWAYS && point->alpha_test.ref == 0, "alpha test ALWAYS");
    CHECK_HOLDS(point->stencil_test.func == ALWAYS && point->stencil_test.ref == 0, "stencil test ALWAYS");
    CHECK_HOLDS(point->stencil_test.mask == 255, "on all bits");
    CHECK_HOLDS(point->stencil_actions.sfail == KEEP && point->stencil_actions.spass == KEEP, "KEEP, KEEP");
    CHECK_HOLDS(point->blend.src == SRC_ALPHA && point->blend.dst == ONE_MINUS_SRC_ALPHA,
                "SRC_ALPHA, ONE_MINUS_SRC_ALPHA");
}

static void check_settings(void)
{
    begin_part("actions: settings");
    actions got =
        ACTIONS_OF(CLEAR_COLOR_RGB(1, 2, 3), CLEAR_COLOR_A(4), CLEAR_STENCIL(5), CLEAR_TAG(6), COLOR_RGB(7, 8, 9),
                   COLOR_A(10), TAG(11), SCISSOR_XY(12, 13), SCISSOR_SIZE(14, 15), COLOR_MASK(1, 0, 1, 0),
                   STENCIL_MASK(16), TAG_MASK(0), ALPHA_FUNC(LESS, 17), STENCIL_FUNC(LEQUAL, 18, 19),
                   STENCIL_OP(INCR, DECR), BLEND_FUNC(ONE_MINUS_DST_ALPHA, ZERO), LINE_WIDTH(20), CLEAR(0, 1, 0),
                   BEGIN(RECTS), VERTEX2II(2, 1, 9, 9), VERTEX2II(1, 2, 9, 9), DISPLAY());
    CHECK_HOLDS(got.count == 2, "a clear and a rectangle");
    const run_action *clear = &got.action[0], *box = &got.action[1];
    CHECK_HOLDS(clear->flags == 2, "the stencil is cleared");
    CHECK_HOLDS(clear->colour.red == 1 && clear->colour.green == 2 && clear->colour.blue == 3, "CLEAR_COLOR_RGB");
    CHECK_HOLDS(clear->colour.alpha == 4 && clear->clear_stencil == 5 && clear->tag == 6, "the other clear values");
    CHECK_HOLDS(box->kind == A_RECTANGLE && box->rectangle.width == 20, "LINE_WIDTH");
    CHECK_HOLDS(is_at(box->rectangle.low, 16, 16) && is_at(box->rectangle.high, 32, 32), "corners in order");
    CHECK_HOLDS(box->colour.red == 7 && box->colour.green == 8 && box->colour.blue == 9, "COLOR_RGB");
    CHECK_HOLDS(box->colour.alpha == 10 && box->tag == 11, "COLOR_A and TAG");
    for (const run_action *a = got.action; a < got.action + got.count; a++) {
        CHECK_HOLDS(a->scissor.x == 12 && a->scissor.y == 13, "SCISSOR_XY");
        CHECK_HOLDS(a->scissor.width == 14 && a->scissor.height == 15, "SCISSOR_SIZE");
        CHECK_HOLDS(a->masks.colour == 10 && a->masks.stencil == 16 && a->masks.tag == 0, "the masks");
    }
    CHECK_HOLDS(box->alpha_test.func == LESS && box->alpha_test.ref == 17, "ALPHA_FUNC");
    CHECK_HOLDS(box->stencil_test.func == LEQUAL && box->stencil_test.ref == 18 && box->stencil_test.mask == 19,
                "STENCIL_FUNC");
    CHECK_HOLDS(box->stencil_actions.sfail == INCR && box->stencil_actions.spass == DECR, "STENCIL_OP");
    CHECK_HOLDS(box->blend.src == ONE_MINUS_DST_ALPHA && box->blend.dst == ZERO, "BLEND_FUNC");
}

/* Document 01's example 11, with a point after each restore to show the alpha. */
static void check_restores(void)
{
    static const uint8_t alpha[] = { 5, 4, 3, 2, 255 };
    begin_part("actions: document 01's example 11");
    actions got = ACTIONS_OF(COLOR_A(1), SAVE_CONTEXT(), COLOR_A(2), SAVE_CONTEXT(), COLOR_A(3), SAVE_CONTEXT(),
                             COLOR_A(4), SAVE_CONTEXT(), COLOR_A(5), SAVE_CONTEXT(), BEGIN(POINTS), RESTORE_CONTEXT(),
                             VERTEX2F(0, 0), RESTORE_CONTEXT(), VERTEX2F(0, 0), RESTORE_CONTEXT(), VERTEX2F(0, 0),
                             RESTORE_CONTEXT(), VERTEX2F(0, 0), RESTORE_CONTEXT(), VERTEX2F(0, 0), DISPLAY());
    CHECK_HOLDS(got.count == sizeof alpha, "five points");
    for (size_t n = 0; n < sizeof alpha; n++)
        CHECK_HOLDS(got.action[n].colour.alpha == alpha[n], "5, 4, 3, 2, 255");
}

/* All of the context comes back, and so what the guide's table of it leaves out. */
static void check_whole_context(void)
{
    begin_part("actions: a restore gives back every setting");
    actions got = ACTIONS_OF(
        LINE_WIDTH(1), BEGIN(RECTS), VERTEX2F(1, 1), VERTEX2F(2, 2), SAVE_CONTEXT(), COLOR_RGB(7, 8, 9), COLOR_A(10),
        TAG(11), SCISSOR_XY(12, 13), SCISSOR_SIZE(14, 15), COLOR_MASK(1, 0, 1, 0), STENCIL_MASK(16), TAG_MASK(0),
        ALPHA_FUNC(LESS, 17), STENCIL_FUNC(LEQUAL, 18, 19), STENCIL_OP(INCR, DECR),
        BLEND_FUNC(ONE_MINUS_DST_ALPHA, ZERO), LINE_WIDTH(20), VERTEX_FORMAT(0), VERTEX_TRANSLATE_X(100),
        VERTEX_TRANSLATE_Y(100), RESTORE_CONTEXT(), VERTEX2F(1, 1), VERTEX2F(2, 2), DISPLAY());
    CHECK_HOLDS(got.count == 2, "two rectangles");
    CHECK_HOLDS(are_equal_actions(&got.action[0], &got.action[1]), "equal by value");
}

static void check_corners(void)
{
    begin_part("actions: corners");
    actions placed = ACTIONS_OF(BEGIN(RECTS), VERTEX_FORMAT(0), VERTEX_TRANSLATE_X(3), VERTEX2F(1, 2),
                                VERTEX_FORMAT(3), VERTEX_TRANSLATE_X(0), VERTEX_TRANSLATE_Y(-5), VERTEX2F(-1, 10),
                                DISPLAY());
    CHECK_HOLDS(placed.count == 1, "one rectangle");
    CHECK_HOLDS(is_at(placed.action[0].rectangle.low, -2, 15), "each corner placed at its own vertex: low");
    CHECK_HOLDS(is_at(placed.action[0].rectangle.high, 19, 32), "each corner placed at its own vertex: high");

    actions state = ACTIONS_OF(BEGIN(RECTS), COLOR_A(1), VERTEX2F(0, 0), COLOR_A(2), VERTEX2F(16, 16), DISPLAY());
    CHECK_HOLDS(state.count == 1 && state.action[0].colour.alpha == 2, "the rest as at the second corner");

    actions dropped = ACTIONS_OF(BEGIN(RECTS), VERTEX2F(0, 0), BEGIN(RECTS), VERTEX2F(1, 1), END(), BEGIN(RECTS),
                                 VERTEX2F(2, 2), VERTEX2F(3, 3), VERTEX2F(4, 4), DISPLAY());
    CHECK_HOLDS(dropped.count == 1, "BEGIN and END drop a corner, and a third vertex opens another");
    CHECK_HOLDS(is_at(dropped.action[0].rectangle.low, 2, 2), "the first corner after BEGIN");

    actions kept = ACTIONS_OF(BEGIN(RECTS), SAVE_CONTEXT(), VERTEX2F(7, 7), RESTORE_CONTEXT(), VERTEX2F(8, 8),
                              DISPLAY());
    CHECK_HOLDS(kept.count == 1 && is_at(kept.action[0].rectangle.low, 7, 7), "a restore leaves a corner open");
}

static void check_ends(void)
{
    begin_part("actions: ends");
    actions placed = ACTIONS_OF(BEGIN(LINES), VERTEX_FORMAT(0), VERTEX_TRANSLATE_X(3), VERTEX2F(1, 2),
                                VERTEX_FORMAT(3), VERTEX_TRANSLATE_X(0), VERTEX_TRANSLATE_Y(-5), LINE_WIDTH(7),
                                VERTEX2F(-1, 10), DISPLAY());
    CHECK_HOLDS(placed.count == 1 && placed.action[0].kind == A_SEGMENT, "one segment");
    const segment_shape *s = &placed.action[0].segment;
    CHECK_HOLDS(is_at(s->from, 19, 32) && is_at(s->to, -2, 15), "each end placed at its own vertex, in their order");
    CHECK_HOLDS(s->width == 7 && s->primitive == LINES, "with the width at the second end");

    actions strip = ACTIONS_OF(BEGIN(LINE_STRIP), COLOR_A(1), VERTEX2F(1, 1), COLOR_A(2), VERTEX2F(2, 2), COLOR_A(3),
                               VERTEX2F(3, 3), DISPLAY());
    CHECK_HOLDS(strip.count == 2, "a strip of two segments");
    CHECK_HOLDS(is_at(strip.action[0].segment.from, 1, 1) && is_at(strip.action[0].segment.to, 2, 2), "the first");
    CHECK_HOLDS(is_at(strip.action[1].segment.from, 2, 2) && is_at(strip.action[1].segment.to, 3, 3), "the second");
    CHECK_HOLDS(strip.action[0].colour.alpha == 2 && strip.action[1].colour.alpha == 3, "the rest as at second ends");

    actions alike = ACTIONS_OF(BEGIN(LINES), VERTEX2F(1, 1), VERTEX2F(2, 2), VERTEX2F(1, 1), VERTEX2F(2, 2),
                               VERTEX2F(2, 2), VERTEX2F(1, 1), BEGIN(LINE_STRIP), VERTEX2F(1, 1), VERTEX2F(2, 2),
                               DISPLAY());
    CHECK_HOLDS(alike.count == 4, "four segments");
    CHECK_HOLDS(are_equal_actions(&alike.action[0], &alike.action[1]), "equal by value");
    CHECK_HOLDS(!are_equal_actions(&alike.action[0], &alike.action[2]), "but not the other way round");
    CHECK_HOLDS(!are_equal_actions(&alike.action[0], &alike.action[3]), "nor in a strip");
}

static void check_bitmap(void)
{
    begin_part("actions: bitmaps");
    actions got = ACTIONS_OF(BITMAP_HANDLE(3), BITMAP_SOURCE(4), BITMAP_LAYOUT(RGB565, 6, 2),
                             BITMAP_SIZE(0, 0, 0, 5, 7), BITMAP_SIZE_H(1, 2), CELL(2), BEGIN(BITMAPS), VERTEX2F(-1, 15),
                             VERTEX2II(20, 30, 3, 1), VERTEX2F(-16, -17), DISPLAY());
    CHECK_HOLDS(got.count == 3, "three bitmaps");
    const bitmap_shape *b = &got.action[0].bitmap;
    CHECK_HOLDS(b->left == -1 && b->top == 0, "-1 sixteenth lies in pixel -1, 15 in pixel 0");
    CHECK_HOLDS(b->width == 517 && b->height == 1031, "drawn size with its high bits");
    CHECK_HOLDS(b->cell_start == 28 && b->format == RGB565 && b->stride == 6 && b->layout_height == 2, "cell 2");
    CHECK_HOLDS(got.action[1].bitmap.left == 20 && got.action[1].bitmap.top == 30, "VERTEX2II in pixels");
    CHECK_HOLDS(got.action[1].bitmap.cell_start == 16, "VERTEX2II's own cell 1");
    CHECK_HOLDS(!are_equal_actions(&got.action[0], &got.action[1]), "no two of them are equal");
    CHECK_HOLDS(got.action[2].bitmap.left == -1 && got.action[2].bitmap.top == -2, "-16 in pixel -1, -17 in pixel -2");
}

void check_actions_by_hand(void)
{
    check_starting_values();
    check_settings();
    check_restores();
    check_whole_context();
    check_corners();
    check_ends();
    check_bitmap();
}
