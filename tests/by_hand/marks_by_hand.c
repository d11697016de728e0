/* Which rows are marked, and what becomes of them. Frames are 4 by 4 pixels but for a few. Things are drawn with the
   starting values unless a case says otherwise: opaque, in white with tag 255. */
#include "repaints_by_hand.h"

#include "hand_repaints.h"

#define RED COLOR_RGB(255, 0, 0)
#define GREEN COLOR_RGB(0, 255, 0)
#define BLUE COLOR_RGB(0, 0, 255)
#define COLOURS                                                                                                        \
    WHERE({ 'r', { 255, 0, 0, 255 } }, { 'g', { 0, 255, 0, 255 } }, { 'b', { 0, 0, 255, 255 } },                       \
          { 'w', { 255, 255, 255, 0 } }, { 'k', { 0, 0, 0, 255 } })

/* Points of one pixel each; the starting size of 16 covers the four beside it, too. */
#define DOTS POINT_SIZE(0), BEGIN(POINTS)
#define AT(x, y) VERTEX2II(x, y, 0, 0)
#define RECTANGLES LINE_WIDTH(0), BEGIN(RECTS)

#define NO_ROW SHOWS(KEPT, KEPT, KEPT, KEPT)

static const hand_picture examples[] = {
    { CASE("document 01's example 13: the colour of a point"), FROM(DOTS, RED, AT(1, 1), DISPLAY()),
      TO(DOTS, GREEN, AT(1, 1), DISPLAY()), SHOWS(KEPT, ".g..", KEPT, KEPT), COLOURS },
    { CASE("document 01's example 13: a NOP added"), FROM(DOTS, RED, AT(1, 1), DISPLAY()),
      TO(DOTS, RED, NOP(), AT(1, 1), DISPLAY()), NO_ROW },
};

/* Other words that draw the same. */
static const hand_picture nothing_changed[] = {
    { CASE("the same list"), FROM(CLEAR(1, 1, 1), DOTS, AT(1, 1), DISPLAY()),
      TO(CLEAR(1, 1, 1), DOTS, AT(1, 1), DISPLAY()), NO_ROW },
    { CASE("two lists that draw nothing"), FROM(DISPLAY()), TO(RED, NOP(), DISPLAY()), NO_ROW },
    { CASE("words after DISPLAY"), FROM(DOTS, AT(1, 1), DISPLAY()), TO(DOTS, AT(1, 1), DISPLAY(), AT(2, 2), DISPLAY()),
      NO_ROW },
    { CASE("settings that were so already"), FROM(DOTS, AT(1, 1), DISPLAY()),
      TO(DOTS, COLOR_RGB(255, 255, 255), COLOR_A(255), TAG(255), ALPHA_FUNC(ALWAYS, 0), STENCIL_FUNC(ALWAYS, 0, 255),
         STENCIL_OP(KEEP, KEEP), BLEND_FUNC(SRC_ALPHA, ONE_MINUS_SRC_ALPHA), COLOR_MASK(1, 1, 1, 1), STENCIL_MASK(255),
         TAG_MASK(1), VERTEX_FORMAT(4), VERTEX_TRANSLATE_X(0), VERTEX_TRANSLATE_Y(0), AT(1, 1), DISPLAY()),
      NO_ROW },
    { CASE("a scissor that was so already"), FROM(BEGIN_EVERYWHERE, EVERYWHERE, DISPLAY()),
      TO(SCISSOR_XY(0, 0), SCISSOR_SIZE(JV_MAX_SCISSOR, JV_MAX_SCISSOR), BEGIN_EVERYWHERE, EVERYWHERE, DISPLAY()),
      NO_ROW },
    { CASE("a scissor that is set back before anything is drawn"),
      FROM(SCISSOR_SIZE(3, 3), BEGIN_EVERYWHERE, EVERYWHERE, DISPLAY()),
      TO(SCISSOR_SIZE(2, 2), SCISSOR_SIZE(3, 3), BEGIN_EVERYWHERE, EVERYWHERE, DISPLAY()), NO_ROW },
    { CASE("a colour after the last that is drawn"), FROM(DOTS, AT(1, 1), DISPLAY()),
      TO(DOTS, AT(1, 1), RED, DISPLAY()), NO_ROW },
    { CASE("a colour that is restored before anything is drawn"), FROM(DOTS, AT(1, 1), DISPLAY()),
      TO(DOTS, SAVE_CONTEXT(), RED, RESTORE_CONTEXT(), AT(1, 1), DISPLAY()), NO_ROW },
    { CASE("END and BEGIN again"), FROM(DOTS, AT(1, 1), AT(2, 2), DISPLAY()),
      TO(DOTS, AT(1, 1), END(), BEGIN(POINTS), AT(2, 2), DISPLAY()), NO_ROW },
    { CASE("reserved bits"), FROM(RED, DOTS, AT(1, 1), DISPLAY()),
      TO(RED, POINT_SIZE(0) | 0x00F00000, BEGIN(POINTS) | 0x00123450, AT(1, 1), DISPLAY() | 0x00FFFFFF), NO_ROW },
    { CASE("a stretch that is called instead of written out"), FROM(DOTS, AT(1, 1), DISPLAY()),
      TO(CALL(8), DISPLAY(), DOTS, AT(1, 1), RETURN()), NO_ROW },
    { CASE("a jump instead of a step"), FROM(DOTS, AT(1, 1), DISPLAY()), TO(JUMP(8), RED, DOTS, AT(1, 1), DISPLAY()),
      NO_ROW },
    { CASE("the same place by the other kind of vertex"), FROM(DOTS, AT(1, 2), DISPLAY()),
      TO(DOTS, VERTEX2F(16, 32), DISPLAY()), NO_ROW },
    { CASE("the same place in another unit"), FROM(DOTS, AT(1, 2), DISPLAY()),
      TO(DOTS, VERTEX_FORMAT(0), VERTEX2F(1, 2), DISPLAY()), NO_ROW },
    { CASE("the same place under a translation"), FROM(DOTS, AT(1, 2), DISPLAY()),
      TO(DOTS, VERTEX_TRANSLATE_X(-16), VERTEX_TRANSLATE_Y(16), AT(2, 1), DISPLAY()), NO_ROW },
    { CASE("handle and cell of a point's vertex"), FROM(DOTS, AT(1, 2), DISPLAY()),
      TO(DOTS, BITMAP_HANDLE(3), CELL(4), VERTEX2II(1, 2, 31, 127), DISPLAY()), NO_ROW },
};

/* 'Marking rows by the changed word's offset and missing a colour that leaks into later actions.' */
static const hand_picture leaks[] = {
    { CASE("a colour leaks into all that is drawn with it"),
      FROM(RED, DOTS, AT(0, 0), AT(1, 2), BLUE, AT(2, 3), DISPLAY()),
      TO(GREEN, DOTS, AT(0, 0), AT(1, 2), BLUE, AT(2, 3), DISPLAY()), SHOWS("g...", KEPT, ".g..", KEPT), COLOURS },
    { CASE("a colour taken away"), FROM(RED, DOTS, AT(0, 0), GREEN, AT(1, 1), AT(2, 3), DISPLAY()),
      TO(RED, DOTS, AT(0, 0), AT(1, 1), AT(2, 3), DISPLAY()), SHOWS(KEPT, ".r..", KEPT, "..r."), COLOURS },
    { CASE("from points into a rectangle"), FROM(RED, DOTS, AT(0, 0), RECTANGLES, AT(1, 2), AT(3, 3), DISPLAY()),
      TO(GREEN, DOTS, AT(0, 0), RECTANGLES, AT(1, 2), AT(3, 3), DISPLAY()), SHOWS("g...", KEPT, ".ggg", ".ggg"),
      COLOURS },
    { CASE("not past a restore"), FROM(DOTS, SAVE_CONTEXT(), RED, AT(0, 0), RESTORE_CONTEXT(), AT(1, 2), DISPLAY()),
      TO(DOTS, SAVE_CONTEXT(), GREEN, AT(0, 0), RESTORE_CONTEXT(), AT(1, 2), DISPLAY()),
      SHOWS("g...", KEPT, KEPT, KEPT), COLOURS },
    { CASE("out of a context that was saved"),
      FROM(DOTS, RED, SAVE_CONTEXT(), BLUE, AT(0, 0), RESTORE_CONTEXT(), AT(1, 2), DISPLAY()),
      TO(DOTS, GREEN, SAVE_CONTEXT(), BLUE, AT(0, 0), RESTORE_CONTEXT(), AT(1, 2), DISPLAY()),
      SHOWS(KEPT, KEPT, ".g..", KEPT), COLOURS },
    { CASE("out of a stretch that is called"), FROM(JUMP(12), RED, RETURN(), CALL(4), DOTS, AT(0, 1), DISPLAY()),
      TO(JUMP(12), GREEN, RETURN(), CALL(4), DOTS, AT(0, 1), DISPLAY()), SHOWS(KEPT, "g...", KEPT, KEPT), COLOURS },
    { CASE("into a stretch that is called, each time"),
      FROM(JUMP(12), AT(0, 0), RETURN(), DOTS, VERTEX_TRANSLATE_Y(16), CALL(4), VERTEX_TRANSLATE_Y(48), CALL(4),
           DISPLAY()),
      TO(JUMP(12), AT(0, 0), RETURN(), DOTS, VERTEX_TRANSLATE_Y(32), CALL(4), VERTEX_TRANSLATE_Y(48), CALL(4),
         DISPLAY()),
      SHOWS(KEPT, "....", "#...", KEPT) },
    { CASE("a tag"), FROM(DOTS, TAG(1), AT(0, 0), AT(1, 2), DISPLAY()), TO(DOTS, TAG(2), AT(0, 0), AT(1, 2), DISPLAY()),
      SHOWS("t...", KEPT, ".t..", KEPT), WHERE({ 't', { 255, 255, 255, 2 } }) },
    { CASE("a size, which also says how far points reach"), FROM(DOTS, AT(1, 1), POINT_SIZE(0), AT(3, 3), DISPLAY()),
      TO(DOTS, POINT_SIZE(16), AT(1, 1), POINT_SIZE(0), AT(3, 3), DISPLAY()), SHOWS(".#..", "###.", ".#..", KEPT) },
    { CASE("a size is nothing to a rectangle"), FROM(RECTANGLES, AT(1, 1), AT(2, 2), DISPLAY()),
      TO(POINT_SIZE(99), RECTANGLES, AT(1, 1), AT(2, 2), DISPLAY()), NO_ROW },
    { CASE("a line width is nothing to a point"), FROM(DOTS, AT(1, 1), DISPLAY()),
      TO(LINE_WIDTH(99), DOTS, AT(1, 1), DISPLAY()), NO_ROW },
    { CASE("clear values are nothing to a point"), FROM(DOTS, AT(1, 1), DISPLAY()),
      TO(CLEAR_COLOR_RGB(1, 2, 3), CLEAR_COLOR_A(4), CLEAR_STENCIL(5), CLEAR_TAG(6), DOTS, AT(1, 1), DISPLAY()),
      NO_ROW },
    { CASE("colour, tag, tests, blend and sizes are nothing to CLEAR"), FROM(CLEAR(1, 1, 1), DISPLAY()),
      TO(RED, COLOR_A(1), TAG(2), ALPHA_FUNC(NEVER, 3), STENCIL_FUNC(NEVER, 4, 5), STENCIL_OP(ZERO, REPLACE),
         BLEND_FUNC(ZERO, ONE), POINT_SIZE(6), LINE_WIDTH(7), CLEAR(1, 1, 1), DISPLAY()),
      NO_ROW },
};

/* White on white or side by side, so that only the order can tell. */
static const hand_picture orders[] = {
    { CASE("one moved past another: where both reach"), FROM(BEGIN(POINTS), AT(0, 1), AT(3, 2), DISPLAY()),
      TO(BEGIN(POINTS), AT(3, 2), AT(0, 1), DISPLAY()), SHOWS(KEPT, "##.#", "#.##", KEPT) },
    { CASE("one moved past another of other rows"), FROM(DOTS, AT(0, 0), AT(1, 2), DISPLAY()),
      TO(DOTS, AT(1, 2), AT(0, 0), DISPLAY()), NO_ROW },
    { CASE("CLEAR moved past a point"), FROM(CLEAR(1, 1, 1), DOTS, AT(1, 1), DISPLAY()),
      TO(DOTS, AT(1, 1), CLEAR(1, 1, 1), DISPLAY()), SHOWS(KEPT, "....", KEPT, KEPT) },
    { CASE("twice instead of once"), FROM(DOTS, AT(1, 1), DISPLAY()), TO(DOTS, AT(1, 1), AT(1, 1), DISPLAY()),
      SHOWS(KEPT, ".#..", KEPT, KEPT) },
    { CASE("twice instead of three times"), FROM(DOTS, AT(1, 1), AT(1, 1), AT(1, 1), AT(0, 3), DISPLAY()),
      TO(DOTS, AT(1, 1), AT(1, 1), AT(0, 3), DISPLAY()), SHOWS(KEPT, ".#..", KEPT, KEPT) },
    { CASE("CLEAR twice instead of once"), FROM(CLEAR(1, 1, 1), DISPLAY()),
      TO(CLEAR(1, 1, 1), CLEAR(1, 1, 1), DISPLAY()), SHOWS("....", "....", "....", "....") },
    { CASE("one more before the others"), FROM(DOTS, AT(1, 1), AT(1, 2), DISPLAY()),
      TO(DOTS, AT(2, 1), AT(1, 1), AT(1, 2), DISPLAY()), SHOWS(KEPT, ".##.", KEPT, KEPT) },
    { CASE("one more after the others"), FROM(DOTS, AT(1, 1), AT(1, 2), DISPLAY()),
      TO(DOTS, AT(1, 1), AT(1, 2), AT(2, 1), DISPLAY()), SHOWS(KEPT, ".##.", KEPT, KEPT) },
    { CASE("one less after the others"), FROM(DOTS, AT(1, 1), AT(1, 2), AT(2, 1), DISPLAY()),
      TO(DOTS, AT(1, 1), AT(1, 2), DISPLAY()), SHOWS(KEPT, ".#..", KEPT, KEPT) },
    { CASE("one that goes to another row, from between others"), FROM(DOTS, AT(0, 0), AT(1, 1), AT(2, 0), DISPLAY()),
      TO(DOTS, AT(0, 0), AT(1, 2), AT(2, 0), DISPLAY()), SHOWS(KEPT, "....", ".#..", KEPT) },
    { CASE("nothing is drawn any more"), FROM(DOTS, AT(1, 1), AT(2, 3), DISPLAY()), TO(DISPLAY()),
      SHOWS(KEPT, "....", KEPT, "....") },
    { CASE("nothing was drawn before"), FROM(DISPLAY()), TO(DOTS, AT(1, 1), AT(2, 3), DISPLAY()),
      SHOWS(KEPT, ".#..", KEPT, "..#.") },
};

/* 'An action reaches a row exactly if it covers such a pixel there': each is red before and green after. */
static const hand_picture reaches[] = {
    { CASE("a scissor cuts rows off"), FROM(SCISSOR_SIZE(4, 2), RED, BEGIN_EVERYWHERE, EVERYWHERE, DISPLAY()),
      TO(SCISSOR_SIZE(4, 2), GREEN, BEGIN_EVERYWHERE, EVERYWHERE, DISPLAY()), SHOWS("gggg", "gggg", KEPT, KEPT),
      COLOURS },
    { CASE("and from above"), FROM(SCISSOR_XY(1, 3), RED, BEGIN_EVERYWHERE, EVERYWHERE, DISPLAY()),
      TO(SCISSOR_XY(1, 3), GREEN, BEGIN_EVERYWHERE, EVERYWHERE, DISPLAY()), SHOWS(KEPT, KEPT, KEPT, ".ggg"), COLOURS },
    { CASE("a scissor leaves one arm of a point"), FROM(SCISSOR_XY(2, 0), RED, BEGIN(POINTS), AT(1, 1), DISPLAY()),
      TO(SCISSOR_XY(2, 0), GREEN, BEGIN(POINTS), AT(1, 1), DISPLAY()), SHOWS(KEPT, "..g.", KEPT, KEPT), COLOURS },
    { CASE("the frame leaves one arm, on the left"), FROM(RED, BEGIN(POINTS), VERTEX2F(-16, 16), DISPLAY()),
      TO(GREEN, BEGIN(POINTS), VERTEX2F(-16, 16), DISPLAY()), SHOWS(KEPT, "g...", KEPT, KEPT), COLOURS },
    { CASE("on the right"), FROM(RED, BEGIN(POINTS), VERTEX2F(64, 16), DISPLAY()),
      TO(GREEN, BEGIN(POINTS), VERTEX2F(64, 16), DISPLAY()), SHOWS(KEPT, "...g", KEPT, KEPT), COLOURS },
    { CASE("above"), FROM(RED, BEGIN(POINTS), VERTEX2F(16, -16), DISPLAY()),
      TO(GREEN, BEGIN(POINTS), VERTEX2F(16, -16), DISPLAY()), SHOWS(".g..", KEPT, KEPT, KEPT), COLOURS },
    { CASE("below"), FROM(RED, BEGIN(POINTS), VERTEX2F(16, 64), DISPLAY()),
      TO(GREEN, BEGIN(POINTS), VERTEX2F(16, 64), DISPLAY()), SHOWS(KEPT, KEPT, KEPT, ".g.."), COLOURS },
    { CASE("all of it is beside the frame"),
      FROM(RED, BEGIN(POINTS), VERTEX2F(-32, 16), VERTEX2F(80, 16), VERTEX2F(16, -32), VERTEX2F(16, 80), DISPLAY()),
      TO(GREEN, BEGIN(POINTS), VERTEX2F(-32, 16), VERTEX2F(80, 16), VERTEX2F(16, -32), VERTEX2F(16, 80), DISPLAY()),
      NO_ROW },
    { CASE("a point of size 7 between two samples"),
      FROM(RED, POINT_SIZE(7), BEGIN(POINTS), VERTEX2F(24, 16), DISPLAY()),
      TO(GREEN, POINT_SIZE(7), BEGIN(POINTS), VERTEX2F(24, 16), DISPLAY()), NO_ROW },
    { CASE("a point of size 11 between four"), FROM(RED, POINT_SIZE(11), BEGIN(POINTS), VERTEX2F(24, 24), DISPLAY()),
      TO(GREEN, POINT_SIZE(11), BEGIN(POINTS), VERTEX2F(24, 24), DISPLAY()), NO_ROW },
    { CASE("and of size 12"), FROM(RED, POINT_SIZE(12), BEGIN(POINTS), VERTEX2F(24, 24), DISPLAY()),
      TO(GREEN, POINT_SIZE(12), BEGIN(POINTS), VERTEX2F(24, 24), DISPLAY()), SHOWS(KEPT, ".gg.", ".gg.", KEPT),
      COLOURS },
    { CASE("a scissor takes a rectangle's rows beside its round corners"),
      FROM(SCISSOR_SIZE(2, 4), RED, BEGIN(RECTS), AT(2, 2), AT(3, 2), DISPLAY()),
      TO(SCISSOR_SIZE(2, 4), GREEN, BEGIN(RECTS), AT(2, 2), AT(3, 2), DISPLAY()), SHOWS(KEPT, KEPT, ".g..", KEPT),
      COLOURS },
    { CASE("without it they are reached"), FROM(RED, BEGIN(RECTS), AT(2, 2), AT(3, 2), DISPLAY()),
      TO(GREEN, BEGIN(RECTS), AT(2, 2), AT(3, 2), DISPLAY()), SHOWS(KEPT, "..gg", ".ggg", "..gg"), COLOURS },
    { CASE("a scissor without width"), FROM(SCISSOR_SIZE(0, 4), RED, BEGIN_EVERYWHERE, EVERYWHERE, DISPLAY()),
      TO(SCISSOR_SIZE(0, 4), GREEN, BEGIN_EVERYWHERE, EVERYWHERE, DISPLAY()), NO_ROW },
    { CASE("a scissor without height"), FROM(SCISSOR_SIZE(4, 0), RED, BEGIN_EVERYWHERE, EVERYWHERE, DISPLAY()),
      TO(SCISSOR_SIZE(4, 0), GREEN, BEGIN_EVERYWHERE, EVERYWHERE, DISPLAY()), NO_ROW },
    { CASE("a scissor right of the frame"), FROM(SCISSOR_XY(4, 0), RED, BEGIN_EVERYWHERE, EVERYWHERE, DISPLAY()),
      TO(SCISSOR_XY(4, 0), GREEN, BEGIN_EVERYWHERE, EVERYWHERE, DISPLAY()), NO_ROW },
    { CASE("a scissor below the frame"), FROM(SCISSOR_XY(0, 4), RED, BEGIN_EVERYWHERE, EVERYWHERE, DISPLAY()),
      TO(SCISSOR_XY(0, 4), GREEN, BEGIN_EVERYWHERE, EVERYWHERE, DISPLAY()), NO_ROW },
    { CASE("CLEAR in a scissor"),
      FROM(SCISSOR_XY(1, 1), SCISSOR_SIZE(2, 2), CLEAR_COLOR_RGB(255, 0, 0), CLEAR_TAG(255), CLEAR(1, 0, 1), DISPLAY()),
      TO(SCISSOR_XY(1, 1), SCISSOR_SIZE(2, 2), CLEAR_COLOR_RGB(0, 255, 0), CLEAR_TAG(255), CLEAR(1, 0, 1), DISPLAY()),
      SHOWS(KEPT, ".gg.", ".gg.", KEPT), COLOURS },
    { CASE("a scissor that becomes smaller: where it was reached, and where it still is"),
      FROM(SCISSOR_SIZE(4, 3), BEGIN_EVERYWHERE, EVERYWHERE, DISPLAY()),
      TO(SCISSOR_SIZE(4, 2), BEGIN_EVERYWHERE, EVERYWHERE, DISPLAY()), SHOWS("####", "####", "....", KEPT) },
    { CASE("a scissor cuts one off a row where others stay"),
      FROM(DOTS, AT(0, 1), AT(1, 2), SCISSOR_SIZE(4, 3), RED, RECTANGLES, AT(3, 2), AT(3, 3), DISPLAY()),
      TO(DOTS, AT(0, 1), AT(1, 2), SCISSOR_SIZE(4, 2), RED, RECTANGLES, AT(3, 2), AT(3, 3), DISPLAY()),
      SHOWS(KEPT, KEPT, ".#..", KEPT), COLOURS },
    { CASE("one pixel, changed"), FROM(RED, DOTS, AT(0, 0), DISPLAY()), TO(GREEN, DOTS, AT(0, 0), DISPLAY()),
      SHOWS("g"), COLOURS },
    { CASE("one pixel, not changed"), FROM(RED, DOTS, AT(0, 0), DISPLAY()), TO(RED, DOTS, AT(0, 0), DISPLAY()),
      SHOWS("~") },
};

/* 'They are compared by value, never by effect': each is painted as it was. */
static const hand_picture moot[] = {
    { CASE("the reference of an alpha test that always passes"), FROM(DOTS, AT(1, 1), DISPLAY()),
      TO(DOTS, ALPHA_FUNC(ALWAYS, 5), AT(1, 1), DISPLAY()), SHOWS(KEPT, ".#..", KEPT, KEPT) },
    { CASE("the reference of a stencil test that always passes"), FROM(DOTS, AT(1, 1), DISPLAY()),
      TO(DOTS, STENCIL_FUNC(ALWAYS, 9, 255), AT(1, 1), DISPLAY()), SHOWS(KEPT, ".#..", KEPT, KEPT) },
    { CASE("its mask"), FROM(DOTS, AT(1, 1), DISPLAY()), TO(DOTS, STENCIL_FUNC(ALWAYS, 0, 254), AT(1, 1), DISPLAY()),
      SHOWS(KEPT, ".#..", KEPT, KEPT) },
    { CASE("what happens where it fails"), FROM(DOTS, AT(1, 1), DISPLAY()),
      TO(DOTS, STENCIL_OP(REPLACE, KEEP), AT(1, 1), DISPLAY()), SHOWS(KEPT, ".#..", KEPT, KEPT) },
    { CASE("the stencil action, where the mask lets nothing through"), FROM(DOTS, STENCIL_MASK(0), AT(1, 1), DISPLAY()),
      TO(DOTS, STENCIL_MASK(0), STENCIL_OP(KEEP, REPLACE), AT(1, 1), DISPLAY()), SHOWS(KEPT, ".#..", KEPT, KEPT) },
    { CASE("the stencil mask, where nothing is written"), FROM(DOTS, AT(1, 1), DISPLAY()),
      TO(DOTS, STENCIL_MASK(254), AT(1, 1), DISPLAY()), SHOWS(KEPT, ".#..", KEPT, KEPT) },
    { CASE("the source factor of a blend that is opaque"), FROM(DOTS, AT(1, 1), DISPLAY()),
      TO(DOTS, BLEND_FUNC(ONE, ONE_MINUS_SRC_ALPHA), AT(1, 1), DISPLAY()), SHOWS(KEPT, ".#..", KEPT, KEPT) },
    { CASE("the target factor of a blend over black"), FROM(DOTS, AT(1, 1), DISPLAY()),
      TO(DOTS, BLEND_FUNC(SRC_ALPHA, ONE), AT(1, 1), DISPLAY()), SHOWS(KEPT, ".#..", KEPT, KEPT) },
    { CASE("a tag under tag mask 0"), FROM(DOTS, TAG_MASK(0), TAG(1), AT(1, 1), DISPLAY()),
      TO(DOTS, TAG_MASK(0), TAG(2), AT(1, 1), DISPLAY()), SHOWS(KEPT, ".w..", KEPT, KEPT), COLOURS },
    { CASE("the tag mask of tag 0"), FROM(DOTS, TAG(0), AT(1, 1), DISPLAY()),
      TO(DOTS, TAG(0), TAG_MASK(0), AT(1, 1), DISPLAY()), SHOWS(KEPT, ".w..", KEPT, KEPT), COLOURS },
    { CASE("a colour under colour mask 0"), FROM(DOTS, COLOR_MASK(0, 0, 0, 0), RED, AT(1, 1), DISPLAY()),
      TO(DOTS, COLOR_MASK(0, 0, 0, 0), GREEN, AT(1, 1), DISPLAY()), SHOWS(KEPT, ".k..", KEPT, KEPT), COLOURS },
    { CASE("an alpha that nobody sees"), FROM(DOTS, COLOR_MASK(0, 0, 0, 1), AT(1, 1), DISPLAY()),
      TO(DOTS, COLOR_MASK(0, 0, 0, 1), COLOR_A(0), AT(1, 1), DISPLAY()), SHOWS(KEPT, ".k..", KEPT, KEPT), COLOURS },
    { CASE("each bit of the colour mask, for alpha"), FROM(DOTS, AT(1, 1), DISPLAY()),
      TO(DOTS, COLOR_MASK(1, 1, 1, 0), AT(1, 1), DISPLAY()), SHOWS(KEPT, ".#..", KEPT, KEPT) },
    { CASE("a colour that no test lets through"), FROM(DOTS, ALPHA_FUNC(NEVER, 0), RED, AT(1, 1), DISPLAY()),
      TO(DOTS, ALPHA_FUNC(NEVER, 0), GREEN, AT(1, 1), DISPLAY()), SHOWS(KEPT, "....", KEPT, KEPT) },
    { CASE("one that no test lets through"), FROM(DOTS, ALPHA_FUNC(NEVER, 0), DISPLAY()),
      TO(DOTS, ALPHA_FUNC(NEVER, 0), AT(1, 1), DISPLAY()), SHOWS(KEPT, "....", KEPT, KEPT) },
    { CASE("a scissor that ends elsewhere beside the frame"), FROM(DOTS, AT(1, 1), DISPLAY()),
      TO(DOTS, SCISSOR_SIZE(JV_MAX_SCISSOR - 1, JV_MAX_SCISSOR), AT(1, 1), DISPLAY()),
      SHOWS(KEPT, ".#..", KEPT, KEPT) },
    { CASE("a scissor whose rows change beside the point"), FROM(DOTS, SCISSOR_SIZE(4, 4), AT(1, 1), DISPLAY()),
      TO(DOTS, SCISSOR_XY(0, 1), SCISSOR_SIZE(4, 3), AT(1, 1), DISPLAY()), SHOWS(KEPT, ".#..", KEPT, KEPT) },
    { CASE("a point moved by a sixteenth that covers the same"),
      FROM(POINT_SIZE(8), BEGIN(POINTS), VERTEX2F(16, 16), DISPLAY()),
      TO(POINT_SIZE(8), BEGIN(POINTS), VERTEX2F(17, 16), DISPLAY()), SHOWS(KEPT, ".#..", KEPT, KEPT) },
    { CASE("a point of another size that covers the same"), FROM(DOTS, AT(1, 1), DISPLAY()),
      TO(DOTS, POINT_SIZE(15), AT(1, 1), DISPLAY()), SHOWS(KEPT, ".#..", KEPT, KEPT) },
    { CASE("and downwards"), FROM(POINT_SIZE(8), BEGIN(POINTS), VERTEX2F(16, 16), DISPLAY()),
      TO(POINT_SIZE(8), BEGIN(POINTS), VERTEX2F(16, 17), DISPLAY()), SHOWS(KEPT, ".#..", KEPT, KEPT) },
    { CASE("a right side moved by a sixteenth that covers the same"),
      FROM(RECTANGLES, VERTEX2F(16, 16), VERTEX2F(32, 16), DISPLAY()),
      TO(RECTANGLES, VERTEX2F(16, 16), VERTEX2F(33, 16), DISPLAY()), SHOWS(KEPT, ".##.", KEPT, KEPT) },
    { CASE("a lower side"), FROM(RECTANGLES, VERTEX2F(16, 16), VERTEX2F(32, 16), DISPLAY()),
      TO(RECTANGLES, VERTEX2F(16, 16), VERTEX2F(32, 17), DISPLAY()), SHOWS(KEPT, ".##.", KEPT, KEPT) },
    { CASE("a left side"), FROM(RECTANGLES, VERTEX2F(16, 16), VERTEX2F(32, 16), DISPLAY()),
      TO(RECTANGLES, VERTEX2F(15, 16), VERTEX2F(32, 16), DISPLAY()), SHOWS(KEPT, ".##.", KEPT, KEPT) },
    { CASE("an upper side"), FROM(RECTANGLES, VERTEX2F(16, 16), VERTEX2F(32, 16), DISPLAY()),
      TO(RECTANGLES, VERTEX2F(16, 15), VERTEX2F(32, 16), DISPLAY()), SHOWS(KEPT, ".##.", KEPT, KEPT) },
    { CASE("a rectangle of another line width that covers the same"), FROM(RECTANGLES, AT(1, 1), AT(2, 1), DISPLAY()),
      TO(RECTANGLES, LINE_WIDTH(15), AT(1, 1), AT(2, 1), DISPLAY()), SHOWS(KEPT, ".##.", KEPT, KEPT) },
    { CASE("a rectangle in place of a point"), FROM(DOTS, AT(1, 1), DISPLAY()),
      TO(RECTANGLES, AT(1, 1), AT(1, 1), DISPLAY()), SHOWS(KEPT, ".#..", KEPT, KEPT) },
};

/* The point at (1, 1) with one value after the other another, as far as no case above has it. */
#define POINT_WITH(name, setting, row, ...)                                                                            \
    {                                                                                                                  \
        CASE(name), FROM(DOTS, AT(1, 1), DISPLAY()), TO(DOTS, setting, AT(1, 1), DISPLAY()),                           \
            SHOWS(KEPT, row, KEPT, KEPT), WHERE({ 'x', __VA_ARGS__ })                                                  \
    }

static const hand_picture values[] = {
    POINT_WITH("red", COLOR_RGB(254, 255, 255), ".x..", { 254, 255, 255, 255 }),
    POINT_WITH("green", COLOR_RGB(255, 254, 255), ".x..", { 255, 254, 255, 255 }),
    POINT_WITH("blue", COLOR_RGB(255, 255, 254), ".x..", { 255, 255, 254, 255 }),
    POINT_WITH("alpha", COLOR_A(254), ".x..", { 254, 254, 254, 255 }),
    POINT_WITH("tag", TAG(254), ".x..", { 255, 255, 255, 254 }),
    POINT_WITH("scissor x", SCISSOR_XY(1, 0), ".x..", { 255, 255, 255, 255 }),
    POINT_WITH("scissor y", SCISSOR_XY(0, 1), ".x..", { 255, 255, 255, 255 }),
    POINT_WITH("scissor width", SCISSOR_SIZE(2, JV_MAX_SCISSOR), ".x..", { 255, 255, 255, 255 }),
    POINT_WITH("scissor height", SCISSOR_SIZE(JV_MAX_SCISSOR, 2), ".x..", { 255, 255, 255, 255 }),
    POINT_WITH("alpha function", ALPHA_FUNC(GEQUAL, 0), ".x..", { 255, 255, 255, 255 }),
    POINT_WITH("stencil function", STENCIL_FUNC(GEQUAL, 0, 255), ".x..", { 255, 255, 255, 255 }),
    POINT_WITH("stencil action, passed", STENCIL_OP(KEEP, ZERO), ".x..", { 255, 255, 255, 255 }),
    POINT_WITH("source factor", BLEND_FUNC(ZERO, ONE_MINUS_SRC_ALPHA), ".x..", { 0, 0, 0, 255 }),
    POINT_WITH("colour mask, red", COLOR_MASK(0, 1, 1, 1), ".x..", { 0, 255, 255, 255 }),
    POINT_WITH("colour mask, green", COLOR_MASK(1, 0, 1, 1), ".x..", { 255, 0, 255, 255 }),
    POINT_WITH("colour mask, blue", COLOR_MASK(1, 1, 0, 1), ".x..", { 255, 255, 0, 255 }),
    POINT_WITH("tag mask", TAG_MASK(0), ".x..", { 255, 255, 255, 0 }),
    POINT_WITH("x", VERTEX_TRANSLATE_X(16), "..x.", { 255, 255, 255, 255 }),
    POINT_WITH("x to nowhere", VERTEX_TRANSLATE_X(8), "....", { 255, 255, 255, 255 }),
    POINT_WITH("y to nowhere", VERTEX_TRANSLATE_Y(8), "....", { 255, 255, 255, 255 }),
};

static const hand_picture rectangles[] = {
    { CASE("corners the other way round"), FROM(RECTANGLES, AT(0, 1), AT(2, 2), DISPLAY()),
      TO(RECTANGLES, AT(2, 2), AT(0, 1), DISPLAY()), NO_ROW },
    { CASE("the other two corners"), FROM(RECTANGLES, AT(0, 1), AT(2, 2), DISPLAY()),
      TO(RECTANGLES, AT(2, 1), AT(0, 2), DISPLAY()), NO_ROW },
    { CASE("a colour at the first corner alone"), FROM(RECTANGLES, AT(0, 1), AT(2, 2), DISPLAY()),
      TO(RECTANGLES, RED, AT(0, 1), COLOR_RGB(255, 255, 255), AT(2, 2), DISPLAY()), NO_ROW },
    { CASE("a colour at the second"), FROM(RECTANGLES, AT(0, 1), AT(2, 2), DISPLAY()),
      TO(RECTANGLES, AT(0, 1), RED, AT(2, 2), DISPLAY()), SHOWS(KEPT, "rrr.", "rrr.", KEPT), COLOURS },
    { CASE("each corner placed at its own vertex"), FROM(RECTANGLES, AT(1, 1), AT(2, 2), DISPLAY()),
      TO(RECTANGLES, VERTEX_TRANSLATE_X(16), AT(0, 1), VERTEX_TRANSLATE_X(0), AT(2, 2), DISPLAY()), NO_ROW },
    { CASE("a corner moved down: the old rows and the new ones"), FROM(RECTANGLES, AT(0, 1), AT(2, 1), DISPLAY()),
      TO(RECTANGLES, AT(0, 1), AT(2, 2), DISPLAY()), SHOWS(KEPT, "###.", "###.", KEPT) },
    { CASE("a corner left open"), FROM(RECTANGLES, AT(0, 1), AT(2, 2), DISPLAY()),
      TO(RECTANGLES, AT(0, 1), AT(2, 2), AT(3, 3), DISPLAY()), NO_ROW },
    { CASE("a vertex before the others shifts what is a corner of what"),
      FROM(RECTANGLES, AT(0, 0), AT(1, 1), AT(2, 2), AT(3, 3), DISPLAY()),
      TO(RECTANGLES, AT(0, 0), AT(0, 0), AT(1, 1), AT(2, 2), AT(3, 3), DISPLAY()),
      SHOWS("#...", ".##.", ".##.", "....") },
};

#define EVERY_ROW_RED SHOWS("rrrr", "rrrr", "rrrr", "rrrr"), COLOURS
#define EVERY_ROW_BLACK SHOWS("....", "....", "....", "....")
#define NO_MASKS COLOR_MASK(0, 0, 0, 0), STENCIL_MASK(0), TAG_MASK(0)

static const hand_picture clears[] = {
    { CASE("the clear colour"), FROM(CLEAR_TAG(255), CLEAR(1, 1, 1), DISPLAY()),
      TO(CLEAR_COLOR_RGB(255, 0, 0), CLEAR_TAG(255), CLEAR(1, 1, 1), DISPLAY()), EVERY_ROW_RED },
    { CASE("the clear alpha"), FROM(CLEAR(1, 0, 0), DISPLAY()), TO(CLEAR_COLOR_A(1), CLEAR(1, 0, 0), DISPLAY()),
      EVERY_ROW_BLACK },
    { CASE("the clear stencil, without its flag"), FROM(CLEAR(1, 0, 1), DISPLAY()),
      TO(CLEAR_STENCIL(1), CLEAR(1, 0, 1), DISPLAY()), EVERY_ROW_BLACK },
    { CASE("the clear tag, without its flag"), FROM(CLEAR(1, 1, 0), DISPLAY()),
      TO(CLEAR_TAG(1), CLEAR(1, 1, 0), DISPLAY()), EVERY_ROW_BLACK },
    { CASE("the clear red, without its flag"), FROM(CLEAR(0, 1, 1), DISPLAY()),
      TO(CLEAR_COLOR_RGB(1, 0, 0), CLEAR(0, 1, 1), DISPLAY()), EVERY_ROW_BLACK },
    { CASE("the clear green, without its flag"), FROM(CLEAR(0, 1, 1), DISPLAY()),
      TO(CLEAR_COLOR_RGB(0, 1, 0), CLEAR(0, 1, 1), DISPLAY()), EVERY_ROW_BLACK },
    { CASE("the clear blue, without its flag"), FROM(CLEAR(0, 1, 1), DISPLAY()),
      TO(CLEAR_COLOR_RGB(0, 0, 1), CLEAR(0, 1, 1), DISPLAY()), EVERY_ROW_BLACK },
    { CASE("the flag of the colour"), FROM(CLEAR(0, 1, 0), DISPLAY()), TO(CLEAR(1, 1, 0), DISPLAY()), EVERY_ROW_BLACK },
    { CASE("the flag of the stencil"), FROM(CLEAR(1, 0, 0), DISPLAY()), TO(CLEAR(1, 1, 0), DISPLAY()),
      EVERY_ROW_BLACK },
    { CASE("the flag of the tag"), FROM(CLEAR(1, 0, 0), DISPLAY()), TO(CLEAR(1, 0, 1), DISPLAY()), EVERY_ROW_BLACK },
    { CASE("the colour mask"), FROM(CLEAR(0, 0, 1), DISPLAY()), TO(COLOR_MASK(1, 1, 0, 1), CLEAR(0, 0, 1), DISPLAY()),
      EVERY_ROW_BLACK },
    { CASE("the stencil mask"), FROM(CLEAR(0, 0, 1), DISPLAY()), TO(STENCIL_MASK(127), CLEAR(0, 0, 1), DISPLAY()),
      EVERY_ROW_BLACK },
    { CASE("the tag mask"), FROM(CLEAR(1, 0, 0), DISPLAY()), TO(TAG_MASK(0), CLEAR(1, 0, 0), DISPLAY()),
      EVERY_ROW_BLACK },
    { CASE("the scissor"), FROM(CLEAR(1, 1, 1), DISPLAY()), TO(SCISSOR_SIZE(4, 4), CLEAR(1, 1, 1), DISPLAY()),
      EVERY_ROW_BLACK },
    { CASE("CLEAR, although the masks let nothing through"), FROM(NO_MASKS, DISPLAY()),
      TO(NO_MASKS, CLEAR(1, 1, 1), DISPLAY()), EVERY_ROW_BLACK },
    { CASE("CLEAR without flags instead of none"), FROM(DOTS, AT(1, 1), DISPLAY()),
      TO(CLEAR(0, 0, 0), DOTS, AT(1, 1), CLEAR(0, 0, 0), DISPLAY()), NO_ROW },
    { CASE("CLEAR without flags, with other values"), FROM(CLEAR(0, 0, 0), DISPLAY()),
      TO(CLEAR_COLOR_RGB(1, 2, 3), CLEAR_TAG(4), NO_MASKS, CLEAR(0, 0, 0), DISPLAY()), NO_ROW },
    { CASE("CLEAR with a flag instead of without"), FROM(CLEAR(0, 0, 0), DISPLAY()), TO(CLEAR(0, 1, 0), DISPLAY()),
      EVERY_ROW_BLACK },
};

/* Two handles of greys, 2 by 2 pixels each, at two places of RAM_G. */
#define GREYS_AT(handle, source)                                                                                       \
    BITMAP_HANDLE(handle), BITMAP_SOURCE(source), BITMAP_LAYOUT(L8, 2, 2), BITMAP_SIZE(0, 0, 0, 2, 2)
#define OVER_TWO_CELLS OVER_RAM_G(10, 20, 30, 40, 50, 60, 10, 20)

static const hand_picture bitmaps[] = {
    { CASE("moved within its pixel"), FROM(TWO_BY_TWO, VERTEX2F(16, 16), DISPLAY()),
      TO(TWO_BY_TWO, VERTEX2F(31, 31), DISPLAY()), NO_ROW, OVER_ABCD },
    { CASE("moved past it, to the right"), FROM(TWO_BY_TWO, VERTEX2F(16, 16), DISPLAY()),
      TO(TWO_BY_TWO, VERTEX2F(32, 16), DISPLAY()), SHOWS(KEPT, "..ab", "..cd", KEPT), GREYS, OVER_ABCD },
    { CASE("moved past it, downwards"), FROM(TWO_BY_TWO, VERTEX2F(16, 31), DISPLAY()),
      TO(TWO_BY_TWO, VERTEX2F(16, 32), DISPLAY()), SHOWS(KEPT, "....", ".ab.", ".cd."), GREYS, OVER_ABCD },
    { CASE("-16 and -1 lie in one pixel"), FROM(TWO_BY_TWO, VERTEX2F(-16, -16), DISPLAY()),
      TO(TWO_BY_TWO, VERTEX2F(-1, -1), DISPLAY()), NO_ROW, OVER_ABCD },
    { CASE("-1 and 0 do not"), FROM(TWO_BY_TWO, VERTEX2F(0, 0), DISPLAY()), TO(TWO_BY_TWO, VERTEX2F(-1, 0), DISPLAY()),
      SHOWS("b...", "d...", KEPT, KEPT), GREYS, OVER_ABCD },
    { CASE("moved within its pixel by the translation"), FROM(TWO_BY_TWO, VERTEX2II(1, 1, 0, 0), DISPLAY()),
      TO(TWO_BY_TWO, VERTEX_TRANSLATE_X(15), VERTEX_TRANSLATE_Y(1), VERTEX2II(1, 1, 0, 0), DISPLAY()), NO_ROW,
      OVER_ABCD },
    { CASE("moved out of the frame"), FROM(TWO_BY_TWO, VERTEX2F(0, 0), DISPLAY()),
      TO(TWO_BY_TWO, VERTEX2F(-32, 0), DISPLAY()), SHOWS("....", "....", KEPT, KEPT), OVER_ABCD },
    { CASE("moved beside the frame"), FROM(TWO_BY_TWO, VERTEX2F(-32, 0), VERTEX2F(0, 64), DISPLAY()),
      TO(TWO_BY_TWO, VERTEX2F(-48, 0), VERTEX2F(64, 0), VERTEX2F(0, -32), DISPLAY()), NO_ROW, OVER_ABCD },
    { CASE("another handle, set up alike"),
      FROM(GREYS_AT(0, 0), GREYS_AT(7, 0), BEGIN(BITMAPS), VERTEX2II(1, 1, 0, 0), DISPLAY()),
      TO(GREYS_AT(0, 0), GREYS_AT(7, 0), BEGIN(BITMAPS), VERTEX2II(1, 1, 7, 0), DISPLAY()), NO_ROW, OVER_TWO_CELLS },
    { CASE("another handle and cell that start at the same byte"),
      FROM(GREYS_AT(0, 0), GREYS_AT(7, 4), BEGIN(BITMAPS), VERTEX2II(1, 1, 0, 1), DISPLAY()),
      TO(GREYS_AT(0, 0), GREYS_AT(7, 4), BEGIN(BITMAPS), VERTEX2II(1, 1, 7, 0), DISPLAY()), NO_ROW, OVER_TWO_CELLS },
    { CASE("the same handle, with another source and cell that start at the same byte"),
      FROM(GREYS_AT(0, 0), BEGIN(BITMAPS), VERTEX2II(1, 1, 0, 1), DISPLAY()),
      TO(GREYS_AT(0, 4), BEGIN(BITMAPS), VERTEX2II(1, 1, 0, 0), DISPLAY()), NO_ROW, OVER_TWO_CELLS },
    { CASE("handle and cell by words of their own"),
      FROM(GREYS_AT(7, 0), BEGIN(BITMAPS), VERTEX2II(1, 1, 7, 1), DISPLAY()),
      TO(GREYS_AT(7, 0), CELL(1), BEGIN(BITMAPS), VERTEX2F(16, 16), DISPLAY()), NO_ROW, OVER_TWO_CELLS },
    { CASE("H words that add nothing"), FROM(GREYS_AT(0, 0), BEGIN(BITMAPS), VERTEX2II(1, 1, 0, 0), DISPLAY()),
      TO(GREYS_AT(0, 0), BITMAP_LAYOUT_H(0, 0), BITMAP_SIZE_H(0, 0), BEGIN(BITMAPS), VERTEX2II(1, 1, 0, 0), DISPLAY()),
      NO_ROW, OVER_TWO_CELLS },
    { CASE("another cell"), FROM(GREYS_AT(0, 0), BEGIN(BITMAPS), VERTEX2II(1, 1, 0, 0), DISPLAY()),
      TO(GREYS_AT(0, 0), BEGIN(BITMAPS), VERTEX2II(1, 1, 0, 1), DISPLAY()), SHOWS(KEPT, ".ef.", ".ab.", KEPT), GREYS,
      OVER_TWO_CELLS },
    { CASE("another cell with the same texels"), FROM(GREYS_AT(0, 0), BEGIN(BITMAPS), VERTEX2II(1, 1, 0, 0), DISPLAY()),
      TO(GREYS_AT(0, 0), BEGIN(BITMAPS), VERTEX2II(1, 1, 0, 1), DISPLAY()), SHOWS(KEPT, ".ab.", ".cd.", KEPT), GREYS,
      OVER_RAM_G(10, 20, 30, 40, 10, 20, 30, 40) },
    { CASE("a source set between a save and a restore stays"),
      FROM(GREYS_AT(0, 0), SAVE_CONTEXT(), RESTORE_CONTEXT(), BEGIN(BITMAPS), VERTEX2II(1, 1, 0, 0), DISPLAY()),
      TO(GREYS_AT(0, 0), SAVE_CONTEXT(), BITMAP_SOURCE(4), RESTORE_CONTEXT(), BEGIN(BITMAPS), VERTEX2II(1, 1, 0, 0),
         DISPLAY()),
      SHOWS(KEPT, ".ef.", ".ab.", KEPT), GREYS, OVER_TWO_CELLS },
    { CASE("a source set after the vertex"), FROM(GREYS_AT(0, 0), BEGIN(BITMAPS), VERTEX2II(1, 1, 0, 0), DISPLAY()),
      TO(GREYS_AT(0, 0), BEGIN(BITMAPS), VERTEX2II(1, 1, 0, 0), BITMAP_SOURCE(4), DISPLAY()), NO_ROW, OVER_TWO_CELLS },
    { CASE("a layout height that draws the same"), FROM(BITMAP(L8, 2, 2, 2, 2), VERTEX2F(16, 16), DISPLAY()),
      TO(BITMAP(L8, 2, 3, 2, 2), VERTEX2F(16, 16), DISPLAY()), SHOWS(KEPT, ".ab.", ".cd.", KEPT), GREYS,
      OVER_TWO_CELLS },
    { CASE("a stride that draws the same"), FROM(BITMAP(L8, 2, 1, 2, 1), VERTEX2F(16, 16), DISPLAY()),
      TO(BITMAP(L8, 3, 1, 2, 1), VERTEX2F(16, 16), DISPLAY()), SHOWS(KEPT, ".ab.", KEPT, KEPT), GREYS, OVER_TWO_CELLS },
    { CASE("a drawn width that draws the same"), FROM(BITMAP(L8, 2, 1, 2, 1), VERTEX2F(32, 16), DISPLAY()),
      TO(BITMAP(L8, 2, 1, 3, 1), VERTEX2F(32, 16), DISPLAY()), SHOWS(KEPT, "..ab", KEPT, KEPT), GREYS, OVER_TWO_CELLS },
    { CASE("a drawn height that draws the same"), FROM(BITMAP(L8, 2, 1, 2, 1), VERTEX2F(16, 48), DISPLAY()),
      TO(BITMAP(L8, 2, 1, 2, 2), VERTEX2F(16, 48), DISPLAY()), SHOWS(KEPT, KEPT, KEPT, ".ab."), GREYS, OVER_TWO_CELLS },
    { CASE("a format that draws the same black"), FROM(BITMAP(RGB565, 2, 1, 1, 1), VERTEX2F(16, 16), DISPLAY()),
      TO(BITMAP(ARGB1555, 2, 1, 1, 1), VERTEX2F(16, 16), DISPLAY()), SHOWS(KEPT, ".0..", KEPT, KEPT), GREYS,
      OVER_RAM_G(0, 0) },
    { CASE("rows past the layout height are reached, too"),
      FROM(BITMAP(L8, 2, 1, 2, 2), TAG(1), VERTEX2F(16, 16), DISPLAY()),
      TO(BITMAP(L8, 2, 1, 2, 2), TAG(255), VERTEX2F(16, 16), DISPLAY()), SHOWS(KEPT, ".ab.", ".00.", KEPT), GREYS,
      OVER_TWO_CELLS },
    { CASE("a bitmap in place of a rectangle"), FROM(RECTANGLES, AT(1, 1), AT(1, 1), DISPLAY()),
      TO(BITMAP(L8, 1, 1, 1, 1), VERTEX2F(16, 16), DISPLAY()), SHOWS(KEPT, ".#..", KEPT, KEPT), OVER_RAM_G(255) },
};

/* 'Every painted row starts from 0, never from the lent bytes.' */
static const hand_picture from_zero[] = {
    { CASE("a blend that adds"),
      FROM(BLEND_FUNC(ONE, ONE), COLOR_RGB(1, 1, 1), RECTANGLES, AT(0, 1), AT(3, 2), DISPLAY()),
      TO(BLEND_FUNC(ONE, ONE), COLOR_RGB(2, 2, 2), RECTANGLES, AT(0, 1), AT(3, 2), DISPLAY()),
      SHOWS(KEPT, "2222", "2222", KEPT), WHERE({ '2', { 2, 2, 2, 255 } }) },
    { CASE("masks that leave colour and tag as they are"),
      FROM(COLOR_MASK(0, 0, 0, 0), TAG_MASK(0), RECTANGLES, AT(0, 1), AT(3, 2), DISPLAY()),
      TO(COLOR_MASK(0, 0, 0, 0), TAG_MASK(0), RECTANGLES, AT(0, 1), AT(3, 1), DISPLAY()),
      SHOWS(KEPT, "....", "....", KEPT) },
    { CASE("what stays in a marked row is painted, too"), FROM(DOTS, AT(0, 1), AT(0, 2), RED, AT(3, 1), DISPLAY()),
      TO(DOTS, AT(0, 1), AT(0, 2), GREEN, AT(3, 1), DISPLAY()), SHOWS(KEPT, "#..g", KEPT, KEPT), COLOURS },
};

void check_marks_by_hand(void)
{
    CHECK_REPAINTS("marks: examples", examples);
    CHECK_REPAINTS("marks: nothing changed", nothing_changed);
    CHECK_REPAINTS("marks: what leaks into later actions", leaks);
    CHECK_REPAINTS("marks: order", orders);
    CHECK_REPAINTS("marks: reach", reaches);
    CHECK_REPAINTS("marks: moot values", moot);
    CHECK_REPAINTS("marks: one value after the other", values);
    CHECK_REPAINTS("marks: rectangles", rectangles);
    CHECK_REPAINTS("marks: CLEAR", clears);
    CHECK_REPAINTS("marks: bitmaps", bitmaps);
    CHECK_REPAINTS("marks: rows from 0", from_zero);
}
