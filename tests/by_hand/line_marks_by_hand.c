/* Which rows are marked where lines have changed, and what becomes of them. Frames are 4 by 4 pixels. Lines are of width
   0 and in white with tag 255, unless a case says otherwise. */
#include "repaints_by_hand.h"

#include "hand_repaints.h"

#define RED COLOR_RGB(255, 0, 0)
#define COLOURS WHERE({ 'r', { 255, 0, 0, 255 } })

#define PAIRS LINE_WIDTH(0), BEGIN(LINES)
#define STRIP LINE_WIDTH(0), BEGIN(LINE_STRIP)
#define AT(x, y) VERTEX2II(x, y, 0, 0)

#define NO_ROW SHOWS(KEPT, KEPT, KEPT, KEPT)

/* Other words that draw the same. */
static const hand_picture nothing_changed[] = {
    { CASE("the same lines"), FROM(PAIRS, AT(0, 1), AT(3, 1), AT(0, 0), AT(3, 3), DISPLAY()),
      TO(PAIRS, AT(0, 1), AT(3, 1), AT(0, 0), AT(3, 3), DISPLAY()), NO_ROW },
    { CASE("the same strip"), FROM(STRIP, AT(0, 1), AT(3, 1), AT(3, 3), DISPLAY()),
      TO(STRIP, AT(0, 1), NOP(), AT(3, 1), AT(3, 3), DISPLAY()), NO_ROW },
    { CASE("LINES begun once more"), FROM(PAIRS, AT(0, 1), AT(3, 1), AT(0, 2), AT(3, 2), DISPLAY()),
      TO(PAIRS, AT(0, 1), AT(3, 1), BEGIN(LINES), AT(0, 2), AT(3, 2), DISPLAY()), NO_ROW },
    { CASE("a strip taken up again where it was"), FROM(STRIP, AT(0, 1), AT(3, 1), AT(3, 3), DISPLAY()),
      TO(STRIP, AT(0, 1), AT(3, 1), END(), BEGIN(LINE_STRIP), AT(3, 1), AT(3, 3), DISPLAY()), NO_ROW },
    { CASE("a colour at the first end alone"), FROM(PAIRS, AT(0, 1), AT(3, 1), DISPLAY()),
      TO(PAIRS, RED, AT(0, 1), COLOR_RGB(255, 255, 255), AT(3, 1), DISPLAY()), NO_ROW },
    { CASE("a width at the first end alone"), FROM(PAIRS, AT(0, 1), AT(3, 1), DISPLAY()),
      TO(PAIRS, LINE_WIDTH(99), AT(0, 1), LINE_WIDTH(0), AT(3, 1), DISPLAY()), NO_ROW },
    { CASE("each end placed at its own vertex"), FROM(PAIRS, AT(1, 1), AT(3, 1), DISPLAY()),
      TO(PAIRS, VERTEX_TRANSLATE_X(16), AT(0, 1), VERTEX_TRANSLATE_X(0), VERTEX_FORMAT(0), VERTEX2F(3, 1), DISPLAY()),
      NO_ROW },
    { CASE("a vertex left over"), FROM(PAIRS, AT(0, 1), AT(3, 1), DISPLAY()),
      TO(PAIRS, AT(0, 1), AT(3, 1), AT(2, 2), DISPLAY()), NO_ROW },
    { CASE("a strip of one vertex"), FROM(PAIRS, AT(0, 1), AT(3, 1), DISPLAY()),
      TO(PAIRS, AT(0, 1), AT(3, 1), BEGIN(LINE_STRIP), AT(2, 2), DISPLAY()), NO_ROW },
    { CASE("an end that BEGIN drops"), FROM(PAIRS, AT(0, 1), AT(3, 1), DISPLAY()),
      TO(PAIRS, AT(2, 2), BEGIN(LINES), AT(0, 1), AT(3, 1), DISPLAY()), NO_ROW },
    { CASE("an end that is far away and dropped"), FROM(PAIRS, AT(0, 1), AT(3, 1), DISPLAY()),
      TO(VERTEX_TRANSLATE_X(-65536), PAIRS, AT(0, 1), BEGIN(LINES), VERTEX_TRANSLATE_X(0), AT(0, 1), AT(3, 1),
         DISPLAY()),
      NO_ROW },
    { CASE("a line beside the frame moved there"), FROM(PAIRS, VERTEX2F(-64, 0), VERTEX2F(-16, 48), DISPLAY()),
      TO(PAIRS, VERTEX2F(-64, 16), VERTEX2F(-16, 64), DISPLAY()), NO_ROW },
    { CASE("a line that goes between the samples"), FROM(DISPLAY()),
      TO(PAIRS, VERTEX2F(0, 8), VERTEX2F(48, 8), DISPLAY()), NO_ROW },
};

/* 'They are compared by value, never by effect': these rows come out as they were, and are marked. */
static const hand_picture values[] = {
    { CASE("ends the other way round"), FROM(PAIRS, AT(0, 1), AT(3, 1), DISPLAY()),
      TO(PAIRS, AT(3, 1), AT(0, 1), DISPLAY()), SHOWS(KEPT, "####", KEPT, KEPT) },
    { CASE("a strip the other way round"), FROM(STRIP, AT(0, 1), AT(3, 1), AT(3, 2), DISPLAY()),
      TO(STRIP, AT(3, 2), AT(3, 1), AT(0, 1), DISPLAY()), SHOWS(KEPT, "####", "...#", KEPT) },
    { CASE("a strip instead of a pair"), FROM(PAIRS, AT(0, 1), AT(3, 1), DISPLAY()),
      TO(STRIP, AT(0, 1), AT(3, 1), DISPLAY()), SHOWS(KEPT, "####", KEPT, KEPT) },
    { CASE("two pairs instead of a strip"), FROM(STRIP, AT(0, 1), AT(3, 1), AT(3, 2), DISPLAY()),
      TO(PAIRS, AT(0, 1), AT(3, 1), AT(3, 1), AT(3, 2), DISPLAY()), SHOWS(KEPT, "####", "...#", KEPT) },
    { CASE("a width that covers the same"), FROM(PAIRS, AT(0, 1), AT(3, 1), DISPLAY()),
      TO(PAIRS, LINE_WIDTH(15), AT(0, 1), AT(3, 1), DISPLAY()), SHOWS(KEPT, "####", KEPT, KEPT) },
    { CASE("the first end a sixteenth to the right"),
      FROM(LINE_WIDTH(8), BEGIN(LINES), VERTEX2F(16, 16), VERTEX2F(32, 16), DISPLAY()),
      TO(LINE_WIDTH(8), BEGIN(LINES), VERTEX2F(17, 16), VERTEX2F(32, 16), DISPLAY()), SHOWS(KEPT, ".##.", KEPT, KEPT) },
    { CASE("the first end a sixteenth down"),
      FROM(LINE_WIDTH(8), BEGIN(LINES), VERTEX2F(16, 16), VERTEX2F(32, 16), DISPLAY()),
      TO(LINE_WIDTH(8), BEGIN(LINES), VERTEX2F(16, 17), VERTEX2F(32, 16), DISPLAY()), SHOWS(KEPT, ".##.", KEPT, KEPT) },
    { CASE("the second end a sixteenth to the left"),
      FROM(LINE_WIDTH(8), BEGIN(LINES), VERTEX2F(16, 16), VERTEX2F(32, 16), DISPLAY()),
      TO(LINE_WIDTH(8), BEGIN(LINES), VERTEX2F(16, 16), VERTEX2F(31, 16), DISPLAY()), SHOWS(KEPT, ".##.", KEPT, KEPT) },
    { CASE("the second end a sixteenth up"),
      FROM(LINE_WIDTH(8), BEGIN(LINES), VERTEX2F(16, 16), VERTEX2F(32, 16), DISPLAY()),
      TO(LINE_WIDTH(8), BEGIN(LINES), VERTEX2F(16, 16), VERTEX2F(32, 15), DISPLAY()), SHOWS(KEPT, ".##.", KEPT, KEPT) },
    { CASE("a vertex put in on the line"), FROM(STRIP, AT(0, 1), AT(3, 1), DISPLAY()),
      TO(STRIP, AT(0, 1), AT(2, 1), AT(3, 1), DISPLAY()), SHOWS(KEPT, "####", KEPT, KEPT) },
    { CASE("a line in place of a point"), FROM(POINT_SIZE(0), BEGIN(POINTS), AT(1, 1), DISPLAY()),
      TO(PAIRS, AT(1, 1), AT(1, 1), DISPLAY()), SHOWS(KEPT, ".#..", KEPT, KEPT) },
    { CASE("a line in place of a rectangle"), FROM(LINE_WIDTH(0), BEGIN(RECTS), AT(0, 1), AT(3, 1), DISPLAY()),
      TO(PAIRS, AT(0, 1), AT(3, 1), DISPLAY()), SHOWS(KEPT, "####", KEPT, KEPT) },
};

static const hand_picture changes[] = {
    { CASE("a colour at the second end"), FROM(PAIRS, AT(0, 1), AT(3, 1), AT(0, 3), AT(3, 3), DISPLAY()),
      TO(PAIRS, AT(0, 1), RED, AT(3, 1), COLOR_RGB(255, 255, 255), AT(0, 3), AT(3, 3), DISPLAY()),
      SHOWS(KEPT, "rrrr", KEPT, KEPT), COLOURS },
    { CASE("a wider line: the rows that it reaches now"), FROM(PAIRS, AT(0, 1), AT(3, 1), DISPLAY()),
      TO(PAIRS, LINE_WIDTH(16), AT(0, 1), AT(3, 1), DISPLAY()), SHOWS("####", "####", "####", KEPT) },
    { CASE("a narrower one: the rows that it reached"), FROM(BEGIN(LINES), AT(0, 1), AT(3, 1), DISPLAY()),
      TO(PAIRS, AT(0, 1), AT(3, 1), DISPLAY()), SHOWS("....", "####", "....", KEPT) },
    { CASE("a new line: the rows where it is on a sample"), FROM(DISPLAY()),
      TO(PAIRS, AT(0, 0), AT(1, 3), DISPLAY()), SHOWS("#...", KEPT, KEPT, ".#..") },
    { CASE("and those in the scissor"), FROM(SCISSOR_SIZE(4, 3), DISPLAY()),
      TO(SCISSOR_SIZE(4, 3), PAIRS, AT(0, 0), AT(1, 3), DISPLAY()), SHOWS("#...", KEPT, KEPT, KEPT) },
    { CASE("a middle vertex of a strip: the rows of two segments"),
      FROM(STRIP, AT(0, 0), AT(3, 0), AT(3, 1), AT(3, 3), DISPLAY()),
      TO(STRIP, AT(0, 0), AT(2, 0), AT(3, 1), AT(3, 3), DISPLAY()), SHOWS("###.", "...#", KEPT, KEPT) },
    { CASE("a vertex put into a strip"), FROM(STRIP, AT(0, 0), AT(3, 0), AT(3, 3), DISPLAY()),
      TO(STRIP, AT(0, 0), AT(0, 1), AT(3, 1), AT(3, 3), DISPLAY()), SHOWS("#...", "####", "...#", "...#") },
    { CASE("the last vertex taken away"), FROM(STRIP, AT(0, 0), AT(3, 0), AT(3, 2), DISPLAY()),
      TO(STRIP, AT(0, 0), AT(3, 0), DISPLAY()), SHOWS("####", "....", "....", KEPT) },
    { CASE("the first vertex taken away"), FROM(STRIP, AT(0, 0), AT(3, 0), AT(3, 2), DISPLAY()),
      TO(STRIP, AT(3, 0), AT(3, 2), DISPLAY()), SHOWS("...#", KEPT, KEPT, KEPT) },
    { CASE("a vertex taken out of LINES: others pair up"),
      FROM(PAIRS, AT(0, 0), AT(3, 0), AT(0, 2), AT(3, 2), DISPLAY()),
      TO(PAIRS, AT(0, 0), AT(0, 2), AT(3, 2), DISPLAY()), SHOWS("#...", "#...", "#...", KEPT) },
    { CASE("two lines the other way round: the row that both reach"),
      FROM(PAIRS, AT(1, 0), AT(1, 3), AT(0, 2), AT(3, 2), DISPLAY()),
      TO(PAIRS, AT(0, 2), AT(3, 2), AT(1, 0), AT(1, 3), DISPLAY()), SHOWS(KEPT, KEPT, "####", KEPT) },
    { CASE("a line taken from among others"),
      FROM(PAIRS, AT(0, 0), AT(3, 0), AT(0, 2), AT(3, 2), AT(0, 3), AT(3, 3), DISPLAY()),
      TO(PAIRS, AT(0, 0), AT(3, 0), AT(0, 3), AT(3, 3), DISPLAY()), SHOWS(KEPT, KEPT, "....", KEPT) },
    { CASE("a far end moved: the line crosses the frame elsewhere"),
      FROM(PAIRS, VERTEX2F(-160, 16), VERTEX2F(160, 16), DISPLAY()),
      TO(PAIRS, VERTEX2F(-160, 32), VERTEX2F(160, 32), DISPLAY()), SHOWS(KEPT, "....", "####", KEPT) },
};

void check_line_marks_by_hand(void)
{
    CHECK_REPAINTS("lines: nothing changed", nothing_changed);
    CHECK_REPAINTS("lines: values", values);
    CHECK_REPAINTS("lines: changes", changes);
}
