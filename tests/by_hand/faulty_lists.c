#include "faulty_lists.h"

/* Every list paints first; the word at fault is the sixth, at byte 20, unless the case leads elsewhere. */
#define PAINT_AND(...) LIST(PAINT_ALL, __VA_ARGS__)
enum { AT = 4 * PAINT_ALL_WORDS, AFTER = PAINT_ALL_WORDS + 1 };

const faulty_list faulty_lists[] = {
    { CASE("no DISPLAY"), PAINT_AND(NOP()), 99, 0, { 10, AT + 4, AFTER } },
    { CASE("a jump past the end"), PAINT_AND(JUMP(65532)), 99, 0, { 10, 65532, AFTER } },
    { CASE("top byte 2E"), PAINT_AND(0x2E000000, DISPLAY()), 99, 0, { 11, AT, AFTER } },
    { CASE("a coprocessor's word"), PAINT_AND(0xFFFFFF00, DISPLAY()), 99, 0, { 11, AT, AFTER } },
    { CASE("document 01's scissor 2049 wide"), PAINT_AND(0x1C801800, DISPLAY()), 99, 0, { 12, AT, AFTER } },
    { CASE("stencil function 8"), PAINT_AND(STENCIL_FUNC(ALWAYS + 1, 0, 0), DISPLAY()), 99, 0, { 12, AT, AFTER } },
    { CASE("stencil action 6"), PAINT_AND(STENCIL_OP(INVERT + 1, ZERO), DISPLAY()), 99, 0, { 12, AT, AFTER } },
    { CASE("blend factor 6"), PAINT_AND(BLEND_FUNC(ZERO, ONE_MINUS_DST_ALPHA + 1), DISPLAY()), 99, 0,
      { 12, AT, AFTER } },
    { CASE("primitive 0"), PAINT_AND(BEGIN(0), DISPLAY()), 99, 0, { 12, AT, AFTER } },
    { CASE("format 8"), PAINT_AND(BITMAP_LAYOUT(8, 1, 1), DISPLAY()), 99, 0, { 12, AT, AFTER } },
    { CASE("frac 5"), PAINT_AND(VERTEX_FORMAT(5), DISPLAY()), 99, 0, { 12, AT, AFTER } },
    { CASE("EDGE_STRIP_R is not drawn yet"), PAINT_AND(BEGIN(EDGE_STRIP_R), DISPLAY()), 99, 0, { 13, AT, AFTER } },
    { CASE("nor is L4"), PAINT_AND(BITMAP_LAYOUT(JV_FORMAT_L4, 1, 1), DISPLAY()), 99, 0, { 13, AT, AFTER } },
    { CASE("nor BILINEAR"), PAINT_AND(BITMAP_SIZE(1, 0, 0, 1, 1), DISPLAY()), 99, 0, { 13, AT, AFTER } },
    { CASE("nor REPEAT"), PAINT_AND(BITMAP_SIZE(0, 0, 1, 1, 1), DISPLAY()), 99, 0, { 13, AT, AFTER } },
    { CASE("nor a transform"), PAINT_AND(BITMAP_TRANSFORM_A(256), DISPLAY()), 99, 0, { 13, AT, AFTER } },
    { CASE("nor a palette"), PAINT_AND(PALETTE_SOURCE(0), DISPLAY()), 99, 0, { 13, AT, AFTER } },
    { CASE("nor MACRO"), PAINT_AND(MACRO(0), DISPLAY()), 99, 0, { 13, AT, AFTER } },
    { CASE("a fifth call"), PAINT_AND(CALL(AT)), 99, 0, { 14, AT, AFTER + 4 } },
    { CASE("a return without a call"), PAINT_AND(RETURN()), 99, 0, { 15, AT, AFTER } },
    { CASE("a call that splits a word"), PAINT_AND(CALL(2), DISPLAY()), 99, 0, { 16, AT, AFTER } },
    { CASE("a jump that splits a word"), PAINT_AND(JUMP(1), DISPLAY()), 99, 0, { 16, AT, AFTER } },
    { CASE("a vertex after END"), PAINT_AND(END(), VERTEX2F(0, 0), DISPLAY()), 99, 0, { 17, AT + 4, AFTER + 1 } },
    { CASE("a bitmap that is not set up"), PAINT_AND(BEGIN(BITMAPS), VERTEX2F(0, 0), DISPLAY()), 99, 64,
      { 18, AT + 4, AFTER + 1 } },
    { CASE("a bitmap off screen and past RAM_G"),
      PAINT_AND(BITMAP_SOURCE(0), BITMAP_LAYOUT(L8, 8, 8), BITMAP_SIZE(0, 0, 0, 8, 8), BEGIN(BITMAPS),
                VERTEX2F(-9999, -9999), DISPLAY()),
      99, 63, { 18, AT + 16, AFTER + 4 } },
    { CASE("the limit reached"), PAINT_AND(JUMP(0)), 60, 0, { 19, 0, 60 } },
    { CASE("the limit reached one word before DISPLAY"), PAINT_AND(NOP(), DISPLAY()), 6, 0, { 19, AT + 4, 6 } },
    { CASE("the first end of a line too far to the left"),
      PAINT_AND(BEGIN(LINES), VERTEX_TRANSLATE_X(JV_MIN_END - 1), VERTEX2F(0, 0), VERTEX_TRANSLATE_X(0), VERTEX2F(0, 0),
                DISPLAY()),
      99, 0, { 20, AT + 16, AFTER + 4 } },
    { CASE("the second end too far down"),
      PAINT_AND(BEGIN(LINES), VERTEX2F(0, 0), VERTEX_TRANSLATE_Y(JV_MAX_END + 1), VERTEX2F(0, 0), DISPLAY()), 99, 0,
      { 20, AT + 12, AFTER + 3 } },
    { CASE("the third vertex of a strip too far to the right"),
      PAINT_AND(BEGIN(LINE_STRIP), VERTEX2F(0, 0), VERTEX2F(64, 64), VERTEX_TRANSLATE_X(JV_MAX_END + 1), VERTEX2F(0, 0),
                DISPLAY()),
      99, 0, { 20, AT + 16, AFTER + 4 } },
    { CASE("the first vertex of a strip too far up"),
      PAINT_AND(BEGIN(LINE_STRIP), VERTEX_TRANSLATE_Y(JV_MIN_END - 1), VERTEX2F(0, 0), VERTEX_TRANSLATE_Y(0),
                VERTEX2F(0, 0), DISPLAY()),
      99, 0, { 20, AT + 16, AFTER + 4 } },
};

const size_t faulty_list_count = LENGTH(faulty_lists);
const char *const faulty_lists_file = __FILE__;
