/* Lists written by hand, each with the number, place and count that a person works out from document 01. Both jv_check
   and the second program (runner.c) have to give them. */
#include <inttypes.h>
#include <stdio.h>

#include "../second/answers.h"
#include "../second/guide.h"
#include "../shared/check.h"
#include "../shared/list_check.h"
#include "../shared/list_words.h"
#include "../shared/tables.h"
#include "actions_by_hand.h"

_Static_assert(sizeof(jv_answer) == 16, "a list's answer is four numbers");

enum { LEAST_OF_EACH = 3, NUMBERS = JV_FAR_END + 1, MOST_WORDS = JV_MAX_LIST_BYTES / 4 };

typedef struct {
    int line;
    const char *name;
    const uint32_t *words;
    size_t count;
    run_answer answer;
    uint32_t limit;      /* 0 stands for the largest */
    size_t ram_g_length;
} hand_list;

#define GIVES(number, place, count) { number, place, count }, 0, 0
#define GIVES_UNDER_LIMIT(limit, number, place, count) { number, place, count }, limit, 0
#define GIVES_WITH_RAM_G(length, number, place, count) { number, place, count }, 0, length

static const hand_list drawn[] = {
    { CASE("DISPLAY alone"), LIST(DISPLAY()), GIVES(0, 0, 1) },
    { CASE("DISPLAY with reserved bits set"), LIST(0x00FFFFFF), GIVES(0, 0, 1) },
    { CASE("nothing after DISPLAY is looked at"), LIST(DISPLAY(), 0xFFFFFFFF, RETURN()), GIVES(0, 0, 1) },
    { CASE("document 01's red screen"), LIST(0x02FF0000, 0x26000007, 0x00000000), GIVES(0, 0, 3) },
    { CASE("document 01's examples 1 to 5"),
      LIST(BEGIN(POINTS), 0x40F00110, 0x7FF80000, 0x9B86EFD4, 0x1C05003C, 0x1C800800, DISPLAY()), GIVES(0, 0, 7) },
    { CASE("document 01's example 11"),
      LIST(COLOR_A(1), SAVE_CONTEXT(), COLOR_A(2), SAVE_CONTEXT(), COLOR_A(3), SAVE_CONTEXT(), COLOR_A(4),
           SAVE_CONTEXT(), COLOR_A(5), SAVE_CONTEXT(), RESTORE_CONTEXT(), RESTORE_CONTEXT(), RESTORE_CONTEXT(),
           RESTORE_CONTEXT(), RESTORE_CONTEXT(), DISPLAY()),
      GIVES(0, 0, 16) },
    { CASE("NOP, with reserved bits too, is a word fetched"), LIST(NOP(), 0x2DFFFFFF, DISPLAY()), GIVES(0, 0, 3) },
    { CASE("zeros that the guide does not have"),
      LIST(TAG(0), LINE_WIDTH(0), POINT_SIZE(0), SCISSOR_SIZE(0, 0), CLEAR(0, 0, 0), DISPLAY()), GIVES(0, 0, 6) },
    { CASE("the largest values with a meaning"),
      LIST(STENCIL_FUNC(ALWAYS, 255, 255), ALPHA_FUNC(ALWAYS, 255), STENCIL_OP(INVERT, INVERT),
           BLEND_FUNC(ONE_MINUS_DST_ALPHA, ONE_MINUS_DST_ALPHA), VERTEX_FORMAT(JV_MAX_FRAC), SCISSOR_XY(2047, 2047),
           SCISSOR_SIZE(JV_MAX_SCISSOR, JV_MAX_SCISSOR), BITMAP_HANDLE(JV_HANDLES - 1), CELL(127),
           BITMAP_SOURCE(4194303),
           BITMAP_LAYOUT(RGB565, 1023, 511), BITMAP_LAYOUT_H(3, 3), BITMAP_SIZE(0, 0, 0, 511, 511),
           BITMAP_SIZE_H(3, 3), POINT_SIZE(8191), LINE_WIDTH(4095), VERTEX_TRANSLATE_X(-65536),
           VERTEX_TRANSLATE_Y(65535), DISPLAY()),
      GIVES(0, 0, 19) },
    { CASE("the limit's last word is DISPLAY"), LIST(NOP(), NOP(), DISPLAY()), GIVES_UNDER_LIMIT(3, 0, 0, 3) },
    { CASE("DISPLAY under a limit of 1"), LIST(DISPLAY()), GIVES_UNDER_LIMIT(1, 0, 0, 1) },

    /* Calls and jumps. */
    { CASE("a called stretch, then the word after CALL"),
      LIST(/* 0 */ CALL(12), NOP(), DISPLAY(), /* 12 */ NOP(), RETURN()), GIVES(0, 0, 5) },
    { CASE("four calls inside each other"),
      LIST(/* 0 */ CALL(8), DISPLAY(), /* 8 */ CALL(16), RETURN(), /* 16 */ CALL(24), RETURN(), /* 24 */ CALL(32),
           RETURN(), /* 32 */ RETURN()),
      GIVES(0, 0, 9) },
    { CASE("a fifth call, of which four are open at once"),
      LIST(/* 0 */ CALL(8), DISPLAY(), /* 8 */ CALL(16), RETURN(), /* 16 */ CALL(24), RETURN(), /* 24 */ CALL(36),
           CALL(36), RETURN(), /* 36 */ RETURN()),
      GIVES(0, 0, 11) },
    { CASE("DISPLAY ends the list from within a called stretch"), LIST(CALL(8), 0xFFFFFFFF, DISPLAY()),
      GIVES(0, 0, 2) },
    { CASE("a jump over a word that is no command"), LIST(JUMP(8), 0xFFFFFFFF, DISPLAY()), GIVES(0, 0, 2) },
    { CASE("a jump back"), LIST(JUMP(8), DISPLAY(), JUMP(4)), GIVES(0, 0, 3) },
    { CASE("a jump leaves calls open"), LIST(/* 0 */ CALL(8), DISPLAY(), /* 8 */ JUMP(16), NOP(), /* 16 */ RETURN()),
      GIVES(0, 0, 4) },
    { CASE("reserved bits of JUMP are no part of its target"), LIST(0x1EFF0008, 0xFFFFFFFF, DISPLAY()),
      GIVES(0, 0, 2) },

    /* Primitives. */
    { CASE("a point needs no bitmap: VERTEX2II's handle is not looked at"),
      LIST(BEGIN(POINTS), VERTEX2II(1, 2, 31, 84), DISPLAY()), GIVES(0, 0, 3) },
    { CASE("nor a rectangle"), LIST(BEGIN(RECTS), VERTEX2II(1, 2, 31, 84), VERTEX2II(3, 4, 5, 6), DISPLAY()),
      GIVES(0, 0, 4) },
    { CASE("nor VERTEX2F of a point"), LIST(BITMAP_HANDLE(7), BEGIN(POINTS), VERTEX2F(16, 16), DISPLAY()),
      GIVES(0, 0, 4) },
    { CASE("a corner left open at DISPLAY"), LIST(BEGIN(RECTS), VERTEX2F(16, 16), DISPLAY()), GIVES(0, 0, 3) },
    { CASE("a corner left open at END and at BEGIN"),
      LIST(BEGIN(RECTS), VERTEX2F(16, 16), END(), BEGIN(RECTS), VERTEX2F(16, 16), BEGIN(RECTS), DISPLAY()),
      GIVES(0, 0, 7) },
    { CASE("BEGIN without END, and END without BEGIN"), LIST(END(), BEGIN(POINTS), BEGIN(RECTS), DISPLAY()),
      GIVES(0, 0, 4) },
    { CASE("a restore leaves the primitive begun"),
      LIST(SAVE_CONTEXT(), BEGIN(POINTS), RESTORE_CONTEXT(), VERTEX2F(0, 0), DISPLAY()), GIVES(0, 0, 5) },
    { CASE("so does a restore with none kept"),
      LIST(BEGIN(POINTS), RESTORE_CONTEXT(), VERTEX2F(0, 0), DISPLAY()), GIVES(0, 0, 4) },
    { CASE("a primitive begun in a called stretch"),
      LIST(/* 0 */ CALL(12), VERTEX2F(0, 0), DISPLAY(), /* 12 */ BEGIN(POINTS), RETURN()), GIVES(0, 0, 5) },
    { CASE("a vertex far off the screen"),
      LIST(VERTEX_FORMAT(0), VERTEX_TRANSLATE_X(-65536), VERTEX_TRANSLATE_Y(65535), BEGIN(POINTS),
           VERTEX2F(-16384, 16383), DISPLAY()),
      GIVES(0, 0, 6) },
    { CASE("more saves than are kept"),
      LIST(SAVE_CONTEXT(), SAVE_CONTEXT(), SAVE_CONTEXT(), SAVE_CONTEXT(), SAVE_CONTEXT(), DISPLAY()),
      GIVES(0, 0, 6) },
    { CASE("more restores than saves"), LIST(SAVE_CONTEXT(), RESTORE_CONTEXT(), RESTORE_CONTEXT(), DISPLAY()),
      GIVES(0, 0, 4) },
};

static const hand_list past_the_end[] = {
    { CASE("no DISPLAY"), LIST(NOP()), GIVES(10, 4, 1) },
    { CASE("no DISPLAY after three words"), LIST(CLEAR(1, 1, 1), BEGIN(POINTS), VERTEX2II(5, 5, 0, 0)),
      GIVES(10, 12, 3) },
    { CASE("a jump to the list's end"), LIST(JUMP(8), DISPLAY()), GIVES(10, 8, 1) },
    { CASE("a jump past the end"), LIST(NOP(), JUMP(65532), DISPLAY()), GIVES(10, 65532, 2) },
    { CASE("a call past the end"), LIST(CALL(JV_MAX_LIST_BYTES - 4), DISPLAY()),
      GIVES(10, JV_MAX_LIST_BYTES - 4, 1) },
    { CASE("a call to the first offset that no list has"), LIST(CALL(JV_MAX_LIST_BYTES), DISPLAY()),
      GIVES(10, JV_MAX_LIST_BYTES, 1) },
    { CASE("a return to the list's end"), LIST(/* 0 */ JUMP(8), RETURN(), /* 8 */ CALL(4)), GIVES(10, 12, 3) },
    { CASE("a called stretch that runs off the end"), LIST(CALL(8), DISPLAY(), NOP()), GIVES(10, 12, 2) },
    { CASE("the end with one word of the limit left"), LIST(NOP()), GIVES_UNDER_LIMIT(2, 10, 4, 1) },
};

static const hand_list no_command[] = {
    { CASE("top byte 2E"), LIST(0x2E000000, DISPLAY()), GIVES(11, 0, 1) },
    { CASE("top byte 3F"), LIST(0x3FFFFFFF, DISPLAY()), GIVES(11, 0, 1) },
    { CASE("top byte C0"), LIST(0xC0000000, DISPLAY()), GIVES(11, 0, 1) },
    { CASE("top byte FF"), LIST(0xFFFFFFFF, DISPLAY()), GIVES(11, 0, 1) },
    { CASE("top byte 30, third word"), LIST(NOP(), NOP(), 0x30000000), GIVES(11, 8, 3) },
    { CASE("a coprocessor's word in a called stretch"), LIST(CALL(8), DISPLAY(), 0xFFFFFF00), GIVES(11, 8, 2) },
    { CASE("no command as the limit's last word"), LIST(NOP(), 0xC0000000), GIVES_UNDER_LIMIT(2, 11, 4, 2) },
};

static const hand_list no_meaning[] = {
    { CASE("document 01's example 5, scissor 2049 wide"), LIST(0x1C801800), GIVES(12, 0, 1) },
    { CASE("a scissor too high by one"), LIST(SCISSOR_SIZE(0, JV_MAX_SCISSOR + 1), DISPLAY()), GIVES(12, 0, 1) },
    { CASE("scissor 4095 by 4095"), LIST(NOP(), SCISSOR_SIZE(4095, 4095), DISPLAY()), GIVES(12, 4, 2) },
    { CASE("stencil function 8"), LIST(STENCIL_FUNC(ALWAYS + 1, 0, 0), DISPLAY()), GIVES(12, 0, 1) },
    { CASE("stencil function 15"), LIST(NOP(), STENCIL_FUNC(15, 1, 2), DISPLAY()), GIVES(12, 4, 2) },
    { CASE("stencil action 6 on failing"), LIST(STENCIL_OP(INVERT + 1, KEEP), DISPLAY()), GIVES(12, 0, 1) },
    { CASE("stencil action 7 on passing"), LIST(STENCIL_OP(KEEP, 7), DISPLAY()), GIVES(12, 0, 1) },
    { CASE("blend factor 6 for the source"), LIST(BLEND_FUNC(ONE_MINUS_DST_ALPHA + 1, ZERO), DISPLAY()),
      GIVES(12, 0, 1) },
    { CASE("blend factor 7 for the target"), LIST(BLEND_FUNC(ZERO, 7), DISPLAY()), GIVES(12, 0, 1) },
    { CASE("primitive 0"), LIST(BEGIN(0), DISPLAY()), GIVES(12, 0, 1) },
    { CASE("primitive 10"), LIST(BEGIN(RECTS + 1), DISPLAY()), GIVES(12, 0, 1) },
    { CASE("primitive 15"), LIST(BEGIN(15), DISPLAY()), GIVES(12, 0, 1) },
    { CASE("format 8"), LIST(BITMAP_LAYOUT(8, 1, 1), DISPLAY()), GIVES(12, 0, 1) },
    { CASE("format 12"), LIST(BITMAP_LAYOUT(12, 1, 1), DISPLAY()), GIVES(12, 0, 1) },
    { CASE("format 13"), LIST(BITMAP_LAYOUT(13, 1, 1), DISPLAY()), GIVES(12, 0, 1) },
    { CASE("format 18"), LIST(BITMAP_LAYOUT(JV_FORMAT_L2 + 1, 1, 1), DISPLAY()), GIVES(12, 0, 1) },
    { CASE("format 31"), LIST(BITMAP_LAYOUT(31, 1, 1), DISPLAY()), GIVES(12, 0, 1) },
    { CASE("frac 5"), LIST(VERTEX_FORMAT(5), DISPLAY()), GIVES(12, 0, 1) },
    { CASE("frac 6"), LIST(VERTEX_FORMAT(6), DISPLAY()), GIVES(12, 0, 1) },
    { CASE("frac 7"), LIST(VERTEX_FORMAT(7), DISPLAY()), GIVES(12, 0, 1) },
    { CASE("in a called stretch"), LIST(/* 0 */ CALL(8), DISPLAY(), /* 8 */ NOP(), BEGIN(0)), GIVES(12, 12, 3) },
};

static const hand_list not_drawn[] = {
    { CASE("EDGE_STRIP_R, with no vertex after it"), LIST(BEGIN(EDGE_STRIP_R), DISPLAY()), GIVES(13, 0, 1) },
    { CASE("EDGE_STRIP_L"), LIST(BEGIN(EDGE_STRIP_L), DISPLAY()), GIVES(13, 0, 1) },
    { CASE("EDGE_STRIP_A"), LIST(BEGIN(EDGE_STRIP_A), DISPLAY()), GIVES(13, 0, 1) },
    { CASE("EDGE_STRIP_B"), LIST(BEGIN(EDGE_STRIP_B), DISPLAY()), GIVES(13, 0, 1) },
    { CASE("format L1, with no vertex after it"), LIST(BITMAP_LAYOUT(JV_FORMAT_L1, 1, 1), DISPLAY()), GIVES(13, 0, 1) },
    { CASE("format L4"), LIST(BITMAP_LAYOUT(JV_FORMAT_L4, 1, 1), DISPLAY()), GIVES(13, 0, 1) },
    { CASE("format RGB332"), LIST(BITMAP_LAYOUT(JV_FORMAT_RGB332, 1, 1), DISPLAY()), GIVES(13, 0, 1) },
    { CASE("format ARGB2"), LIST(BITMAP_LAYOUT(JV_FORMAT_ARGB2, 1, 1), DISPLAY()), GIVES(13, 0, 1) },
    { CASE("format ARGB4"), LIST(BITMAP_LAYOUT(JV_FORMAT_ARGB4, 1, 1), DISPLAY()), GIVES(13, 0, 1) },
    { CASE("format TEXT8X8"), LIST(BITMAP_LAYOUT(JV_FORMAT_TEXT8X8, 1, 1), DISPLAY()), GIVES(13, 0, 1) },
    { CASE("format TEXTVGA"), LIST(BITMAP_LAYOUT(JV_FORMAT_TEXTVGA, 1, 1), DISPLAY()), GIVES(13, 0, 1) },
    { CASE("format BARGRAPH"), LIST(BITMAP_LAYOUT(JV_FORMAT_BARGRAPH, 1, 1), DISPLAY()), GIVES(13, 0, 1) },
    { CASE("format PALETTED565"), LIST(BITMAP_LAYOUT(JV_FORMAT_PALETTED565, 1, 1), DISPLAY()), GIVES(13, 0, 1) },
    { CASE("format PALETTED4444"), LIST(BITMAP_LAYOUT(JV_FORMAT_PALETTED4444, 1, 1), DISPLAY()), GIVES(13, 0, 1) },
    { CASE("format PALETTED8"), LIST(BITMAP_LAYOUT(JV_FORMAT_PALETTED8, 1, 1), DISPLAY()), GIVES(13, 0, 1) },
    { CASE("format L2"), LIST(BITMAP_LAYOUT(JV_FORMAT_L2, 1, 1), DISPLAY()), GIVES(13, 0, 1) },
    { CASE("filter BILINEAR"), LIST(BITMAP_SIZE(1, 0, 0, 8, 8), DISPLAY()), GIVES(13, 0, 1) },
    { CASE("wrapx REPEAT"), LIST(BITMAP_SIZE(0, 1, 0, 8, 8), DISPLAY()), GIVES(13, 0, 1) },
    { CASE("wrapy REPEAT, though the next word takes it back"),
      LIST(NOP(), BITMAP_SIZE(0, 0, 1, 8, 8), BITMAP_SIZE(0, 0, 0, 8, 8), DISPLAY()), GIVES(13, 4, 2) },
    { CASE("BITMAP_TRANSFORM_A of 256, which changes nothing"), LIST(BITMAP_TRANSFORM_A(256), DISPLAY()),
      GIVES(13, 0, 1) },
    { CASE("BITMAP_TRANSFORM_B of 0"), LIST(BITMAP_TRANSFORM_B(0), DISPLAY()), GIVES(13, 0, 1) },
    { CASE("BITMAP_TRANSFORM_C"), LIST(BITMAP_TRANSFORM_C(-256), DISPLAY()), GIVES(13, 0, 1) },
    { CASE("BITMAP_TRANSFORM_D"), LIST(BITMAP_TRANSFORM_D(0), DISPLAY()), GIVES(13, 0, 1) },
    { CASE("BITMAP_TRANSFORM_E"), LIST(BITMAP_TRANSFORM_E(256), DISPLAY()), GIVES(13, 0, 1) },
    { CASE("BITMAP_TRANSFORM_F"), LIST(BITMAP_TRANSFORM_F(0), DISPLAY()), GIVES(13, 0, 1) },
    { CASE("PALETTE_SOURCE of 0, its starting value"), LIST(PALETTE_SOURCE(0), DISPLAY()), GIVES(13, 0, 1) },
    { CASE("MACRO 0"), LIST(MACRO(0), DISPLAY()), GIVES(13, 0, 1) },
    { CASE("MACRO 1 in a called stretch"), LIST(CALL(8), DISPLAY(), MACRO(1)), GIVES(13, 8, 2) },
};

static const hand_list fifth_call[] = {
    { CASE("document 01's example 6"), LIST(0x1D000000), GIVES_UNDER_LIMIT(9, 14, 0, 5) },
    { CASE("the fifth call is the limit's last word"), LIST(CALL(0)), GIVES_UNDER_LIMIT(5, 14, 0, 5) },
    { CASE("five calls inside each other"),
      LIST(/* 0 */ CALL(8), DISPLAY(), /* 8 */ CALL(16), RETURN(), /* 16 */ CALL(24), RETURN(), /* 24 */ CALL(32),
           RETURN(), /* 32 */ CALL(40), RETURN(), /* 40 */ RETURN()),
      GIVES(14, 32, 5) },
    { CASE("14 before 16: the fifth call splits a word"), LIST(CALL(4), CALL(8), CALL(12), CALL(16), CALL(18)),
      GIVES(14, 16, 5) },
    { CASE("the fifth call goes past the end"), LIST(CALL(4), CALL(8), CALL(12), CALL(16), CALL(65532)),
      GIVES(14, 16, 5) },
    { CASE("a jump closes no call"),
      LIST(/* 0 */ CALL(4), CALL(8), CALL(12), CALL(16), /* 16 */ JUMP(20), /* 20 */ CALL(24), DISPLAY()),
      GIVES(14, 20, 6) },
};

static const hand_list no_call[] = {
    { CASE("RETURN alone"), LIST(RETURN(), DISPLAY()), GIVES(15, 0, 1) },
    { CASE("RETURN with reserved bits set"), LIST(NOP(), 0x24FFFFFF, DISPLAY()), GIVES(15, 4, 2) },
    { CASE("a second RETURN for one CALL"), LIST(/* 0 */ CALL(8), RETURN(), /* 8 */ RETURN()), GIVES(15, 4, 3) },
    { CASE("a jump opens no call"), LIST(JUMP(4), RETURN()), GIVES(15, 4, 2) },
    { CASE("a save opens no call"), LIST(SAVE_CONTEXT(), RETURN()), GIVES(15, 4, 2) },
    { CASE("five returns for four calls"),
      LIST(/* 0 */ CALL(8), RETURN(), /* 8 */ CALL(16), RETURN(), /* 16 */ CALL(24), RETURN(), /* 24 */ CALL(32),
           RETURN(), /* 32 */ RETURN()),
      GIVES(15, 4, 9) },
};

static const hand_list split_target[] = {
    { CASE("a jump to 2"), LIST(JUMP(2), DISPLAY()), GIVES(16, 0, 1) },
    { CASE("a jump to 65535, past the end too"), LIST(NOP(), JUMP(65535), DISPLAY()), GIVES(16, 4, 2) },
    { CASE("a jump to 8189"), LIST(JUMP(8189)), GIVES(16, 0, 1) },
    { CASE("a call to 1"), LIST(CALL(1), DISPLAY()), GIVES(16, 0, 1) },
    { CASE("a call to 7 from within a called stretch"), LIST(CALL(8), DISPLAY(), CALL(7)), GIVES(16, 8, 2) },
    { CASE("the fourth call splits a word"), LIST(CALL(4), CALL(8), CALL(12), CALL(14)), GIVES(16, 12, 4) },
};

static const hand_list no_primitive[] = {
    { CASE("VERTEX2F alone"), LIST(VERTEX2F(0, 0), DISPLAY()), GIVES(17, 0, 1) },
    { CASE("VERTEX2II alone, and its handle is not set up"), LIST(VERTEX2II(0, 0, 5, 0), DISPLAY()), GIVES(17, 0, 1) },
    { CASE("after END"), LIST(BEGIN(POINTS), VERTEX2F(0, 0), END(), VERTEX2F(0, 0)), GIVES(17, 12, 4) },
    { CASE("a restore does not bring the primitive back"),
      LIST(BEGIN(POINTS), SAVE_CONTEXT(), END(), RESTORE_CONTEXT(), VERTEX2F(0, 0)), GIVES(17, 16, 5) },
    { CASE("after END in a called stretch"),
      LIST(/* 0 */ BEGIN(RECTS), CALL(16), VERTEX2II(0, 0, 0, 0), DISPLAY(), /* 16 */ END(), RETURN()),
      GIVES(17, 8, 5) },
    { CASE("END between the corners of a rectangle"),
      LIST(BEGIN(RECTS), VERTEX2F(0, 0), END(), VERTEX2F(16, 16), DISPLAY()), GIVES(17, 12, 4) },
};

/* Three words that end in a vertex at this place in sixteenths, far beyond what a VERTEX2F says by itself. */
#define END_AT(x, y) VERTEX_TRANSLATE_X(x), VERTEX_TRANSLATE_Y(y), VERTEX2F(0, 0)

/* A segment of either primitive whose first end, or second, lies there. Its second vertex is the seventh word. */
#define FIRST_AT(primitive, x, y) LIST(BEGIN(primitive), END_AT(x, y), END_AT(0, 0), DISPLAY())
#define SECOND_AT(primitive, x, y) LIST(BEGIN(primitive), END_AT(0, 0), END_AT(x, y), DISPLAY())

static const hand_list ends[] = {
    { CASE("LINES, no vertex"), LIST(BEGIN(LINES), DISPLAY()), GIVES(0, 0, 2) },
    { CASE("LINE_STRIP, no vertex"), LIST(BEGIN(LINE_STRIP), DISPLAY()), GIVES(0, 0, 2) },
    { CASE("LINES, first end farthest left"), FIRST_AT(LINES, JV_MIN_END, 0), GIVES(0, 0, 8) },
    { CASE("LINES, first end farthest right"), FIRST_AT(LINES, JV_MAX_END, 0), GIVES(0, 0, 8) },
    { CASE("LINES, first end farthest up"), FIRST_AT(LINES, 0, JV_MIN_END), GIVES(0, 0, 8) },
    { CASE("LINES, first end farthest down"), FIRST_AT(LINES, 0, JV_MAX_END), GIVES(0, 0, 8) },
    { CASE("LINES, second end farthest left"), SECOND_AT(LINES, JV_MIN_END, 0), GIVES(0, 0, 8) },
    { CASE("LINES, second end farthest right"), SECOND_AT(LINES, JV_MAX_END, 0), GIVES(0, 0, 8) },
    { CASE("LINES, second end farthest up"), SECOND_AT(LINES, 0, JV_MIN_END), GIVES(0, 0, 8) },
    { CASE("LINES, second end farthest down"), SECOND_AT(LINES, 0, JV_MAX_END), GIVES(0, 0, 8) },
    { CASE("a strip, first end farthest left"), FIRST_AT(LINE_STRIP, JV_MIN_END, 0), GIVES(0, 0, 8) },
    { CASE("a strip, first end farthest right"), FIRST_AT(LINE_STRIP, JV_MAX_END, 0), GIVES(0, 0, 8) },
    { CASE("a strip, first end farthest up"), FIRST_AT(LINE_STRIP, 0, JV_MIN_END), GIVES(0, 0, 8) },
    { CASE("a strip, first end farthest down"), FIRST_AT(LINE_STRIP, 0, JV_MAX_END), GIVES(0, 0, 8) },
    { CASE("a strip, second end farthest left"), SECOND_AT(LINE_STRIP, JV_MIN_END, 0), GIVES(0, 0, 8) },
    { CASE("a strip, second end farthest right"), SECOND_AT(LINE_STRIP, JV_MAX_END, 0), GIVES(0, 0, 8) },
    { CASE("a strip, second end farthest up"), SECOND_AT(LINE_STRIP, 0, JV_MIN_END), GIVES(0, 0, 8) },
    { CASE("a strip, second end farthest down"), SECOND_AT(LINE_STRIP, 0, JV_MAX_END), GIVES(0, 0, 8) },
    { CASE("from corner to corner"),
      LIST(BEGIN(LINES), END_AT(JV_MIN_END, JV_MAX_END), END_AT(JV_MAX_END, JV_MIN_END), DISPLAY()), GIVES(0, 0, 8) },
    { CASE("2048 pixels to the left are 32768 sixteenths"),
      LIST(VERTEX_FORMAT(0), BEGIN(LINES), VERTEX2F(0, 0), VERTEX2F(-2048, 2047), DISPLAY()), GIVES(0, 0, 5) },
    { CASE("the largest numbers of VERTEX2F in eighths"),
      LIST(VERTEX_FORMAT(3), BEGIN(LINE_STRIP), VERTEX2F(-16384, 16383), VERTEX2F(16383, -16384), DISPLAY()),
      GIVES(0, 0, 5) },
    { CASE("VERTEX2II and a translation, just inside"),
      LIST(VERTEX_TRANSLATE_X(24591), BEGIN(LINES), VERTEX2II(0, 0, 0, 0), VERTEX2II(511, 511, 0, 0), DISPLAY()),
      GIVES(0, 0, 5) },

    /* A far end that no vertex completes. */
    { CASE("left open at DISPLAY"), LIST(BEGIN(LINES), END_AT(-65536, 65535), DISPLAY()), GIVES(0, 0, 5) },
    { CASE("left open in a strip"), LIST(BEGIN(LINE_STRIP), END_AT(JV_MIN_END - 1, 0), DISPLAY()), GIVES(0, 0, 5) },
    { CASE("left over after a pair"),
      LIST(BEGIN(LINES), VERTEX2F(0, 0), VERTEX2F(9, 9), END_AT(JV_MAX_END + 1, 0), DISPLAY()), GIVES(0, 0, 7) },
    { CASE("dropped by BEGIN"),
      LIST(BEGIN(LINES), END_AT(JV_MAX_END + 1, 0), BEGIN(LINES), END_AT(0, 0), VERTEX2F(9, 9), DISPLAY()),
      GIVES(0, 0, 10) },
    { CASE("dropped by END"),
      LIST(BEGIN(LINES), END_AT(0, JV_MAX_END + 1), END(), BEGIN(LINES), END_AT(0, 0), VERTEX2F(9, 9), DISPLAY()),
      GIVES(0, 0, 11) },
    { CASE("dropped for a strip"),
      LIST(BEGIN(LINES), END_AT(0, JV_MIN_END - 1), BEGIN(LINE_STRIP), END_AT(0, 0), VERTEX2F(9, 9), DISPLAY()),
      GIVES(0, 0, 10) },

    /* Other primitives may lie anywhere. */
    { CASE("a point far away"), LIST(BEGIN(POINTS), END_AT(-65536, 65535), DISPLAY()), GIVES(0, 0, 5) },
    { CASE("a rectangle far away"), LIST(BEGIN(RECTS), END_AT(-65536, 65535), END_AT(65535, -65536), DISPLAY()),
      GIVES(0, 0, 8) },
    { CASE("a bitmap far away"),
      LIST(BITMAP_SOURCE(0), BITMAP_LAYOUT(L8, 8, 8), BITMAP_SIZE(0, 0, 0, 8, 8), BEGIN(BITMAPS), END_AT(-65536, 65535),
           DISPLAY()),
      GIVES_WITH_RAM_G(64, 0, 0, 8) },
};

static const hand_list far_ends[] = {
    { CASE("LINES, first end one too far left"), FIRST_AT(LINES, JV_MIN_END - 1, 0), GIVES(20, 24, 7) },
    { CASE("LINES, first end one too far right"), FIRST_AT(LINES, JV_MAX_END + 1, 0), GIVES(20, 24, 7) },
    { CASE("LINES, first end one too far up"), FIRST_AT(LINES, 0, JV_MIN_END - 1), GIVES(20, 24, 7) },
    { CASE("LINES, first end one too far down"), FIRST_AT(LINES, 0, JV_MAX_END + 1), GIVES(20, 24, 7) },
    { CASE("LINES, second end one too far left"), SECOND_AT(LINES, JV_MIN_END - 1, 0), GIVES(20, 24, 7) },
    { CASE("LINES, second end one too far right"), SECOND_AT(LINES, JV_MAX_END + 1, 0), GIVES(20, 24, 7) },
    { CASE("LINES, second end one too far up"), SECOND_AT(LINES, 0, JV_MIN_END - 1), GIVES(20, 24, 7) },
    { CASE("LINES, second end one too far down"), SECOND_AT(LINES, 0, JV_MAX_END + 1), GIVES(20, 24, 7) },
    { CASE("a strip, first end one too far left"), FIRST_AT(LINE_STRIP, JV_MIN_END - 1, 0), GIVES(20, 24, 7) },
    { CASE("a strip, first end one too far right"), FIRST_AT(LINE_STRIP, JV_MAX_END + 1, 0), GIVES(20, 24, 7) },
    { CASE("a strip, first end one too far up"), FIRST_AT(LINE_STRIP, 0, JV_MIN_END - 1), GIVES(20, 24, 7) },
    { CASE("a strip, first end one too far down"), FIRST_AT(LINE_STRIP, 0, JV_MAX_END + 1), GIVES(20, 24, 7) },
    { CASE("a strip, second end one too far left"), SECOND_AT(LINE_STRIP, JV_MIN_END - 1, 0), GIVES(20, 24, 7) },
    { CASE("a strip, second end one too far right"), SECOND_AT(LINE_STRIP, JV_MAX_END + 1, 0), GIVES(20, 24, 7) },
    { CASE("a strip, second end one too far up"), SECOND_AT(LINE_STRIP, 0, JV_MIN_END - 1), GIVES(20, 24, 7) },
    { CASE("a strip, second end one too far down"), SECOND_AT(LINE_STRIP, 0, JV_MAX_END + 1), GIVES(20, 24, 7) },
    { CASE("both ends, in the same place"), LIST(BEGIN(LINES), END_AT(40000, 0), VERTEX2F(0, 0), DISPLAY()),
      GIVES(20, 16, 5) },
    { CASE("as far away as a vertex can be"),
      LIST(VERTEX_FORMAT(0), VERTEX_TRANSLATE_X(-65536), VERTEX_TRANSLATE_Y(65535), BEGIN(LINES),
           VERTEX2F(-16384, 16383), VERTEX2F(-16384, 16383), DISPLAY()),
      GIVES(20, 20, 6) },
    { CASE("2048 pixels to the right"),
      LIST(VERTEX_FORMAT(0), BEGIN(LINES), VERTEX2F(0, 0), VERTEX2F(2048, 0), DISPLAY()), GIVES(20, 12, 4) },
    { CASE("2049 pixels upwards"),
      LIST(VERTEX_FORMAT(0), BEGIN(LINES), VERTEX2F(0, -2049), VERTEX2F(0, 0), DISPLAY()), GIVES(20, 12, 4) },
    { CASE("VERTEX2II and a translation, one too far"),
      LIST(VERTEX_TRANSLATE_X(24592), BEGIN(LINES), VERTEX2II(0, 0, 0, 0), VERTEX2II(511, 0, 0, 0), DISPLAY()),
      GIVES(20, 12, 4) },
    { CASE("the third vertex of a strip"),
      LIST(BEGIN(LINE_STRIP), VERTEX2F(0, 0), VERTEX2F(9, 9), END_AT(0, JV_MAX_END + 1), DISPLAY()), GIVES(20, 20, 6) },
    { CASE("the third of LINES, at the fourth"),
      LIST(BEGIN(LINES), VERTEX2F(0, 0), VERTEX2F(9, 9), END_AT(0, JV_MAX_END + 1), END_AT(0, 0), DISPLAY()),
      GIVES(20, 32, 9) },
    { CASE("whatever the scissor says"),
      LIST(SCISSOR_SIZE(0, 0), BEGIN(LINES), VERTEX2F(0, 0), END_AT(JV_MAX_END + 1, 0), DISPLAY()), GIVES(20, 20, 6) },
    { CASE("a save and a restore do not drop it"),
      LIST(SAVE_CONTEXT(), BEGIN(LINES), END_AT(JV_MIN_END - 1, 0), RESTORE_CONTEXT(), VERTEX2F(0, 0), DISPLAY()),
      GIVES(20, 24, 7) },
    { CASE("at a vertex in a called stretch"),
      LIST(/* 0 */ BEGIN(LINES), END_AT(0, JV_MAX_END + 1), CALL(24), DISPLAY(), /* 24 */ END_AT(0, 0), RETURN()),
      GIVES(20, 32, 8) },
    { CASE("at the limit's last word"), FIRST_AT(LINES, JV_MAX_END + 1, 0), GIVES_UNDER_LIMIT(7, 20, 24, 7) },
    { CASE("19 before 20"), FIRST_AT(LINES, JV_MAX_END + 1, 0), GIVES_UNDER_LIMIT(6, 19, 24, 6) },
    { CASE("17 before 20: nothing is begun"), LIST(END_AT(-65536, 65535), VERTEX2F(0, 0), DISPLAY()), GIVES(17, 8, 3) },
    { CASE("17 before 20: after END"),
      LIST(BEGIN(LINES), END_AT(-65536, 65535), END(), VERTEX2F(0, 0), DISPLAY()), GIVES(17, 20, 6) },
};

/* A bitmap of one byte a pixel, 8 lines of 8 pixels: a cell takes 64 bytes. */
#define SMALL_BITMAP_AT(source) BITMAP_SOURCE(source), BITMAP_LAYOUT(L8, 8, 8), BITMAP_SIZE(0, 0, 0, 8, 8)

#define SAVE_HANDLES_1_TO_5                                                                                            \
    BITMAP_HANDLE(1), SAVE_CONTEXT(), BITMAP_HANDLE(2), SAVE_CONTEXT(), BITMAP_HANDLE(3), SAVE_CONTEXT(),              \
        BITMAP_HANDLE(4), SAVE_CONTEXT(), BITMAP_HANDLE(5), SAVE_CONTEXT()

/* Bitmaps that cannot be drawn stand next to such as can, by a byte of RAM_G or by a word. */
static const hand_list bitmaps[] = {
    { CASE("a cell that ends at RAM_G's end"),
      LIST(SMALL_BITMAP_AT(0), BEGIN(BITMAPS), VERTEX2II(0, 0, 0, 0), DISPLAY()), GIVES_WITH_RAM_G(64, 0, 0, 6) },
    { CASE("one byte past RAM_G's end"),
      LIST(SMALL_BITMAP_AT(0), BEGIN(BITMAPS), VERTEX2II(0, 0, 0, 0), DISPLAY()), GIVES_WITH_RAM_G(63, 18, 16, 5) },
    { CASE("no RAM_G at all"), LIST(SMALL_BITMAP_AT(0), BEGIN(BITMAPS), VERTEX2F(0, 0), DISPLAY()),
      GIVES(18, 16, 5) },
    { CASE("the last bytes of the largest RAM_G"),
      LIST(SMALL_BITMAP_AT(1048512), BEGIN(BITMAPS), VERTEX2F(0, 0), DISPLAY()),
      GIVES_WITH_RAM_G(JV_MAX_RAM_G_BYTES, 0, 0, 6) },
    { CASE("one byte past the largest RAM_G"),
      LIST(SMALL_BITMAP_AT(1048513), BEGIN(BITMAPS), VERTEX2F(0, 0), DISPLAY()),
      GIVES_WITH_RAM_G(JV_MAX_RAM_G_BYTES, 18, 16, 5) },
    { CASE("a source past RAM_G"), LIST(SMALL_BITMAP_AT(4194303), BEGIN(BITMAPS), VERTEX2F(0, 0), DISPLAY()),
      GIVES_WITH_RAM_G(JV_MAX_RAM_G_BYTES, 18, 16, 5) },
    { CASE("VERTEX2II's cell 3 from source 10"),
      LIST(SMALL_BITMAP_AT(10), BEGIN(BITMAPS), VERTEX2II(0, 0, 0, 3), DISPLAY()), GIVES_WITH_RAM_G(266, 0, 0, 6) },
    { CASE("VERTEX2II's cell 3 from source 10, one byte past"),
      LIST(SMALL_BITMAP_AT(10), BEGIN(BITMAPS), VERTEX2II(0, 0, 0, 3), DISPLAY()),
      GIVES_WITH_RAM_G(265, 18, 16, 5) },
    { CASE("VERTEX2F takes CELL's cell"),
      LIST(SMALL_BITMAP_AT(0), CELL(1), BEGIN(BITMAPS), VERTEX2F(0, 0), DISPLAY()), GIVES_WITH_RAM_G(128, 0, 0, 7) },
    { CASE("VERTEX2F takes CELL's cell, one byte past"),
      LIST(SMALL_BITMAP_AT(0), CELL(1), BEGIN(BITMAPS), VERTEX2F(0, 0), DISPLAY()),
      GIVES_WITH_RAM_G(127, 18, 20, 6) },
    { CASE("VERTEX2II does not take CELL's cell"),
      LIST(SMALL_BITMAP_AT(0), CELL(100), BEGIN(BITMAPS), VERTEX2II(0, 0, 0, 0), DISPLAY()),
      GIVES_WITH_RAM_G(64, 0, 0, 7) },
    { CASE("VERTEX2II leaves the cell as it was, here the only one that fits"),
      LIST(BITMAP_HANDLE(5), BITMAP_SOURCE(0), BITMAP_LAYOUT(L8, 1, 1), BITMAP_SIZE(0, 0, 0, 1, 1), BITMAP_HANDLE(0),
           SMALL_BITMAP_AT(0), BEGIN(BITMAPS), VERTEX2II(0, 0, 5, 1), VERTEX2F(0, 0), DISPLAY()),
      GIVES_WITH_RAM_G(64, 0, 0, 12) },
    { CASE("VERTEX2II leaves the handle as it was, here one not set up"),
      LIST(BITMAP_HANDLE(5), SMALL_BITMAP_AT(0), BITMAP_HANDLE(0), BEGIN(BITMAPS), VERTEX2II(0, 0, 5, 0),
           VERTEX2F(0, 0), DISPLAY()),
      GIVES_WITH_RAM_G(64, 18, 28, 8) },

    /* Cells of 65536 bytes: 1024 by 64. */
    { CASE("cell 15 ends where 20 bits end"),
      LIST(BITMAP_SOURCE(0), BITMAP_LAYOUT(L8, 0, 64), BITMAP_LAYOUT_H(1, 0), BITMAP_SIZE(0, 0, 0, 8, 8),
           BEGIN(BITMAPS), VERTEX2II(0, 0, 0, 15), DISPLAY()),
      GIVES_WITH_RAM_G(JV_MAX_RAM_G_BYTES, 0, 0, 7) },
    { CASE("cell 16 starts where 20 bits wrap"),
      LIST(BITMAP_SOURCE(0), BITMAP_LAYOUT(L8, 0, 64), BITMAP_LAYOUT_H(1, 0), BITMAP_SIZE(0, 0, 0, 8, 8),
           BEGIN(BITMAPS), VERTEX2II(0, 0, 0, 16), DISPLAY()),
      GIVES_WITH_RAM_G(JV_MAX_RAM_G_BYTES, 18, 20, 6) },
    { CASE("cell 64 starts where the 22 bits of an address wrap"),
      LIST(BITMAP_SOURCE(0), BITMAP_LAYOUT(L8, 0, 64), BITMAP_LAYOUT_H(1, 0), BITMAP_SIZE(0, 0, 0, 8, 8),
           BEGIN(BITMAPS), VERTEX2II(0, 0, 0, 64), DISPLAY()),
      GIVES_WITH_RAM_G(JV_MAX_RAM_G_BYTES, 18, 20, 6) },
    { CASE("source and cell together start where the 22 bits wrap"),
      LIST(BITMAP_SOURCE(4194303), BITMAP_LAYOUT(L8, 1, 1), BITMAP_SIZE(0, 0, 0, 1, 1), BEGIN(BITMAPS),
           VERTEX2II(0, 0, 0, 1), DISPLAY()),
      GIVES_WITH_RAM_G(JV_MAX_RAM_G_BYTES, 18, 16, 5) },
    { CASE("the largest cell number of the largest cell"),
      LIST(BITMAP_SOURCE(4194302), BITMAP_LAYOUT(L8, 1023, 511), BITMAP_LAYOUT_H(3, 3), BITMAP_SIZE(0, 0, 0, 8, 8),
           BEGIN(BITMAPS), VERTEX2II(0, 0, 0, 127), DISPLAY()),
      GIVES_WITH_RAM_G(JV_MAX_RAM_G_BYTES, 18, 20, 6) },
    { CASE("a cell larger than 16 bits count, inside RAM_G"),
      LIST(BITMAP_SOURCE(0), BITMAP_LAYOUT(L8, 512, 256), BITMAP_SIZE(0, 0, 0, 8, 8), BEGIN(BITMAPS),
           VERTEX2II(0, 0, 0, 0), DISPLAY()),
      GIVES_WITH_RAM_G(131072, 0, 0, 6) },
    { CASE("a cell larger than 16 bits count, one byte past"),
      LIST(BITMAP_SOURCE(0), BITMAP_LAYOUT(L8, 512, 256), BITMAP_SIZE(0, 0, 0, 8, 8), BEGIN(BITMAPS),
           VERTEX2II(0, 0, 0, 0), DISPLAY()),
      GIVES_WITH_RAM_G(131071, 18, 16, 5) },
    { CASE("the drawn size is no part of the cell"),
      LIST(BITMAP_SOURCE(0), BITMAP_LAYOUT(L8, 8, 8), BITMAP_SIZE(0, 0, 0, 511, 511), BITMAP_SIZE_H(3, 3),
           BEGIN(BITMAPS), VERTEX2II(0, 0, 0, 0), DISPLAY()),
      GIVES_WITH_RAM_G(64, 0, 0, 7) },

    /* What is not set. */
    { CASE("nothing set"), LIST(BEGIN(BITMAPS), VERTEX2II(0, 0, 7, 0), DISPLAY()),
      GIVES_WITH_RAM_G(JV_MAX_RAM_G_BYTES, 18, 4, 2) },
    { CASE("source not set"),
      LIST(BITMAP_LAYOUT(L8, 8, 8), BITMAP_SIZE(0, 0, 0, 8, 8), BEGIN(BITMAPS), VERTEX2II(0, 0, 0, 0), DISPLAY()),
      GIVES_WITH_RAM_G(JV_MAX_RAM_G_BYTES, 18, 12, 4) },
    { CASE("layout not set"),
      LIST(BITMAP_SOURCE(0), BITMAP_SIZE(0, 0, 0, 8, 8), BEGIN(BITMAPS), VERTEX2II(0, 0, 0, 0), DISPLAY()),
      GIVES_WITH_RAM_G(JV_MAX_RAM_G_BYTES, 18, 12, 4) },
    { CASE("size not set"),
      LIST(BITMAP_SOURCE(0), BITMAP_LAYOUT(L8, 8, 8), BEGIN(BITMAPS), VERTEX2II(0, 0, 0, 0), DISPLAY()),
      GIVES_WITH_RAM_G(JV_MAX_RAM_G_BYTES, 18, 12, 4) },
    { CASE("BITMAP_LAYOUT_H alone sets no layout"),
      LIST(BITMAP_SOURCE(0), BITMAP_LAYOUT_H(1, 1), BITMAP_SIZE(0, 0, 0, 8, 8), BEGIN(BITMAPS), VERTEX2F(0, 0),
           DISPLAY()),
      GIVES_WITH_RAM_G(JV_MAX_RAM_G_BYTES, 18, 16, 5) },
    { CASE("BITMAP_SIZE_H alone sets no size"),
      LIST(BITMAP_SOURCE(0), BITMAP_LAYOUT(L8, 8, 8), BITMAP_SIZE_H(1, 1), BEGIN(BITMAPS), VERTEX2F(0, 0), DISPLAY()),
      GIVES_WITH_RAM_G(JV_MAX_RAM_G_BYTES, 18, 16, 5) },
    { CASE("a handle that another one's settings do not set up"),
      LIST(BITMAP_HANDLE(15), SMALL_BITMAP_AT(0), BEGIN(BITMAPS), VERTEX2II(0, 0, 31, 0), DISPLAY()),
      GIVES_WITH_RAM_G(JV_MAX_RAM_G_BYTES, 18, 20, 6) },
    { CASE("handle 31, which is no font here, set up"),
      LIST(BITMAP_HANDLE(31), SMALL_BITMAP_AT(0), BEGIN(BITMAPS), VERTEX2II(0, 0, 31, 0), DISPLAY()),
      GIVES_WITH_RAM_G(64, 0, 0, 7) },
    { CASE("settings may come after BEGIN and one by one"),
      LIST(BEGIN(BITMAPS), BITMAP_SIZE(0, 0, 0, 8, 8), NOP(), BITMAP_SOURCE(0), BITMAP_LAYOUT(L8, 8, 8),
           VERTEX2F(0, 0), DISPLAY()),
      GIVES_WITH_RAM_G(64, 0, 0, 7) },
    { CASE("a setting given again replaces the first"),
      LIST(SMALL_BITMAP_AT(1), BITMAP_SOURCE(0), BEGIN(BITMAPS), VERTEX2F(0, 0), DISPLAY()),
      GIVES_WITH_RAM_G(64, 0, 0, 7) },

    /* Zeros, and the bits of the H words. */
    { CASE("stride 0"),
      LIST(BITMAP_SOURCE(0), BITMAP_LAYOUT(L8, 0, 8), BITMAP_SIZE(0, 0, 0, 8, 8), BEGIN(BITMAPS), VERTEX2F(0, 0)),
      GIVES_WITH_RAM_G(JV_MAX_RAM_G_BYTES, 18, 16, 5) },
    { CASE("layout height 0"),
      LIST(BITMAP_SOURCE(0), BITMAP_LAYOUT(L8, 8, 0), BITMAP_SIZE(0, 0, 0, 8, 8), BEGIN(BITMAPS), VERTEX2F(0, 0)),
      GIVES_WITH_RAM_G(JV_MAX_RAM_G_BYTES, 18, 16, 5) },
    { CASE("drawn width 0, which the guide calls 2048"),
      LIST(BITMAP_SOURCE(0), BITMAP_LAYOUT(L8, 8, 8), BITMAP_SIZE(0, 0, 0, 0, 8), BEGIN(BITMAPS), VERTEX2F(0, 0)),
      GIVES_WITH_RAM_G(JV_MAX_RAM_G_BYTES, 18, 16, 5) },
    { CASE("drawn height 0, which the guide calls 2048"),
      LIST(BITMAP_SOURCE(0), BITMAP_LAYOUT(L8, 8, 8), BITMAP_SIZE(0, 0, 0, 8, 0), BEGIN(BITMAPS), VERTEX2F(0, 0)),
      GIVES_WITH_RAM_G(JV_MAX_RAM_G_BYTES, 18, 16, 5) },
    { CASE("stride 1024: low bits 0, high bits not"),
      LIST(BITMAP_SOURCE(0), BITMAP_LAYOUT(L8, 0, 1), BITMAP_LAYOUT_H(1, 0), BITMAP_SIZE(0, 0, 0, 8, 8),
           BEGIN(BITMAPS), VERTEX2F(0, 0), DISPLAY()),
      GIVES_WITH_RAM_G(1024, 0, 0, 7) },
    { CASE("layout height 512: low bits 0, high bits not"),
      LIST(BITMAP_SOURCE(0), BITMAP_LAYOUT(L8, 1, 0), BITMAP_LAYOUT_H(0, 1), BITMAP_SIZE(0, 0, 0, 8, 8),
           BEGIN(BITMAPS), VERTEX2F(0, 0), DISPLAY()),
      GIVES_WITH_RAM_G(512, 0, 0, 7) },
    { CASE("layout height 512, one byte past"),
      LIST(BITMAP_SOURCE(0), BITMAP_LAYOUT(L8, 1, 0), BITMAP_LAYOUT_H(0, 1), BITMAP_SIZE(0, 0, 0, 8, 8),
           BEGIN(BITMAPS), VERTEX2F(0, 0), DISPLAY()),
      GIVES_WITH_RAM_G(511, 18, 20, 6) },
    { CASE("drawn width 512: low bits 0, high bits not"),
      LIST(BITMAP_SOURCE(0), BITMAP_LAYOUT(L8, 8, 8), BITMAP_SIZE(0, 0, 0, 0, 8), BITMAP_SIZE_H(1, 0), BEGIN(BITMAPS),
           VERTEX2F(0, 0), DISPLAY()),
      GIVES_WITH_RAM_G(64, 0, 0, 7) },
    { CASE("drawn height 512: low bits 0, high bits not"),
      LIST(BITMAP_SOURCE(0), BITMAP_LAYOUT(L8, 8, 8), BITMAP_SIZE(0, 0, 0, 8, 0), BITMAP_SIZE_H(0, 1), BEGIN(BITMAPS),
           VERTEX2F(0, 0), DISPLAY()),
      GIVES_WITH_RAM_G(64, 0, 0, 7) },
    { CASE("the main word leaves the H word's bits: stride 1032"),
      LIST(BITMAP_SOURCE(0), BITMAP_LAYOUT_H(1, 0), BITMAP_LAYOUT(L8, 8, 1), BITMAP_SIZE(0, 0, 0, 8, 8),
           BEGIN(BITMAPS), VERTEX2F(0, 0), DISPLAY()),
      GIVES_WITH_RAM_G(1031, 18, 20, 6) },
    { CASE("the H word leaves the main word's bits: stride 1032"),
      LIST(BITMAP_SOURCE(0), BITMAP_LAYOUT(L8, 8, 1), BITMAP_LAYOUT_H(1, 0), BITMAP_SIZE(0, 0, 0, 8, 8),
           BEGIN(BITMAPS), VERTEX2F(0, 0), DISPLAY()),
      GIVES_WITH_RAM_G(1031, 18, 20, 6) },
    { CASE("stride 1032 fits"),
      LIST(BITMAP_SOURCE(0), BITMAP_LAYOUT_H(1, 0), BITMAP_LAYOUT(L8, 8, 1), BITMAP_SIZE(0, 0, 0, 8, 8),
           BEGIN(BITMAPS), VERTEX2F(0, 0), DISPLAY()),
      GIVES_WITH_RAM_G(1032, 0, 0, 7) },
    { CASE("the main word leaves the H word's bits: layout height 513"),
      LIST(BITMAP_SOURCE(0), BITMAP_LAYOUT_H(0, 1), BITMAP_LAYOUT(L8, 1, 1), BITMAP_SIZE(0, 0, 0, 8, 8),
           BEGIN(BITMAPS), VERTEX2F(0, 0), DISPLAY()),
      GIVES_WITH_RAM_G(512, 18, 20, 6) },
    { CASE("layout height 513 fits"),
      LIST(BITMAP_SOURCE(0), BITMAP_LAYOUT_H(0, 1), BITMAP_LAYOUT(L8, 1, 1), BITMAP_SIZE(0, 0, 0, 8, 8),
           BEGIN(BITMAPS), VERTEX2F(0, 0), DISPLAY()),
      GIVES_WITH_RAM_G(513, 0, 0, 7) },
    { CASE("an H word takes back the bits of one before it"),
      LIST(BITMAP_SOURCE(0), BITMAP_LAYOUT_H(3, 3), BITMAP_LAYOUT(L8, 8, 8), BITMAP_LAYOUT_H(0, 0),
           BITMAP_SIZE(0, 0, 0, 8, 8), BEGIN(BITMAPS), VERTEX2F(0, 0), DISPLAY()),
      GIVES_WITH_RAM_G(64, 0, 0, 8) },
    { CASE("the main size word leaves the H word's bits: 512 and not 0 wide"),
      LIST(BITMAP_SOURCE(0), BITMAP_LAYOUT(L8, 8, 8), BITMAP_SIZE_H(1, 1), BITMAP_SIZE(0, 0, 0, 0, 0), BEGIN(BITMAPS),
           VERTEX2F(0, 0), DISPLAY()),
      GIVES_WITH_RAM_G(64, 0, 0, 7) },

    /* Two bytes a pixel. */
    { CASE("RGB565 from an odd source"),
      LIST(BITMAP_SOURCE(1), BITMAP_LAYOUT(RGB565, 8, 8), BITMAP_SIZE(0, 0, 0, 4, 8), BEGIN(BITMAPS), VERTEX2F(0, 0)),
      GIVES_WITH_RAM_G(JV_MAX_RAM_G_BYTES, 18, 16, 5) },
    { CASE("RGB565 with an odd stride"),
      LIST(BITMAP_SOURCE(0), BITMAP_LAYOUT(RGB565, 7, 8), BITMAP_SIZE(0, 0, 0, 4, 8), BEGIN(BITMAPS), VERTEX2F(0, 0)),
      GIVES_WITH_RAM_G(JV_MAX_RAM_G_BYTES, 18, 16, 5) },
    { CASE("ARGB1555 from an odd source"),
      LIST(BITMAP_SOURCE(65537), BITMAP_LAYOUT(ARGB1555, 8, 8), BITMAP_SIZE(0, 0, 0, 4, 8), BEGIN(BITMAPS),
           VERTEX2F(0, 0)),
      GIVES_WITH_RAM_G(JV_MAX_RAM_G_BYTES, 18, 16, 5) },
    { CASE("ARGB1555 with an odd stride of 1025, which lines of an even number make even"),
      LIST(BITMAP_SOURCE(0), BITMAP_LAYOUT(ARGB1555, 1, 8), BITMAP_LAYOUT_H(1, 0), BITMAP_SIZE(0, 0, 0, 4, 8),
           BEGIN(BITMAPS), VERTEX2F(0, 0)),
      GIVES_WITH_RAM_G(JV_MAX_RAM_G_BYTES, 18, 20, 6) },
    { CASE("RGB565 from an even source with an even stride"),
      LIST(BITMAP_SOURCE(2), BITMAP_LAYOUT(RGB565, 6, 3), BITMAP_SIZE(0, 0, 0, 3, 3), BEGIN(BITMAPS), VERTEX2F(0, 0),
           DISPLAY()),
      GIVES_WITH_RAM_G(20, 0, 0, 6) },
    { CASE("ARGB1555 in a RAM_G of odd length"),
      LIST(BITMAP_SOURCE(0), BITMAP_LAYOUT(ARGB1555, 2, 1), BITMAP_SIZE(0, 0, 0, 1, 1), BEGIN(BITMAPS),
           VERTEX2F(0, 0), DISPLAY()),
      GIVES_WITH_RAM_G(3, 0, 0, 6) },
    { CASE("L8 may have an odd source and an odd stride"),
      LIST(BITMAP_SOURCE(1), BITMAP_LAYOUT(L8, 7, 1), BITMAP_SIZE(0, 0, 0, 7, 1), BEGIN(BITMAPS), VERTEX2F(0, 0),
           DISPLAY()),
      GIVES_WITH_RAM_G(8, 0, 0, 6) },

    /* It is judged at the vertex, and only there. */
    { CASE("not set up, but no vertex asks"), LIST(BEGIN(BITMAPS), END(), DISPLAY()), GIVES(0, 0, 3) },
    { CASE("off the screen, under an empty scissor and with all masks 0"),
      LIST(SCISSOR_SIZE(0, 0), COLOR_MASK(0, 0, 0, 0), STENCIL_MASK(0), TAG_MASK(0), COLOR_A(0), BEGIN(BITMAPS),
           VERTEX2F(-16384, -16384), DISPLAY()),
      GIVES_WITH_RAM_G(JV_MAX_RAM_G_BYTES, 18, 24, 7) },
    { CASE("POINTS begun after BITMAPS"), LIST(BEGIN(BITMAPS), BEGIN(POINTS), VERTEX2II(0, 0, 9, 9), DISPLAY()),
      GIVES(0, 0, 4) },
    { CASE("BITMAPS begun after POINTS"), LIST(BEGIN(POINTS), BEGIN(BITMAPS), VERTEX2II(0, 0, 9, 9), DISPLAY()),
      GIVES(18, 8, 3) },
    { CASE("the second vertex, after a setting between the two"),
      LIST(SMALL_BITMAP_AT(0), BEGIN(BITMAPS), VERTEX2F(0, 0), BITMAP_SOURCE(1), VERTEX2F(0, 0), DISPLAY()),
      GIVES_WITH_RAM_G(64, 18, 24, 7) },

    /* Contexts hold the handle and the cell, and no handle's settings. */
    { CASE("a restore does not take a handle's settings back"),
      LIST(SAVE_CONTEXT(), SMALL_BITMAP_AT(0), RESTORE_CONTEXT(), BEGIN(BITMAPS), VERTEX2F(0, 0), DISPLAY()),
      GIVES_WITH_RAM_G(64, 0, 0, 8) },
    { CASE("another handle at the vertex"),
      LIST(SMALL_BITMAP_AT(0), BITMAP_HANDLE(9), BEGIN(BITMAPS), VERTEX2F(0, 0), DISPLAY()),
      GIVES_WITH_RAM_G(64, 18, 20, 6) },
    { CASE("a restore with none kept gives handle 0 back"),
      LIST(SMALL_BITMAP_AT(0), BITMAP_HANDLE(9), RESTORE_CONTEXT(), BEGIN(BITMAPS), VERTEX2F(0, 0), DISPLAY()),
      GIVES_WITH_RAM_G(64, 0, 0, 8) },
    { CASE("a restore with none kept takes handle 9 away"),
      LIST(BITMAP_HANDLE(9), SMALL_BITMAP_AT(0), RESTORE_CONTEXT(), BEGIN(BITMAPS), VERTEX2F(0, 0), DISPLAY()),
      GIVES_WITH_RAM_G(64, 18, 24, 7) },
    { CASE("a restore with none kept gives cell 0 back"),
      LIST(SMALL_BITMAP_AT(0), CELL(1), RESTORE_CONTEXT(), BEGIN(BITMAPS), VERTEX2F(0, 0), DISPLAY()),
      GIVES_WITH_RAM_G(64, 0, 0, 8) },
    { CASE("a restore gives the saved cell back"),
      LIST(SMALL_BITMAP_AT(0), CELL(1), SAVE_CONTEXT(), CELL(0), RESTORE_CONTEXT(), BEGIN(BITMAPS), VERTEX2F(0, 0)),
      GIVES_WITH_RAM_G(64, 18, 32, 9) },
    { CASE("after five saves one restore gives the fifth"),
      LIST(BITMAP_HANDLE(5), SMALL_BITMAP_AT(0), SAVE_HANDLES_1_TO_5, BITMAP_HANDLE(0), RESTORE_CONTEXT(),
           BEGIN(BITMAPS), VERTEX2F(0, 0), DISPLAY()),
      GIVES_WITH_RAM_G(64, 0, 0, 19) },
    { CASE("after five saves four restores give the second"),
      LIST(BITMAP_HANDLE(2), SMALL_BITMAP_AT(0), SAVE_HANDLES_1_TO_5, RESTORE_CONTEXT(), RESTORE_CONTEXT(),
           RESTORE_CONTEXT(), RESTORE_CONTEXT(), BEGIN(BITMAPS), VERTEX2F(0, 0), DISPLAY()),
      GIVES_WITH_RAM_G(64, 0, 0, 21) },
    { CASE("after five saves five restores do not give the first"),
      LIST(BITMAP_HANDLE(1), SMALL_BITMAP_AT(0), SAVE_HANDLES_1_TO_5, RESTORE_CONTEXT(), RESTORE_CONTEXT(),
           RESTORE_CONTEXT(), RESTORE_CONTEXT(), RESTORE_CONTEXT(), BEGIN(BITMAPS), VERTEX2F(0, 0), DISPLAY()),
      GIVES_WITH_RAM_G(64, 18, 80, 21) },
    { CASE("after five saves five restores give the starting handle"),
      LIST(SMALL_BITMAP_AT(0), SAVE_HANDLES_1_TO_5, RESTORE_CONTEXT(), RESTORE_CONTEXT(), RESTORE_CONTEXT(),
           RESTORE_CONTEXT(), RESTORE_CONTEXT(), BEGIN(BITMAPS), VERTEX2F(0, 0), DISPLAY()),
      GIVES_WITH_RAM_G(64, 0, 0, 21) },
};

static const hand_list limit_reached[] = {
    { CASE("document 01's example 7"), LIST(0x1E000000), GIVES_UNDER_LIMIT(3, 19, 0, 3) },
    { CASE("one less than DISPLAY needs"), LIST(NOP(), NOP(), DISPLAY()), GIVES_UNDER_LIMIT(2, 19, 8, 2) },
    { CASE("a limit of 1"), LIST(NOP(), DISPLAY()), GIVES_UNDER_LIMIT(1, 19, 4, 1) },
    { CASE("19 before 10: the next word is past the end"), LIST(NOP()), GIVES_UNDER_LIMIT(1, 19, 4, 1) },
    { CASE("19 before 10: after a jump past the end"), LIST(JUMP(65532)), GIVES_UNDER_LIMIT(1, 19, 65532, 1) },
    { CASE("19 before 11: the next word is no command"), LIST(NOP(), 0xFFFFFFFF), GIVES_UNDER_LIMIT(1, 19, 4, 1) },
    { CASE("19 before 14: the next word is a fifth call"), LIST(CALL(0)), GIVES_UNDER_LIMIT(4, 19, 0, 4) },
    { CASE("an endless loop under the largest limit"), LIST(NOP(), JUMP(0)),
      GIVES_UNDER_LIMIT(JV_MAX_LIMIT, 19, 0, JV_MAX_LIMIT) },
    { CASE("an endless loop under the largest limit less one"), LIST(NOP(), JUMP(0)),
      GIVES_UNDER_LIMIT(JV_MAX_LIMIT - 1, 19, 4, JV_MAX_LIMIT - 1) },
    { CASE("within a called stretch"), LIST(/* 0 */ CALL(8), DISPLAY(), /* 8 */ NOP(), RETURN()),
      GIVES_UNDER_LIMIT(3, 19, 4, 3) },
};

/* How many of the lists in this file give each number. */
static unsigned met[NUMBERS];

static void check_answer(int line, const char *name, const run_request *request, run_answer want)
{
    static const char *const who[] = { "jv_check", "the second program" };
    const jv_answer came[] = { answer_of_library(request), as_answer(run_list(request)) };
    for (size_t n = 0; n < LENGTH(came); n++) {
        if (!is_to_be_told(__FILE__, line, are_equal_answers(came[n], as_answer(want))))
            continue;
        printf("%s, by %s\n", name, who[n]);
        print_request(request);
        print_answer("came:  ", came[n]);
        print_answer("wanted:", as_answer(want));
    }
    met[want.number]++;
}

static void check_words(int line, const char *name, const uint32_t *words, size_t count, uint32_t limit,
                        size_t ram_g_length, run_answer want)
{
    static uint8_t list[JV_MAX_LIST_BYTES];
    put_words(list, words, count);
    run_request request = { list, 4 * count, ram_g_length, 480, 272, limit };
    check_answer(line, name, &request, want);
}

#define CHECK_TABLE(part, table) check_table(part, table, LENGTH(table))

static void check_table(const char *part, const hand_list *table, size_t count)
{
    begin_part(part);
    for (const hand_list *h = table; h < table + count; h++)
        check_words(h->line, h->name, h->words, h->count, h->limit != 0 ? h->limit : JV_MAX_LIMIT, h->ram_g_length,
                    h->answer);
}

static void check_long_lists(void)
{
    static uint32_t words[MOST_WORDS];
    begin_part("the longest lists");
    for (size_t n = 0; n < MOST_WORDS; n++)
        words[n] = NOP();
    check_words(__LINE__, "no DISPLAY", words, MOST_WORDS, JV_MAX_LIMIT, 0,
                (run_answer){ 10, JV_MAX_LIST_BYTES, MOST_WORDS });
    check_words(__LINE__, "no DISPLAY, and the limit used up", words, MOST_WORDS, MOST_WORDS, 0,
                (run_answer){ 19, JV_MAX_LIST_BYTES, MOST_WORDS });
    words[MOST_WORDS - 1] = DISPLAY();
    check_words(__LINE__, "DISPLAY last", words, MOST_WORDS, JV_MAX_LIMIT, 0, (run_answer){ 0, 0, MOST_WORDS });
    check_words(__LINE__, "DISPLAY last and the limit's last", words, MOST_WORDS, MOST_WORDS, 0,
                (run_answer){ 0, 0, MOST_WORDS });
    check_words(__LINE__, "one word more than the limit", words, MOST_WORDS, MOST_WORDS - 1, 0,
                (run_answer){ 19, JV_MAX_LIST_BYTES - 4, MOST_WORDS - 1 });
    words[0] = JUMP(JV_MAX_LIST_BYTES - 4);
    check_words(__LINE__, "a jump to the last word", words, MOST_WORDS, JV_MAX_LIMIT, 0, (run_answer){ 0, 0, 2 });
    words[0] = CALL(JV_MAX_LIST_BYTES - 8);
    words[MOST_WORDS - 2] = RETURN();
    words[1] = JUMP(JV_MAX_LIST_BYTES);
    check_words(__LINE__, "a jump to one past the last word", words, MOST_WORDS, JV_MAX_LIMIT, 0,
                (run_answer){ 10, JV_MAX_LIST_BYTES, 3 });
}

typedef struct {
    int line;
    const char *name;
    uint32_t width, height;
    size_t list_length, ram_g_length;
    uint32_t limit, number;
} measure;

/* Each list is so many bytes of 0, that is, words of DISPLAY. */
static const measure measures[] = {
    { CASE("the smallest of everything"), 1, 1, 4, 0, 1, 0 },
    { CASE("the largest of everything"), JV_MAX_WIDTH, JV_MAX_HEIGHT, JV_MAX_LIST_BYTES, JV_MAX_RAM_G_BYTES,
      JV_MAX_LIMIT, 0 },
    { CASE("an ordinary panel"), 480, 272, 1024, 65536, 4096, 0 },

    { CASE("the largest width"), JV_MAX_WIDTH, 272, 4, 0, 9, 0 },
    { CASE("a width too large by one"), JV_MAX_WIDTH + 1, 272, 4, 0, 9, 1 },
    { CASE("width 0"), 0, 272, 4, 0, 9, 1 },
    { CASE("width 2^32 - 1"), 0xFFFFFFFF, 272, 4, 0, 9, 1 },
    { CASE("the largest height"), 480, JV_MAX_HEIGHT, 4, 0, 9, 0 },
    { CASE("a height too large by one"), 480, JV_MAX_HEIGHT + 1, 4, 0, 9, 1 },
    { CASE("height 0"), 480, 0, 4, 0, 9, 1 },
    { CASE("height 2^32 - 1"), 480, 0xFFFFFFFF, 4, 0, 9, 1 },
    { CASE("the largest panel turned by a quarter"), JV_MAX_HEIGHT, JV_MAX_WIDTH, 4, 0, 9, 1 },

    { CASE("an empty list"), 480, 272, 0, 0, 9, 2 },
    { CASE("a list of 1 byte"), 480, 272, 1, 0, 9, 2 },
    { CASE("a list of 2 bytes"), 480, 272, 2, 0, 9, 2 },
    { CASE("a list too short by a byte"), 480, 272, JV_MIN_LIST_BYTES - 1, 0, 9, 2 },
    { CASE("the shortest list"), 480, 272, JV_MIN_LIST_BYTES, 0, 9, 0 },
    { CASE("a list of 5 bytes"), 480, 272, 5, 0, 9, 2 },
    { CASE("a list of 6 bytes"), 480, 272, 6, 0, 9, 2 },
    { CASE("a list of 7 bytes"), 480, 272, 7, 0, 9, 2 },
    { CASE("a list shorter than the longest by a word"), 480, 272, JV_MAX_LIST_BYTES - 4, 0, 9, 0 },
    { CASE("shorter by a byte"), 480, 272, JV_MAX_LIST_BYTES - 1, 0, 9, 2 },
    { CASE("the longest list"), 480, 272, JV_MAX_LIST_BYTES, 0, 9, 0 },
    { CASE("a list too long by a byte"), 480, 272, JV_MAX_LIST_BYTES + 1, 0, 9, 2 },
    { CASE("a list too long by a word"), 480, 272, JV_MAX_LIST_BYTES + 4, 0, 9, 2 },
    { CASE("a list of 65536 bytes"), 480, 272, 65536, 0, 9, 2 },

    { CASE("RAM_G of 1 byte"), 480, 272, 4, 1, 9, 0 },
    { CASE("RAM_G shorter than the longest by a byte"), 480, 272, 4, JV_MAX_RAM_G_BYTES - 1, 9, 0 },
    { CASE("the longest RAM_G"), 480, 272, 4, JV_MAX_RAM_G_BYTES, 9, 0 },
    { CASE("RAM_G too long by a byte"), 480, 272, 4, JV_MAX_RAM_G_BYTES + 1, 9, 3 },

    { CASE("limit 0"), 480, 272, 4, 0, 0, 4 },
    { CASE("limit 1"), 480, 272, 4, 0, 1, 0 },
    { CASE("the largest limit"), 480, 272, 4, 0, JV_MAX_LIMIT, 0 },
    { CASE("a limit too large by one"), 480, 272, 4, 0, JV_MAX_LIMIT + 1, 4 },
    { CASE("limit 2^32 - 1"), 480, 272, 4, 0, 0xFFFFFFFF, 4 },

    { CASE("1 before 2, 3 and 4"), JV_MAX_WIDTH + 1, JV_MAX_HEIGHT + 1, 5, JV_MAX_RAM_G_BYTES + 1, 0, 1 },
    { CASE("1 before 2"), 480, 0, 0, 0, 9, 1 },
    { CASE("1 before 3"), 0, 272, 4, JV_MAX_RAM_G_BYTES + 1, 9, 1 },
    { CASE("1 before 4"), JV_MAX_WIDTH + 1, 272, 4, 0, 0, 1 },
    { CASE("2 before 3 and 4"), 480, 272, 5, JV_MAX_RAM_G_BYTES + 1, 0, 2 },
    { CASE("2 before 3"), 480, 272, JV_MAX_LIST_BYTES + 4, JV_MAX_RAM_G_BYTES + 1, 9, 2 },
    { CASE("2 before 4"), 480, 272, 0, 0, JV_MAX_LIMIT + 1, 2 },
    { CASE("3 before 4"), 480, 272, 4, JV_MAX_RAM_G_BYTES + 1, 0, 3 },
};

static void check_measures(void)
{
    static const uint8_t zeros[65536];
    begin_part("numbers 1 to 4");
    for (const measure *m = measures; m < measures + LENGTH(measures); m++) {
        run_request request = { zeros, m->list_length, m->ram_g_length, m->width, m->height, m->limit };
        check_answer(m->line, m->name, &request, (run_answer){ m->number, 0, m->number == 0 ? 1 : 0 });
    }
}

/* The same one faulty list throughout: 1 to 4 are told before any word is looked at. */
static void check_measures_before_run(void)
{
    static const uint8_t faulty[] = { 0xFF, 0xFF, 0xFF, 0xFF, 0xFF };
    begin_part("numbers 1 to 4 before the run");
    check_answer(__LINE__, "1", &(run_request){ faulty, 4, 0, 0, 272, 9 }, (run_answer){ 1, 0, 0 });
    check_answer(__LINE__, "2", &(run_request){ faulty, 5, 0, 480, 272, 9 }, (run_answer){ 2, 0, 0 });
    check_answer(__LINE__, "3", &(run_request){ faulty, 4, JV_MAX_RAM_G_BYTES + 1, 480, 272, 9 },
                 (run_answer){ 3, 0, 0 });
    check_answer(__LINE__, "4", &(run_request){ faulty, 4, 0, 480, 272, 0 }, (run_answer){ 4, 0, 0 });
    check_answer(__LINE__, "none of these", &(run_request){ faulty, 4, 0, 480, 272, 9 }, (run_answer){ 11, 0, 1 });
}

/* Lengths that 32 bits would cut to allowed ones. Nothing is lent that is so long: it is refused before it is read. */
static void check_vast_lengths(void)
{
    static const uint8_t display[4];
    const size_t vast = (size_t)1 << 32;
    begin_part("lengths above 32 bits");
    jv_answer list = jv_check(display, vast + 4, NULL, 0, 480, 272, 9);
    CHECK_HOLDS(are_equal_answers(list, (jv_answer){ 2, 0, 0, 0 }), "a list of 2^32 + 4 bytes gives 2");
    jv_answer ram_g = jv_check(display, 4, display, vast, 480, 272, 9);
    CHECK_HOLDS(are_equal_answers(ram_g, (jv_answer){ 3, 0, 0, 0 }), "RAM_G of 2^32 bytes gives 3");
}

/* 'Every run starts with all handles unset', whatever the run before has set. */
static void check_fresh_start(void)
{
    static const uint32_t sets[] = { SMALL_BITMAP_AT(0), BEGIN(BITMAPS), VERTEX2F(0, 0), DISPLAY() };
    static const uint32_t draws[] = { BEGIN(BITMAPS), VERTEX2F(0, 0), DISPLAY() };
    static const uint32_t bare[] = { VERTEX2F(0, 0), DISPLAY() };
    static const uint32_t returns[] = { RETURN() };
    static const uint32_t calls[] = { CALL(4), DISPLAY() };
    begin_part("nothing is left of the run before");
    check_words(__LINE__, "sets handle 0 up", sets, LENGTH(sets), 9, 64, (run_answer){ 0, 0, 6 });
    check_words(__LINE__, "finds it unset", draws, LENGTH(draws), 9, 64, (run_answer){ 18, 4, 2 });
    check_words(__LINE__, "finds no primitive begun", bare, LENGTH(bare), 9, 64, (run_answer){ 17, 0, 1 });
    check_words(__LINE__, "leaves a call open", calls, LENGTH(calls), 9, 0, (run_answer){ 0, 0, 2 });
    check_words(__LINE__, "finds none open", returns, LENGTH(returns), 9, 0, (run_answer){ 15, 0, 1 });
}

/* The words in this file are spelled by list_words.h; here they are held against the guide's table. */
static const struct {
    uint32_t bits;
    instruction instruction;
} spelled[] = {
    { DISPLAY(), { JV_DISPLAY, { 0 } } },
    { BITMAP_SOURCE(4194303), { JV_BITMAP_SOURCE, { 4194303 } } },
    { CLEAR_COLOR_RGB(1, 2, 255), { JV_CLEAR_COLOR_RGB, { 1, 2, 255 } } },
    { TAG(255), { JV_TAG, { 255 } } },
    { COLOR_RGB(255, 2, 3), { JV_COLOR_RGB, { 255, 2, 3 } } },
    { BITMAP_HANDLE(JV_HANDLES - 1), { JV_BITMAP_HANDLE, { JV_HANDLES - 1 } } },
    { CELL(127), { JV_CELL, { 127 } } },
    { BITMAP_LAYOUT(JV_FORMAT_L2, 1023, 510), { JV_BITMAP_LAYOUT, { JV_FORMAT_L2, 1023, 510 } } },
    { BITMAP_SIZE(1, 0, 1, 511, 1), { JV_BITMAP_SIZE, { 1, 0, 1, 511, 1 } } },
    { BITMAP_SIZE(0, 1, 0, 1, 511), { JV_BITMAP_SIZE, { 0, 1, 0, 1, 511 } } },
    { ALPHA_FUNC(ALWAYS, 254), { JV_ALPHA_FUNC, { JV_TEST_ALWAYS, 254 } } },
    { STENCIL_FUNC(ALWAYS, 255, 1), { JV_STENCIL_FUNC, { JV_TEST_ALWAYS, 255, 1 } } },
    { BLEND_FUNC(ONE_MINUS_DST_ALPHA, ONE), { JV_BLEND_FUNC, { JV_FACTOR_ONE_MINUS_DST_ALPHA, JV_FACTOR_ONE } } },
    { STENCIL_OP(INVERT, KEEP), { JV_STENCIL_OP, { JV_ACTION_INVERT, JV_ACTION_KEEP } } },
    { POINT_SIZE(8191), { JV_POINT_SIZE, { 8191 } } },
    { LINE_WIDTH(4095), { JV_LINE_WIDTH, { 4095 } } },
    { CLEAR_COLOR_A(255), { JV_CLEAR_COLOR_A, { 255 } } },
    { COLOR_A(255), { JV_COLOR_A, { 255 } } },
    { CLEAR_STENCIL(255), { JV_CLEAR_STENCIL, { 255 } } },
    { CLEAR_TAG(255), { JV_CLEAR_TAG, { 255 } } },
    { STENCIL_MASK(255), { JV_STENCIL_MASK, { 255 } } },
    { TAG_MASK(1), { JV_TAG_MASK, { 1 } } },
    { BITMAP_TRANSFORM_A(-65536), { JV_BITMAP_TRANSFORM_A, { (uint32_t)-65536 } } },
    { BITMAP_TRANSFORM_B(-1), { JV_BITMAP_TRANSFORM_B, { (uint32_t)-1 } } },
    { BITMAP_TRANSFORM_C(-8388608), { JV_BITMAP_TRANSFORM_C, { (uint32_t)-8388608 } } },
    { BITMAP_TRANSFORM_D(65535), { JV_BITMAP_TRANSFORM_D, { 65535 } } },
    { BITMAP_TRANSFORM_E(256), { JV_BITMAP_TRANSFORM_E, { 256 } } },
    { BITMAP_TRANSFORM_F(8388607), { JV_BITMAP_TRANSFORM_F, { 8388607 } } },
    { SCISSOR_XY(2047, 1), { JV_SCISSOR_XY, { 2047, 1 } } },
    { SCISSOR_SIZE(JV_MAX_SCISSOR, 1), { JV_SCISSOR_SIZE, { JV_MAX_SCISSOR, 1 } } },
    { CALL(65535), { JV_CALL, { 65535 } } },
    { JUMP(65535), { JV_JUMP, { 65535 } } },
    { BEGIN(RECTS), { JV_BEGIN, { JV_PRIMITIVE_RECTS } } },
    { COLOR_MASK(1, 0, 1, 1), { JV_COLOR_MASK, { 1, 0, 1, 1 } } },
    { COLOR_MASK(0, 1, 0, 0), { JV_COLOR_MASK, { 0, 1, 0, 0 } } },
    { END(), { JV_END, { 0 } } },
    { SAVE_CONTEXT(), { JV_SAVE_CONTEXT, { 0 } } },
    { RESTORE_CONTEXT(), { JV_RESTORE_CONTEXT, { 0 } } },
    { RETURN(), { JV_RETURN, { 0 } } },
    { MACRO(1), { JV_MACRO, { 1 } } },
    { CLEAR(1, 0, 0), { JV_CLEAR, { 1, 0, 0 } } },
    { CLEAR(0, 1, 1), { JV_CLEAR, { 0, 1, 1 } } },
    { VERTEX_FORMAT(JV_MAX_FRAC), { JV_VERTEX_FORMAT, { JV_MAX_FRAC } } },
    { BITMAP_LAYOUT_H(3, 1), { JV_BITMAP_LAYOUT_H, { 3, 1 } } },
    { BITMAP_SIZE_H(1, 3), { JV_BITMAP_SIZE_H, { 1, 3 } } },
    { PALETTE_SOURCE(4194303), { JV_PALETTE_SOURCE, { 4194303 } } },
    { VERTEX_TRANSLATE_X(-65536), { JV_VERTEX_TRANSLATE_X, { (uint32_t)-65536 } } },
    { VERTEX_TRANSLATE_Y(65535), { JV_VERTEX_TRANSLATE_Y, { 65535 } } },
    { NOP(), { JV_NOP, { 0 } } },
    { VERTEX2F(-16384, 16383), { JV_VERTEX2F, { (uint32_t)-16384, 16383 } } },
    { VERTEX2II(511, 1, 31, 1), { JV_VERTEX2II, { 511, 1, 31, 1 } } },
};

static void check_spelling(void)
{
    begin_part("words as list_words.h spells them");
    for (size_t n = 0; n < LENGTH(spelled); n++)
        CHECK_HOLDS(guide_write(spelled[n].instruction).bits == spelled[n].bits,
                    "%s is spelled", find_entry(spelled[n].instruction.command)->name);
}

static bool is_given_by_lists(uint32_t number)
{
    return number <= 4 || number >= 10;
}

static void check_enough_of_each(void)
{
    begin_part("lists of each number");
    printf("lists by hand:");
    for (uint32_t number = 0; number < NUMBERS; number++) {
        if (!is_given_by_lists(number))
            continue;
        printf("  %u of %" PRIu32, met[number], number);
        CHECK_HOLDS(met[number] >= LEAST_OF_EACH, "at least three");
    }
    putchar('\n');
}

int main(void)
{
    check_spelling();
    CHECK_TABLE("0, done", drawn);
    CHECK_TABLE("10, past the end", past_the_end);
    CHECK_TABLE("11, no command", no_command);
    CHECK_TABLE("12, no meaning", no_meaning);
    CHECK_TABLE("13, not drawn yet", not_drawn);
    CHECK_TABLE("14, fifth call", fifth_call);
    CHECK_TABLE("15, no call", no_call);
    CHECK_TABLE("16, a target that splits a word", split_target);
    CHECK_TABLE("17, no primitive", no_primitive);
    CHECK_TABLE("18, bitmaps", bitmaps);
    CHECK_TABLE("19, limit reached", limit_reached);
    CHECK_TABLE("0, ends within reach", ends);
    CHECK_TABLE("20, far ends", far_ends);
    check_long_lists();
    check_measures();
    check_measures_before_run();
    check_vast_lengths();
    check_fresh_start();
    check_enough_of_each();
    check_actions_by_hand();
    begin_part("what was lent");
    CHECK_HOLDS(is_all_as_lent(), "every byte of the lists and of RAM_G is as it was");
    return end_checks();
}
