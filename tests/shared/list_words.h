/* Display list words, spelled as the guide spells them: a command and its fields in their order. A list can then be
   written down as a table of constants. Each field has to fit its bits; signed ones may be negative. */
#ifndef LIST_WORDS_H
#define LIST_WORDS_H

#include <stdint.h>

#include "jokulvisp.h"

#define WORD_OF(command, fields) ((uint32_t)(command) << 24 | (uint32_t)(fields))
#define BITS(value, width, low) (((uint32_t)(value) & (((uint32_t)1 << (width)) - 1)) << (low))

#define DISPLAY() WORD_OF(JV_DISPLAY, 0)
#define BITMAP_SOURCE(addr) WORD_OF(JV_BITMAP_SOURCE, BITS(addr, 22, 0))
#define CLEAR_COLOR_RGB(red, green, blue)                                                                              \
    WORD_OF(JV_CLEAR_COLOR_RGB, BITS(red, 8, 16) | BITS(green, 8, 8) | BITS(blue, 8, 0))
#define TAG(s) WORD_OF(JV_TAG, BITS(s, 8, 0))
#define COLOR_RGB(red, green, blue) WORD_OF(JV_COLOR_RGB, BITS(red, 8, 16) | BITS(green, 8, 8) | BITS(blue, 8, 0))
#define BITMAP_HANDLE(handle) WORD_OF(JV_BITMAP_HANDLE, BITS(handle, 5, 0))
#define CELL(cell) WORD_OF(JV_CELL, BITS(cell, 7, 0))
#define BITMAP_LAYOUT(format, linestride, height)                                                                      \
    WORD_OF(JV_BITMAP_LAYOUT, BITS(format, 5, 19) | BITS(linestride, 10, 9) | BITS(height, 9, 0))
#define BITMAP_SIZE(filter, wrapx, wrapy, width, height)                                                               \
    WORD_OF(JV_BITMAP_SIZE,                                                                                            \
            BITS(filter, 1, 20) | BITS(wrapx, 1, 19) | BITS(wrapy, 1, 18) | BITS(width, 9, 9) | BITS(height, 9, 0))
#define ALPHA_FUNC(func, ref) WORD_OF(JV_ALPHA_FUNC, BITS(func, 3, 8) | BITS(ref, 8, 0))
#define STENCIL_FUNC(func, ref, mask) WORD_OF(JV_STENCIL_FUNC, BITS(func, 4, 16) | BITS(ref, 8, 8) | BITS(mask, 8, 0))
#define BLEND_FUNC(src, dst) WORD_OF(JV_BLEND_FUNC, BITS(src, 3, 3) | BITS(dst, 3, 0))
#define STENCIL_OP(sfail, spass) WORD_OF(JV_STENCIL_OP, BITS(sfail, 3, 3) | BITS(spass, 3, 0))
#define POINT_SIZE(size) WORD_OF(JV_POINT_SIZE, BITS(size, 13, 0))
#define LINE_WIDTH(width) WORD_OF(JV_LINE_WIDTH, BITS(width, 12, 0))
#define CLEAR_COLOR_A(alpha) WORD_OF(JV_CLEAR_COLOR_A, BITS(alpha, 8, 0))
#define COLOR_A(alpha) WORD_OF(JV_COLOR_A, BITS(alpha, 8, 0))
#define CLEAR_STENCIL(s) WORD_OF(JV_CLEAR_STENCIL, BITS(s, 8, 0))
#define CLEAR_TAG(t) WORD_OF(JV_CLEAR_TAG, BITS(t, 8, 0))
#define STENCIL_MASK(mask) WORD_OF(JV_STENCIL_MASK, BITS(mask, 8, 0))
#define TAG_MASK(mask) WORD_OF(JV_TAG_MASK, BITS(mask, 1, 0))
#define BITMAP_TRANSFORM_A(a) WORD_OF(JV_BITMAP_TRANSFORM_A, BITS(a, 17, 0))
#define BITMAP_TRANSFORM_B(b) WORD_OF(JV_BITMAP_TRANSFORM_B, BITS(b, 17, 0))
#define BITMAP_TRANSFORM_C(c) WORD_OF(JV_BITMAP_TRANSFORM_C, BITS(c, 24, 0))
#define BITMAP_TRANSFORM_D(d) WORD_OF(JV_BITMAP_TRANSFORM_D, BITS(d, 17, 0))
#define BITMAP_TRANSFORM_E(e) WORD_OF(JV_BITMAP_TRANSFORM_E, BITS(e, 17, 0))
#define BITMAP_TRANSFORM_F(f) WORD_OF(JV_BITMAP_TRANSFORM_F, BITS(f, 24, 0))
#define SCISSOR_XY(x, y) WORD_OF(JV_SCISSOR_XY, BITS(x, 11, 11) | BITS(y, 11, 0))
#define SCISSOR_SIZE(width, height) WORD_OF(JV_SCISSOR_SIZE, BITS(width, 12, 12) | BITS(height, 12, 0))
#define CALL(dest) WORD_OF(JV_CALL, BITS(dest, 16, 0))
#define JUMP(dest) WORD_OF(JV_JUMP, BITS(dest, 16, 0))
#define BEGIN(prim) WORD_OF(JV_BEGIN, BITS(prim, 4, 0))
#define COLOR_MASK(r, g, b, a) WORD_OF(JV_COLOR_MASK, BITS(r, 1, 3) | BITS(g, 1, 2) | BITS(b, 1, 1) | BITS(a, 1, 0))
#define END() WORD_OF(JV_END, 0)
#define SAVE_CONTEXT() WORD_OF(JV_SAVE_CONTEXT, 0)
#define RESTORE_CONTEXT() WORD_OF(JV_RESTORE_CONTEXT, 0)
#define RETURN() WORD_OF(JV_RETURN, 0)
#define MACRO(m) WORD_OF(JV_MACRO, BITS(m, 1, 0))
#define CLEAR(c, s, t) WORD_OF(JV_CLEAR, BITS(c, 1, 2) | BITS(s, 1, 1) | BITS(t, 1, 0))
#define VERTEX_FORMAT(frac) WORD_OF(JV_VERTEX_FORMAT, BITS(frac, 3, 0))
#define BITMAP_LAYOUT_H(linestride, height) WORD_OF(JV_BITMAP_LAYOUT_H, BITS(linestride, 2, 2) | BITS(height, 2, 0))
#define BITMAP_SIZE_H(width, height) WORD_OF(JV_BITMAP_SIZE_H, BITS(width, 2, 2) | BITS(height, 2, 0))
#define PALETTE_SOURCE(addr) WORD_OF(JV_PALETTE_SOURCE, BITS(addr, 22, 0))
#define VERTEX_TRANSLATE_X(x) WORD_OF(JV_VERTEX_TRANSLATE_X, BITS(x, 17, 0))
#define VERTEX_TRANSLATE_Y(y) WORD_OF(JV_VERTEX_TRANSLATE_Y, BITS(y, 17, 0))
#define NOP() WORD_OF(JV_NOP, 0)
#define VERTEX2F(x, y) WORD_OF(JV_VERTEX2F, BITS(x, 15, 15) | BITS(y, 15, 0))
#define VERTEX2II(x, y, handle, cell)                                                                                  \
    WORD_OF(JV_VERTEX2II, BITS(x, 9, 21) | BITS(y, 9, 12) | BITS(handle, 5, 7) | BITS(cell, 7, 0))

/* What fields can name, as far as lists do so, with the guide's names: tests, stencil actions, blend factors,
   primitives and formats. */
enum {
    NEVER = JV_TEST_NEVER,
    LESS = JV_TEST_LESS,
    LEQUAL = JV_TEST_LEQUAL,
    GREATER = JV_TEST_GREATER,
    GEQUAL = JV_TEST_GEQUAL,
    EQUAL = JV_TEST_EQUAL,
    NOTEQUAL = JV_TEST_NOTEQUAL,
    ALWAYS = JV_TEST_ALWAYS
};
enum {
    KEEP = JV_ACTION_KEEP,
    REPLACE = JV_ACTION_REPLACE,
    INCR = JV_ACTION_INCR,
    DECR = JV_ACTION_DECR,
    INVERT = JV_ACTION_INVERT
};
enum {
    ZERO = JV_FACTOR_ZERO, /* of actions too */
    ONE = JV_FACTOR_ONE,
    SRC_ALPHA = JV_FACTOR_SRC_ALPHA,
    DST_ALPHA = JV_FACTOR_DST_ALPHA,
    ONE_MINUS_SRC_ALPHA = JV_FACTOR_ONE_MINUS_SRC_ALPHA,
    ONE_MINUS_DST_ALPHA = JV_FACTOR_ONE_MINUS_DST_ALPHA
};
enum {
    BITMAPS = JV_PRIMITIVE_BITMAPS,
    POINTS = JV_PRIMITIVE_POINTS,
    LINES = JV_PRIMITIVE_LINES,
    LINE_STRIP = JV_PRIMITIVE_LINE_STRIP,
    EDGE_STRIP_R = JV_PRIMITIVE_EDGE_STRIP_R,
    EDGE_STRIP_L = JV_PRIMITIVE_EDGE_STRIP_L,
    EDGE_STRIP_A = JV_PRIMITIVE_EDGE_STRIP_A,
    EDGE_STRIP_B = JV_PRIMITIVE_EDGE_STRIP_B,
    RECTS = JV_PRIMITIVE_RECTS
};
enum { ARGB1555 = JV_FORMAT_ARGB1555, L8 = JV_FORMAT_L8, RGB565 = JV_FORMAT_RGB565 };

#endif
