/* Bitmaps: formats, strides, cells, high bits, where they lie and what is past their bytes. Drawn on black with the
   starting blend, an L8 texel shows as a grey of its own number: (255 * n + 127) / 255 is n. */
#include "pictures_by_hand.h"

#include <string.h>

#include "../shared/check.h"
#include "hand_pictures.h"

static const hand_picture places[] = {
    { CASE("VERTEX2II in pixels"), LIST(TWO_BY_TWO, VERTEX2II(1, 1, 0, 0), DISPLAY()),
      SHOWS("....",
            ".ab.",
            ".cd.",
            "...."),
      GREYS, OVER_ABCD },
    { CASE("VERTEX2F on a pixel"), LIST(TWO_BY_TWO, VERTEX2F(32, 16), DISPLAY()),
      SHOWS("....",
            "..ab",
            "..cd",
            "...."),
      GREYS, OVER_ABCD },
    { CASE("15 sixteenths lie in pixel 0, 31 in pixel 1"), LIST(TWO_BY_TWO, VERTEX2F(15, 31), DISPLAY()),
      SHOWS("....",
            "ab..",
            "cd..",
            "...."),
      GREYS, OVER_ABCD },
    { CASE("-1 sixteenth lies in pixel -1"), LIST(TWO_BY_TWO, VERTEX2F(-1, -1), DISPLAY()),
      SHOWS("d...",
            "...."),
      GREYS, OVER_ABCD },
    { CASE("so do -16"), LIST(TWO_BY_TWO, VERTEX2F(-16, -16), DISPLAY()),
      SHOWS("d...",
            "...."),
      GREYS, OVER_ABCD },
    { CASE("-17 lie in pixel -2"), LIST(TWO_BY_TWO, VERTEX2F(-17, 0), VERTEX2F(0, -17), DISPLAY()),
      SHOWS("....",
            "...."),
      GREYS, OVER_ABCD },
    { CASE("the translation is added before"),
      LIST(TWO_BY_TWO, VERTEX_TRANSLATE_X(-1), VERTEX_TRANSLATE_Y(15), VERTEX2II(2, 0, 0, 0), DISPLAY()),
      SHOWS(".ab.",
            ".cd."),
      GREYS, OVER_ABCD },
    { CASE("over the left edge"), LIST(TWO_BY_TWO, VERTEX2F(-16, 16), DISPLAY()),
      SHOWS("....",
            "b...",
            "d..."),
      GREYS, OVER_ABCD },
    { CASE("over the right edge"), LIST(TWO_BY_TWO, VERTEX2F(48, 16), DISPLAY()),
      SHOWS("....",
            "...a",
            "...c"),
      GREYS, OVER_ABCD },
    { CASE("over the upper edge"), LIST(TWO_BY_TWO, VERTEX2F(16, -16), DISPLAY()),
      SHOWS(".cd.",
            "....",
            "...."),
      GREYS, OVER_ABCD },
    { CASE("over the lower edge"), LIST(TWO_BY_TWO, VERTEX2F(16, 32), DISPLAY()),
      SHOWS("....",
            "....",
            ".ab."),
      GREYS, OVER_ABCD },
    { CASE("beside each edge"),
      LIST(TWO_BY_TWO, VERTEX2F(-32, 0), VERTEX2F(64, 0), VERTEX2F(0, -32), VERTEX2F(0, 48), DISPLAY()),
      SHOWS("....",
            "....",
            "...."),
      GREYS, OVER_ABCD },
    { CASE("a scissor cuts from the left and above, and moves no texel"),
      LIST(TWO_BY_TWO, SCISSOR_XY(2, 2), VERTEX2II(1, 1, 0, 0), DISPLAY()),
      SHOWS("....",
            "....",
            "..d."),
      GREYS, OVER_ABCD },
    { CASE("and from the right and below"),
      LIST(TWO_BY_TWO, SCISSOR_SIZE(2, 2), VERTEX2II(1, 1, 0, 0), DISPLAY()),
      SHOWS("....",
            ".a..",
            "...."),
      GREYS, OVER_ABCD },
    { CASE("a frame inside the bitmap"), LIST(BITMAP(L8, 3, 2, 3, 2), VERTEX2F(-16, -16), DISPLAY()), SHOWS("e"), GREYS,
      OVER_RAM_G(10, 20, 30, 40, 50, 60) },
};

static const hand_picture measures[] = {
    { CASE("the stride is longer than the drawn width"), LIST(BITMAP(L8, 3, 2, 2, 2), VERTEX2II(0, 0, 0, 0), DISPLAY()),
      SHOWS("ab.",
            "de."),
      GREYS, OVER_RAM_G(10, 20, 30, 40, 50, 60) },
    { CASE("fewer rows are drawn than the layout has"),
      LIST(BITMAP(L8, 2, 3, 2, 1), VERTEX2II(0, 0, 0, 0), DISPLAY()),
      SHOWS("ab.",
            "..."),
      GREYS, OVER_RAM_G(10, 20, 30, 40, 50, 60) },
    { CASE("past stride and layout height a texel is all 0, and its tag is written"),
      LIST(BITMAP(L8, 2, 2, 3, 3), VERTEX2II(0, 0, 0, 0), DISPLAY()),
      SHOWS("ab0.",
            "cd0.",
            "000.",
            "...."),
      GREYS, OVER_RAM_G(10, 20, 30, 40, 50, 60, 70, 80, 90) },
    { CASE("it is tested: alpha 0 is not greater than 0"),
      LIST(BITMAP(L8, 2, 2, 3, 3), ALPHA_FUNC(GREATER, 0), VERTEX2II(0, 0, 0, 0), DISPLAY()),
      SHOWS("ab.",
            "cd.",
            "..."),
      GREYS, OVER_RAM_G(10, 20, 30, 40, 50, 60, 70, 80, 90) },
    { CASE("it is blended: with ONE and ZERO it is black"),
      LIST(CLEAR_COLOR_RGB(255, 255, 255), CLEAR_TAG(255), CLEAR(1, 1, 1), BITMAP(RGB565, 2, 1, 2, 2),
           BLEND_FUNC(ONE, ZERO), VERTEX2II(0, 0, 0, 0), DISPLAY()),
      SHOWS("r0#",
            "00#"),
      WHERE({ 'r', { 255, 0, 0, 255 } }, { '0', { 0, 0, 0, 255 } }),
      OVER_RAM_G(0x00, 0xF8, 0xFF, 0xFF, 0xFF, 0xFF) },
    { CASE("it counts in the stencil"),
      LIST(BITMAP(L8, 1, 1, 2, 2), STENCIL_OP(KEEP, INCR), VERTEX2II(0, 0, 0, 0), SHOW_STENCIL, DISPLAY()),
      SHOWS("11.",
            "11."),
      WHERE({ '1', { 1, 1, 1, 255 } }), OVER_RAM_G(10) },
    { CASE("in two bytes a pixel, half a stride is as wide as the layout"),
      LIST(BITMAP(RGB565, 4, 1, 3, 1), BLEND_FUNC(ONE, ZERO), VERTEX2II(0, 0, 0, 0), DISPLAY()), SHOWS("ww0."),
      WHERE({ 'w', { 255, 255, 255, 255 } }, { '0', { 0, 0, 0, 255 } }),
      OVER_RAM_G(0xFF, 0xFF, 0xFF, 0xFF, 0xFF, 0xFF) },
    { CASE("a source inside RAM_G"),
      LIST(TWO_BY_TWO, BITMAP_SOURCE(2), VERTEX2II(0, 0, 0, 0), DISPLAY()),
      SHOWS("cd",
            "ef"),
      GREYS, OVER_RAM_G(10, 20, 30, 40, 50, 60) },
};

static const hand_picture cells[] = {
    { CASE("cell 1 follows cell 0"),
      LIST(BITMAP(L8, 2, 1, 2, 1), VERTEX2II(0, 0, 0, 1), VERTEX2II(0, 1, 0, 0), VERTEX2II(0, 2, 0, 2), DISPLAY()),
      SHOWS("cd",
            "ab",
            "ef"),
      GREYS, OVER_RAM_G(10, 20, 30, 40, 50, 60) },
    { CASE("by stride and layout height, not by what is drawn"),
      LIST(BITMAP(L8, 3, 1, 1, 2), ALPHA_FUNC(GREATER, 0), VERTEX2II(0, 0, 0, 1), DISPLAY()),
      SHOWS("d.",
            ".."),
      GREYS, OVER_RAM_G(10, 20, 30, 40, 50, 60) },
    { CASE("past its layout height a cell does not go on in the next"),
      LIST(BITMAP(L8, 2, 1, 2, 2), VERTEX2II(0, 0, 0, 1), DISPLAY()),
      SHOWS("cd",
            "00"),
      GREYS, OVER_RAM_G(10, 20, 30, 40, 50, 60) },
    { CASE("VERTEX2F takes CELL and BITMAP_HANDLE"),
      LIST(BITMAP(L8, 2, 1, 2, 1), CELL(2), VERTEX2F(0, 0), CELL(1), VERTEX2F(0, 16), DISPLAY()),
      SHOWS("ef",
            "cd"),
      GREYS, OVER_RAM_G(10, 20, 30, 40, 50, 60) },
    { CASE("and VERTEX2II leaves them"),
      LIST(BITMAP(L8, 2, 1, 2, 1), CELL(2), VERTEX2II(0, 0, 0, 1), VERTEX2F(0, 16), DISPLAY()),
      SHOWS("cd",
            "ef"),
      GREYS, OVER_RAM_G(10, 20, 30, 40, 50, 60) },
    { CASE("two handles"),
      LIST(BITMAP(L8, 1, 1, 1, 1), BITMAP_HANDLE(31), BITMAP(L8, 2, 1, 2, 1), BITMAP_SOURCE(4), VERTEX2II(0, 0, 0, 1),
           VERTEX2II(1, 0, 31, 0), VERTEX2II(3, 0, 0, 3), DISPLAY()),
      SHOWS("befd"), GREYS, OVER_RAM_G(10, 20, 30, 40, 50, 60) },
    { CASE("a restore brings the handle back but not its settings"),
      LIST(BITMAP(L8, 1, 1, 1, 1), SAVE_CONTEXT(), BITMAP_SOURCE(3), BITMAP_HANDLE(5), RESTORE_CONTEXT(),
           VERTEX2F(0, 0), DISPLAY()),
      SHOWS("d."), GREYS, OVER_RAM_G(10, 20, 30, 40, 50, 60) },
    { CASE("a cell that ends with RAM_G"), LIST(BITMAP(L8, 1, 3, 1, 3), VERTEX2II(0, 0, 0, 1), DISPLAY()),
      SHOWS("d",
            "e",
            "f"),
      GREYS, OVER_RAM_G(10, 20, 30, 40, 50, 60) },
};

/* Two-byte pixels have their low byte first. */
static const hand_picture formats[] = {
    { CASE("L8 is white with that alpha"),
      LIST(CLEAR_COLOR_RGB(0, 100, 200), CLEAR(1, 0, 0), BITMAP(L8, 3, 1, 3, 1), VERTEX2II(0, 0, 0, 0), DISPLAY()),
      /* 128 of white and 127 of the colour: 128, (32640 + 12700 + 127) / 255, (32640 + 25400 + 127) / 255 */
      SHOWS("xyz"),
      WHERE({ 'x', { 0, 100, 200, 255 } }, { 'y', { 128, 178, 228, 255 } }, { 'z', { 255, 255, 255, 255 } }),
      OVER_RAM_G(0, 128, 255) },
    { CASE("L8 in colour: alpha 128 times 128 is 64, red 200 by it 50"),
      LIST(COLOR_RGB(200, 0, 0), COLOR_A(128), BITMAP(L8, 1, 1, 1, 1), VERTEX2II(0, 0, 0, 0), DISPLAY()), SHOWS("x"),
      WHERE({ 'x', { 50, 0, 0, 255 } }), OVER_RAM_G(128) },
    { CASE("RGB565"), LIST(BITMAP(RGB565, 10, 1, 5, 1), VERTEX2II(0, 0, 0, 0), DISPLAY()), SHOWS("rgbw0"),
      WHERE({ 'r', { 255, 0, 0, 255 } }, { 'g', { 0, 255, 0, 255 } }, { 'b', { 0, 0, 255, 255 } },
            { 'w', { 255, 255, 255, 255 } }, { '0', { 0, 0, 0, 255 } }),
      OVER_RAM_G(0x00, 0xF8, 0xE0, 0x07, 0x1F, 0x00, 0xFF, 0xFF, 0x00, 0x00) },
    { CASE("RGB565, the lowest bit of each"), LIST(BITMAP(RGB565, 6, 1, 3, 1), VERTEX2II(0, 0, 0, 0), DISPLAY()),
      SHOWS("rgb"),
      WHERE({ 'r', { 8, 0, 0, 255 } }, { 'g', { 0, 4, 0, 255 } }, { 'b', { 0, 0, 8, 255 } }),
      OVER_RAM_G(0x00, 0x08, 0x20, 0x00, 0x01, 0x00) },
    { CASE("RGB565 is opaque"),
      LIST(CLEAR_COLOR_RGB(255, 255, 255), CLEAR(1, 0, 0), BITMAP(RGB565, 2, 1, 1, 1), VERTEX2II(0, 0, 0, 0),
           DISPLAY()),
      SHOWS("0w"), WHERE({ '0', { 0, 0, 0, 255 } }, { 'w', { 255, 255, 255, 0 } }), OVER_RAM_G(0, 0) },
    { CASE("ARGB1555, alpha 1"), LIST(BITMAP(ARGB1555, 8, 1, 4, 1), VERTEX2II(0, 0, 0, 0), DISPLAY()), SHOWS("rgbw"),
      WHERE({ 'r', { 255, 0, 0, 255 } }, { 'g', { 0, 255, 0, 255 } }, { 'b', { 0, 0, 255, 255 } },
            { 'w', { 255, 255, 255, 255 } }),
      OVER_RAM_G(0x00, 0xFC, 0xE0, 0x83, 0x1F, 0x80, 0xFF, 0xFF) },
    { CASE("ARGB1555, the lowest bit of each"), LIST(BITMAP(ARGB1555, 6, 1, 3, 1), VERTEX2II(0, 0, 0, 0), DISPLAY()),
      SHOWS("rgb"),
      WHERE({ 'r', { 8, 0, 0, 255 } }, { 'g', { 0, 8, 0, 255 } }, { 'b', { 0, 0, 8, 255 } }),
      OVER_RAM_G(0x00, 0x84, 0x20, 0x80, 0x01, 0x80) },
    { CASE("ARGB1555, alpha 0 covers nothing"),
      LIST(CLEAR_COLOR_RGB(1, 2, 3), CLEAR(1, 0, 0), BITMAP(ARGB1555, 4, 1, 2, 1), VERTEX2II(0, 0, 0, 0), DISPLAY()),
      SHOWS("xw"), WHERE({ 'x', { 1, 2, 3, 255 } }, { 'w', { 255, 255, 255, 255 } }),
      OVER_RAM_G(0xFF, 0x7F, 0xFF, 0xFF) },
    { CASE("ARGB1555, alpha 0 has its colour all the same"),
      LIST(BITMAP(ARGB1555, 2, 1, 1, 1), BLEND_FUNC(ONE, ZERO), VERTEX2II(0, 0, 0, 0), DISPLAY()), SHOWS("x"),
      WHERE({ 'x', { 255, 0, 255, 255 } }), OVER_RAM_G(0x1F, 0x7C) },
    /* 30, 62, 31 are 247, 251, 255; times 128, 64, 255 that is 124, 63, 255, and by alpha 128 it is 62, 32, 128. */
    { CASE("RGB565 times colour and alpha"),
      LIST(COLOR_RGB(128, 64, 255), COLOR_A(128), BITMAP(RGB565, 2, 1, 1, 1), VERTEX2II(0, 0, 0, 0), DISPLAY()),
      SHOWS("x"), WHERE({ 'x', { 62, 32, 128, 255 } }), OVER_RAM_G(0xDF, 0xF7) },
    /* Alphas 127 times 1 and 127 make 254; 128 times 1, 255; 100 times 99, 10027, which is 39 times 255 and more. */
    { CASE("the product is rounded"),
      LIST(BITMAP(L8, 1, 1, 1, 1), COLOR_A(1), VERTEX2II(0, 0, 0, 0), VERTEX2II(1, 0, 0, 1), COLOR_A(99),
           VERTEX2II(2, 0, 0, 2), DISPLAY()),
      SHOWS("01x"), WHERE({ '0', { 0, 0, 0, 255 } }, { '1', { 1, 1, 1, 255 } }, { 'x', { 39, 39, 39, 255 } }),
      OVER_RAM_G(127, 128, 100) },
    { CASE("the alpha test sees the product: 255 times 99 is 99"),
      LIST(BITMAP(RGB565, 2, 1, 1, 1), COLOR_A(99), BLEND_FUNC(ONE, ZERO), ALPHA_FUNC(GREATER, 98),
           VERTEX2II(0, 0, 0, 0), ALPHA_FUNC(GREATER, 99), VERTEX2II(1, 0, 0, 0), DISPLAY()),
      SHOWS("x."), WHERE({ 'x', { 255, 255, 255, 255 } }), OVER_RAM_G(0xFF, 0xFF) },
    { CASE("the colour of points is no texel's"),
      LIST(BITMAP(RGB565, 2, 1, 1, 1), VERTEX2II(0, 0, 0, 0), BEGIN(POINTS), POINT_SIZE(0), VERTEX2II(1, 0, 0, 0),
           DISPLAY()),
      SHOWS("r#"), WHERE({ 'r', { 255, 0, 0, 255 } }), OVER_RAM_G(0x00, 0xF8) },
};

/* ---- Widening ---- */

#define LOW_FIRST(n) (n) & 0xFF, (n) >> 8
#define TEXEL_565(r, g, b) LOW_FIRST((r) << 11 | (g) << 5 | (b))
#define TEXEL_1555(r, g, b) LOW_FIRST(1 << 15 | (r) << 10 | (g) << 5 | (b))

/* 'Repeat the top bits below': abcde becomes abcdeabc, and abcdef becomes abcdefab. */
static const hand_picture widened[] = {
    { CASE("RGB565, from nothing to all in each channel"),
      LIST(BITMAP(RGB565, 12, 1, 6, 1), VERTEX2II(0, 0, 0, 0), DISPLAY()), SHOWS("abcdef"),
      WHERE({ 'a', { 0, 4, 123, 255 } }, { 'b', { 8, 125, 132, 255 } }, { 'c', { 123, 130, 247, 255 } },
            { 'd', { 132, 251, 255, 255 } }, { 'e', { 247, 255, 0, 255 } }, { 'f', { 255, 0, 8, 255 } }),
      OVER_RAM_G(TEXEL_565(0, 1, 15), TEXEL_565(1, 31, 16), TEXEL_565(15, 32, 30), TEXEL_565(16, 62, 31),
                 TEXEL_565(30, 63, 0), TEXEL_565(31, 0, 1)) },
    { CASE("ARGB1555, from nothing to all in each channel"),
      LIST(BITMAP(ARGB1555, 12, 1, 6, 1), VERTEX2II(0, 0, 0, 0), DISPLAY()), SHOWS("abcdef"),
      WHERE({ 'a', { 0, 8, 123, 255 } }, { 'b', { 8, 123, 132, 255 } }, { 'c', { 123, 132, 247, 255 } },
            { 'd', { 132, 247, 255, 255 } }, { 'e', { 247, 255, 0, 255 } }, { 'f', { 255, 0, 8, 255 } }),
      OVER_RAM_G(TEXEL_1555(0, 1, 15), TEXEL_1555(1, 15, 16), TEXEL_1555(15, 16, 30), TEXEL_1555(16, 30, 31),
                 TEXEL_1555(30, 31, 0), TEXEL_1555(31, 0, 1)) },
};

/* ---- The H words ---- */

enum { LARGE_MEMORY = 8192 };

/* Bytes of 0 but for those that a case looks at. */
static uint8_t memory[LARGE_MEMORY];

static void set_memory(size_t at, const char *greys)
{
    memset(memory, 0, sizeof memory);
    for (size_t n = 0; greys[n] != '\0'; n++)
        memory[at + n] = (uint8_t)(10 * (greys[n] - 'a' + 1));
}

#define CHECK_LARGE(name, at, greys, list, ...)                                                                        \
    do {                                                                                                               \
        set_memory(at, greys);                                                                                         \
        check_picture(__FILE__,                                                                                        \
                      &(const hand_picture){ CASE(name), list, SHOWS(__VA_ARGS__), GREYS, OVER_MEMORY(memory) });      \
    } while (0)

/* A place in pixels left of or above the frame. */
#define BEFORE(pixels) (-16 * (pixels))

static void check_high_bits(void)
{
    begin_part("bitmaps, high bits");
    CHECK_LARGE("a drawn width of 512 + 2, its last columns", 511, "abc",
                LIST(BITMAP(L8, 600, 1, 2, 1), BITMAP_SIZE_H(1, 0), VERTEX2F(BEFORE(511), 0), DISPLAY()), "abc..");
    CHECK_LARGE("a drawn width of 3 * 512 + 1", 1535, "ab",
                LIST(BITMAP(L8, 600, 1, 1, 1), BITMAP_LAYOUT_H(1, 0), BITMAP_SIZE_H(3, 0),
                     VERTEX_TRANSLATE_X(BEFORE(1000)), VERTEX2F(BEFORE(535), 0), DISPLAY()),
                "ab..");
    CHECK_LARGE("a drawn height of 512 + 2", 511, "abc",
                LIST(BITMAP(L8, 1, 88, 1, 2), BITMAP_LAYOUT_H(0, 1), BITMAP_SIZE_H(0, 1), VERTEX2F(0, BEFORE(511)),
                     DISPLAY()),
                "a", "b", "c", ".");
    CHECK_LARGE("a stride of 1024 + 2: the second row", 1026, "ab",
                LIST(BITMAP(L8, 2, 2, 2, 2), BITMAP_LAYOUT_H(1, 0), VERTEX2F(0, BEFORE(1)), DISPLAY()), "ab.");
    CHECK_LARGE("a stride of 3 * 1024: cell 1", 3072, "ab",
                LIST(BITMAP(L8, 0, 1, 2, 1), BITMAP_LAYOUT_H(3, 0), VERTEX2II(0, 0, 0, 1), DISPLAY()), "ab.");
    CHECK_LARGE("a layout height of 512 + 1: cell 1", 1026, "ab",
                LIST(BITMAP(L8, 2, 1, 2, 1), BITMAP_LAYOUT_H(0, 1), VERTEX2II(0, 0, 0, 1), DISPLAY()), "ab.");
    CHECK_LARGE("a layout height of 3 * 512", 1536, "ab",
                LIST(BITMAP(L8, 1, 0, 1, 1), BITMAP_LAYOUT_H(0, 3), VERTEX2II(0, 0, 0, 1), DISPLAY()), "a.");
    CHECK_LARGE("the H words first, the main words leave their bits", 1026, "ab",
                LIST(BITMAP_LAYOUT_H(1, 0), BITMAP_SIZE_H(1, 0), BITMAP(L8, 2, 2, 2, 2), VERTEX2F(BEFORE(0), BEFORE(1)),
                     DISPLAY()),
                "ab0");
    CHECK_LARGE("the H words at 0 again", 2, "ab",
                LIST(BITMAP_LAYOUT_H(3, 3), BITMAP_SIZE_H(3, 3), BITMAP(L8, 2, 2, 2, 2), BITMAP_LAYOUT_H(0, 0),
                     BITMAP_SIZE_H(0, 0), VERTEX2F(0, BEFORE(1)), DISPLAY()),
                "ab.");
    CHECK_LARGE("the H words set the current handle", 1026, "ab",
                LIST(BITMAP_HANDLE(9), BITMAP_LAYOUT_H(3, 3), BITMAP_HANDLE(4), BITMAP(L8, 2, 2, 2, 2),
                     BITMAP_LAYOUT_H(1, 0), VERTEX2F(0, BEFORE(1)), DISPLAY()),
                "ab.");
}

void check_bitmaps_by_hand(void)
{
    CHECK_PICTURES("bitmaps, their places", places);
    CHECK_PICTURES("bitmaps, their measures", measures);
    CHECK_PICTURES("bitmaps, their cells", cells);
    CHECK_PICTURES("bitmaps, their formats", formats);
    CHECK_PICTURES("bitmaps, fields widened", widened);
    check_high_bits();
}
