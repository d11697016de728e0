/* What one pixel becomes: CLEAR, the tests, the stencil actions, the blend, the masks and the tag. Alpha and stencil do
   not come out, so SHOW_ALPHA and SHOW_STENCIL (hand_pictures.h) draw them. */
#include "pictures_by_hand.h"

#include <stdio.h>

#include "../shared/check.h"
#include "hand_pictures.h"

enum { MOST_NAME = 80 };

#define PIXEL(red, green, blue, tag) { red, green, blue, tag }

/* ---- CLEAR ---- */

static const hand_picture red_row[] = {
    { CASE("the list of document 01's rowshow"), LIST(0x02FF0000, 0x26000007, 0x00000000), SHOWS("rrrr"),
      WHERE({ 'r', { 255, 0, 0, 0 } }) },
};

#define CLEAR_VALUES CLEAR_COLOR_RGB(10, 20, 30), CLEAR_COLOR_A(40), CLEAR_STENCIL(50), CLEAR_TAG(60)

/* Each combination of flags, and what is then stored. */
static const struct {
    uint8_t colour, stencil, tag; /* the flags */
    uint8_t red, green, blue, alpha, stored_stencil, stored_tag;
} clears[] = {
    { 0, 0, 0, 0, 0, 0, 0, 0, 0 },
    { 0, 0, 1, 0, 0, 0, 0, 0, 60 },
    { 0, 1, 0, 0, 0, 0, 0, 50, 0 },
    { 0, 1, 1, 0, 0, 0, 0, 50, 60 },
    { 1, 0, 0, 10, 20, 30, 40, 0, 0 },
    { 1, 0, 1, 10, 20, 30, 40, 0, 60 },
    { 1, 1, 0, 10, 20, 30, 40, 50, 0 },
    { 1, 1, 1, 10, 20, 30, 40, 50, 60 },
};

static void check_clears(void)
{
    begin_part("CLEAR, each combination of its flags");
    for (size_t n = 0; n < LENGTH(clears); n++) {
        uint32_t clear = CLEAR(clears[n].colour, clears[n].stencil, clears[n].tag);
        uint8_t tag = clears[n].stored_tag, alpha = clears[n].alpha, stencil = clears[n].stored_stencil;
        char name[MOST_NAME];
        snprintf(name, sizeof name, "CLEAR %u, %u, %u", clears[n].colour, clears[n].stencil, clears[n].tag);
        CHECK_PIXEL(name, PIXEL(clears[n].red, clears[n].green, clears[n].blue, tag), CLEAR_VALUES, clear, DISPLAY());
        CHECK_PIXEL(name, PIXEL(alpha, alpha, alpha, tag), CLEAR_VALUES, clear, SHOW_ALPHA, DISPLAY());
        CHECK_PIXEL(name, PIXEL(stencil, stencil, stencil, tag), CLEAR_VALUES, clear, SHOW_STENCIL, DISPLAY());
    }
}

static void check_clear_under_masks(void)
{
    begin_part("CLEAR obeys the masks");
    CHECK_PIXEL("the tag mask", PIXEL(10, 20, 30, 0), CLEAR_VALUES, TAG_MASK(0), CLEAR(1, 1, 1), DISPLAY());
    CHECK_PIXEL("a stencil mask of 0", PIXEL(0, 0, 0, 60), CLEAR_VALUES, STENCIL_MASK(0), CLEAR(1, 1, 1), SHOW_STENCIL,
                DISPLAY());
    CHECK_PIXEL("the low bits of the stencil: 50 is 0x32", PIXEL(0x02, 0x02, 0x02, 60), CLEAR_VALUES,
                STENCIL_MASK(0x0F), CLEAR(1, 1, 1), SHOW_STENCIL, DISPLAY());
    CHECK_PIXEL("the high bits stay: 0x50 and 0x02", PIXEL(0x52, 0x52, 0x52, 60), CLEAR_VALUES, CLEAR_STENCIL(0x5A),
                CLEAR(0, 1, 0), CLEAR_STENCIL(0x32), STENCIL_MASK(0x0F), CLEAR(1, 1, 1), SHOW_STENCIL, DISPLAY());
    CHECK_PIXEL("all masks are 0", PIXEL(0, 0, 0, 0), CLEAR_VALUES, COLOR_MASK(0, 0, 0, 0), STENCIL_MASK(0),
                TAG_MASK(0), CLEAR(1, 1, 1), DISPLAY());
}

static void check_clear_without_tests(void)
{
    begin_part("CLEAR heeds no test and no blend");
    CHECK_PIXEL("the alpha test", PIXEL(10, 20, 30, 60), CLEAR_VALUES, ALPHA_FUNC(NEVER, 0), CLEAR(1, 1, 1), DISPLAY());
    CHECK_PIXEL("the stencil test", PIXEL(10, 20, 30, 60), CLEAR_VALUES, STENCIL_FUNC(NEVER, 0, 255), CLEAR(1, 1, 1),
                DISPLAY());
    CHECK_PIXEL("the stencil actions", PIXEL(50, 50, 50, 60), CLEAR_VALUES, STENCIL_OP(INVERT, INVERT), CLEAR(1, 1, 1),
                SHOW_STENCIL, DISPLAY());
    CHECK_PIXEL("the blend", PIXEL(10, 20, 30, 60), CLEAR_VALUES, BLEND_FUNC(ZERO, ZERO), CLEAR(1, 1, 1), DISPLAY());
    CHECK_PIXEL("colour, alpha and tag of what is drawn", PIXEL(10, 20, 30, 60), CLEAR_VALUES, COLOR_RGB(1, 2, 3),
                COLOR_A(4), TAG(5), CLEAR(1, 1, 1), DISPLAY());
    CHECK_PIXEL("what was there before", PIXEL(10, 20, 30, 60), CLEAR_VALUES, BEGIN_EVERYWHERE, EVERYWHERE,
                CLEAR(1, 1, 1), DISPLAY());
    CHECK_PIXEL("and its own starting values are 0", PIXEL(0, 0, 0, 0), BEGIN_EVERYWHERE, EVERYWHERE, CLEAR(1, 1, 1),
                DISPLAY());
}

/* ---- The colour mask ---- */

/* What was stored is 1, 2, 3 with alpha 4; what is written, 101, 102, 103 with alpha 104. */
static const struct {
    uint8_t mask[4], stored[4];
} colour_masks[] = {
    { { 0, 0, 0, 0 }, { 1, 2, 3, 4 } },         { { 1, 0, 0, 0 }, { 101, 2, 3, 4 } },
    { { 0, 1, 0, 0 }, { 1, 102, 3, 4 } },       { { 0, 0, 1, 0 }, { 1, 2, 103, 4 } },
    { { 0, 0, 0, 1 }, { 1, 2, 3, 104 } },       { { 1, 1, 0, 0 }, { 101, 102, 3, 4 } },
    { { 0, 1, 1, 0 }, { 1, 102, 103, 4 } },     { { 1, 0, 1, 0 }, { 101, 2, 103, 4 } },
    { { 1, 0, 0, 1 }, { 101, 2, 3, 104 } },     { { 0, 1, 0, 1 }, { 1, 102, 3, 104 } },
    { { 0, 0, 1, 1 }, { 1, 2, 103, 104 } },     { { 1, 1, 1, 0 }, { 101, 102, 103, 4 } },
    { { 0, 1, 1, 1 }, { 1, 102, 103, 104 } },   { { 1, 0, 1, 1 }, { 101, 2, 103, 104 } },
    { { 1, 1, 0, 1 }, { 101, 102, 3, 104 } },   { { 1, 1, 1, 1 }, { 101, 102, 103, 104 } },
};

#define CLEAR_TO_1_2_3_4 CLEAR_COLOR_RGB(1, 2, 3), CLEAR_COLOR_A(4), CLEAR(1, 1, 1)
#define CLEAR_TO_101 CLEAR_COLOR_RGB(101, 102, 103), CLEAR_COLOR_A(104), CLEAR(1, 0, 0)
#define DRAW_101                                                                                                       \
    COLOR_RGB(101, 102, 103), COLOR_A(104), TAG(9), BLEND_FUNC(ONE, ZERO), BEGIN_EVERYWHERE, EVERYWHERE

static void check_colour_masks(void)
{
    begin_part("the colour mask");
    for (size_t n = 0; n < LENGTH(colour_masks); n++) {
        const uint8_t *m = colour_masks[n].mask, *s = colour_masks[n].stored;
        uint32_t mask = COLOR_MASK(m[0], m[1], m[2], m[3]);
        char name[MOST_NAME];
        snprintf(name, sizeof name, "COLOR_MASK %u, %u, %u, %u", m[0], m[1], m[2], m[3]);
        CHECK_PIXEL(name, PIXEL(s[0], s[1], s[2], 0), CLEAR_TO_1_2_3_4, mask, CLEAR_TO_101, DISPLAY());
        CHECK_PIXEL(name, PIXEL(s[3], s[3], s[3], 0), CLEAR_TO_1_2_3_4, mask, CLEAR_TO_101, SHOW_ALPHA, DISPLAY());
        CHECK_PIXEL(name, PIXEL(s[0], s[1], s[2], 9), CLEAR_TO_1_2_3_4, mask, DRAW_101, DISPLAY());
        CHECK_PIXEL(name, PIXEL(s[3], s[3], s[3], 9), CLEAR_TO_1_2_3_4, mask, DRAW_101, SHOW_ALPHA, DISPLAY());
    }
}

/* ---- The tests ---- */

#define POINT_AT(x) VERTEX2II(x, 0, 0, 0)
#define BEGIN_PIXELS BEGIN(POINTS), POINT_SIZE(0), BLEND_FUNC(ONE, ZERO)

/* Three pixels drawn with alphas below, at and above the reference. The pixel's alpha stands left of the sign. */
#define ALPHA_TESTED(func)                                                                                             \
    LIST(BEGIN_PIXELS, ALPHA_FUNC(func, 100), COLOR_A(99), POINT_AT(0), COLOR_A(100), POINT_AT(1), COLOR_A(101),       \
         POINT_AT(2), DISPLAY())

static const hand_picture alpha_tests[] = {
    { CASE("NEVER"), ALPHA_TESTED(NEVER), SHOWS("...") },
    { CASE("LESS"), ALPHA_TESTED(LESS), SHOWS("#..") },
    { CASE("LEQUAL"), ALPHA_TESTED(LEQUAL), SHOWS("##.") },
    { CASE("GREATER"), ALPHA_TESTED(GREATER), SHOWS("..#") },
    { CASE("GEQUAL"), ALPHA_TESTED(GEQUAL), SHOWS(".##") },
    { CASE("EQUAL"), ALPHA_TESTED(EQUAL), SHOWS(".#.") },
    { CASE("NOTEQUAL"), ALPHA_TESTED(NOTEQUAL), SHOWS("#.#") },
    { CASE("ALWAYS"), ALPHA_TESTED(ALWAYS), SHOWS("###") },
    { CASE("at the ends: 0 is not less than 0, 255 not greater than 255"),
      LIST(BEGIN_PIXELS, COLOR_A(0), ALPHA_FUNC(LESS, 0), POINT_AT(0), ALPHA_FUNC(GEQUAL, 0), POINT_AT(1), COLOR_A(255),
           ALPHA_FUNC(GREATER, 255), POINT_AT(2), ALPHA_FUNC(LEQUAL, 255), POINT_AT(3), DISPLAY()),
      SHOWS(".#.#") },
};

#define STORE_STENCIL(x, stencil)                                                                                      \
    SCISSOR_XY(x, 0), SCISSOR_SIZE(1, 1), CLEAR_STENCIL(stencil), CLEAR(0, 1, 0)
#define FREE_SCISSOR SCISSOR_XY(0, 0), SCISSOR_SIZE(JV_MAX_SCISSOR, JV_MAX_SCISSOR)

/* Three pixels that store values below, at and above the reference. The reference stands left of the sign. */
#define STENCIL_TESTED(func)                                                                                           \
    LIST(STORE_STENCIL(0, 99), STORE_STENCIL(1, 100), STORE_STENCIL(2, 101), FREE_SCISSOR, BEGIN_PIXELS,               \
         STENCIL_FUNC(func, 100, 255), POINT_AT(0), POINT_AT(1), POINT_AT(2), DISPLAY())

/* The same by two bits alone, in which 0, 1 and 3 are stored and the reference is 1. */
#define STENCIL_TESTED_BY_LOW_BITS(func)                                                                               \
    LIST(STORE_STENCIL(0, 0xF4), STORE_STENCIL(1, 0x31), STORE_STENCIL(2, 0x07), FREE_SCISSOR, BEGIN_PIXELS,           \
         STENCIL_FUNC(func, 0x95, 3), POINT_AT(0), POINT_AT(1), POINT_AT(2), DISPLAY())

static const hand_picture stencil_tests[] = {
    { CASE("NEVER"), STENCIL_TESTED(NEVER), SHOWS("...") },
    { CASE("LESS"), STENCIL_TESTED(LESS), SHOWS("..#") },
    { CASE("LEQUAL"), STENCIL_TESTED(LEQUAL), SHOWS(".##") },
    { CASE("GREATER"), STENCIL_TESTED(GREATER), SHOWS("#..") },
    { CASE("GEQUAL"), STENCIL_TESTED(GEQUAL), SHOWS("##.") },
    { CASE("EQUAL"), STENCIL_TESTED(EQUAL), SHOWS(".#.") },
    { CASE("NOTEQUAL"), STENCIL_TESTED(NOTEQUAL), SHOWS("#.#") },
    { CASE("ALWAYS"), STENCIL_TESTED(ALWAYS), SHOWS("###") },
    { CASE("NEVER, masked"), STENCIL_TESTED_BY_LOW_BITS(NEVER), SHOWS("...") },
    { CASE("LESS, masked"), STENCIL_TESTED_BY_LOW_BITS(LESS), SHOWS("..#") },
    { CASE("LEQUAL, masked"), STENCIL_TESTED_BY_LOW_BITS(LEQUAL), SHOWS(".##") },
    { CASE("GREATER, masked"), STENCIL_TESTED_BY_LOW_BITS(GREATER), SHOWS("#..") },
    { CASE("GEQUAL, masked"), STENCIL_TESTED_BY_LOW_BITS(GEQUAL), SHOWS("##.") },
    { CASE("EQUAL, masked"), STENCIL_TESTED_BY_LOW_BITS(EQUAL), SHOWS(".#.") },
    { CASE("NOTEQUAL, masked"), STENCIL_TESTED_BY_LOW_BITS(NOTEQUAL), SHOWS("#.#") },
    { CASE("ALWAYS, masked"), STENCIL_TESTED_BY_LOW_BITS(ALWAYS), SHOWS("###") },
    { CASE("a mask of 0 makes all equal"),
      LIST(STORE_STENCIL(0, 1), FREE_SCISSOR, BEGIN_PIXELS, STENCIL_FUNC(EQUAL, 200, 0), POINT_AT(0),
           STENCIL_FUNC(NOTEQUAL, 200, 0), POINT_AT(1), DISPLAY()),
      SHOWS("#.") },
};

/* ---- Stencil actions ---- */

static const struct {
    uint8_t action, stored, ref, mask, after;
} stencil_actions_done[] = {
    { ZERO, 77, 5, 255, 0 },
    { KEEP, 77, 5, 255, 77 },
    { REPLACE, 77, 5, 255, 5 },
    { INCR, 77, 5, 255, 78 },
    { INCR, 254, 5, 255, 255 },
    { INCR, 255, 5, 255, 255 },
    { DECR, 77, 5, 255, 76 },
    { DECR, 1, 5, 255, 0 },
    { DECR, 0, 5, 255, 0 },
    { INVERT, 77, 5, 255, 178 },
    { INVERT, 0, 5, 255, 255 },
    { INVERT, 255, 5, 255, 0 },

    /* The mask selects the bits that are written of what the whole byte becomes. */
    { ZERO, 0xA5, 0x3C, 0x0F, 0xA0 },
    { KEEP, 0xA5, 0x3C, 0x0F, 0xA5 },
    { REPLACE, 0xA5, 0x3C, 0x0F, 0xAC },
    { INCR, 0xAF, 0x3C, 0x0F, 0xA0 }, /* 0xB0 */
    { INCR, 0xAF, 0x3C, 0xF0, 0xBF },
    { INCR, 0xFF, 0x3C, 0x0F, 0xFF },
    { DECR, 0xA0, 0x3C, 0x0F, 0xAF }, /* 0x9F */
    { DECR, 0xA0, 0x3C, 0xF0, 0x90 },
    { DECR, 0x00, 0x3C, 0xF0, 0x00 },
    { INVERT, 0xA5, 0x3C, 0x0F, 0xAA }, /* 0x5A */
    { REPLACE, 0xA5, 0x3C, 0x00, 0xA5 },
};

#define STORED(stencil) CLEAR_STENCIL(stencil), CLEAR(0, 1, 0)

/* The other of the two actions would leave another value, whatever the first does. */
static uint8_t other_action(uint8_t action)
{
    return action == INVERT ? KEEP : INVERT;
}

/* REPLACE has to store the reference itself, not what the test's mask leaves of it: 0x01 of each here. */
static void check_stencil_actions(void)
{
    begin_part("stencil actions");
    for (size_t n = 0; n < LENGTH(stencil_actions_done); n++) {
        uint8_t action = stencil_actions_done[n].action, stored = stencil_actions_done[n].stored;
        uint8_t ref = stencil_actions_done[n].ref, mask = stencil_actions_done[n].mask;
        uint8_t after = stencil_actions_done[n].after, other = other_action(action);
        char name[MOST_NAME];
        snprintf(name, sizeof name, "action %u on %u, mask %u, the test passed", action, stored, mask);
        CHECK_PIXEL(name, PIXEL(after, after, after, 255), STORED(stored), STENCIL_MASK(mask),
                    STENCIL_OP(other, action), STENCIL_FUNC(ALWAYS, ref, 1), BEGIN_EVERYWHERE, EVERYWHERE, SHOW_STENCIL,
                    DISPLAY());
        snprintf(name, sizeof name, "action %u on %u, mask %u, the test failed", action, stored, mask);
        CHECK_PIXEL(name, PIXEL(after, after, after, 0), STORED(stored), STENCIL_MASK(mask), STENCIL_OP(action, other),
                    STENCIL_FUNC(NEVER, ref, 1), BEGIN_EVERYWHERE, EVERYWHERE, SHOW_STENCIL, DISPLAY());
    }
}

static void check_order_of_tests(void)
{
    begin_part("alpha before stencil");
    CHECK_PIXEL("a failed alpha test leaves colour and tag", PIXEL(10, 20, 30, 60), CLEAR_VALUES, CLEAR(1, 1, 1),
                ALPHA_FUNC(NEVER, 0), BEGIN_EVERYWHERE, EVERYWHERE, DISPLAY());
    CHECK_PIXEL("and the stencil, were its test to pass", PIXEL(50, 50, 50, 60), CLEAR_VALUES, CLEAR(1, 1, 1),
                ALPHA_FUNC(NEVER, 0), STENCIL_OP(INCR, INCR), BEGIN_EVERYWHERE, EVERYWHERE, SHOW_STENCIL, DISPLAY());
    CHECK_PIXEL("or to fail", PIXEL(50, 50, 50, 60), CLEAR_VALUES, CLEAR(1, 1, 1), ALPHA_FUNC(NEVER, 0),
                STENCIL_FUNC(NEVER, 0, 255), STENCIL_OP(INCR, INCR), BEGIN_EVERYWHERE, EVERYWHERE, SHOW_STENCIL,
                DISPLAY());
    CHECK_PIXEL("a failed stencil test leaves colour and tag", PIXEL(10, 20, 30, 60), CLEAR_VALUES, CLEAR(1, 1, 1),
                STENCIL_FUNC(NEVER, 0, 255), STENCIL_OP(INCR, KEEP), BEGIN_EVERYWHERE, EVERYWHERE, DISPLAY());
    CHECK_PIXEL("and the alpha", PIXEL(40, 40, 40, 60), CLEAR_VALUES, CLEAR(1, 1, 1), STENCIL_FUNC(NEVER, 0, 255),
                BEGIN_EVERYWHERE, EVERYWHERE, SHOW_ALPHA, DISPLAY());
    CHECK_PIXEL("the stencil test sees what the last action stored", PIXEL(7, 7, 7, 255), STENCIL_OP(KEEP, INCR),
                STENCIL_FUNC(GEQUAL, 2, 255), BLEND_FUNC(ONE, ONE), BEGIN_EVERYWHERE, COLOR_RGB(1, 1, 1), EVERYWHERE,
                COLOR_RGB(2, 2, 2), EVERYWHERE, COLOR_RGB(4, 4, 4), EVERYWHERE, COLOR_RGB(8, 8, 8), EVERYWHERE,
                DISPLAY());
}

/* ---- Blending ---- */

/* Drawn is 220, 100, 50 with alpha 160, on 90, 60, 120 with alpha 48. So the factors are 0, 255, 160, 48, 95 and 207,
   and with SRC_ALPHA and ONE_MINUS_DST_ALPHA red, for one, becomes (220 * 160 + 90 * 207 + 127) / 255 = 211. */
static const struct {
    uint8_t src, dst;
    uint8_t after[4];
} blends[] = {
    { ZERO, ZERO, { 0, 0, 0, 0 } },
    { ZERO, ONE, { 90, 60, 120, 48 } },
    { ZERO, SRC_ALPHA, { 56, 38, 75, 30 } },
    { ZERO, DST_ALPHA, { 17, 11, 23, 9 } },
    { ZERO, ONE_MINUS_SRC_ALPHA, { 34, 22, 45, 18 } },
    { ZERO, ONE_MINUS_DST_ALPHA, { 73, 49, 97, 39 } },
    { ONE, ZERO, { 220, 100, 50, 160 } },
    { ONE, ONE, { 255, 160, 170, 208 } },
    { ONE, SRC_ALPHA, { 255, 138, 125, 190 } },
    { ONE, DST_ALPHA, { 237, 111, 73, 169 } },
    { ONE, ONE_MINUS_SRC_ALPHA, { 254, 122, 95, 178 } },
    { ONE, ONE_MINUS_DST_ALPHA, { 255, 149, 147, 199 } },
    { SRC_ALPHA, ZERO, { 138, 63, 31, 100 } },
    { SRC_ALPHA, ONE, { 228, 123, 151, 148 } },
    { SRC_ALPHA, SRC_ALPHA, { 195, 100, 107, 131 } },
    { SRC_ALPHA, DST_ALPHA, { 155, 74, 54, 109 } },
    { SRC_ALPHA, ONE_MINUS_SRC_ALPHA, { 172, 85, 76, 118 } },
    { SRC_ALPHA, ONE_MINUS_DST_ALPHA, { 211, 111, 129, 139 } },
    { DST_ALPHA, ZERO, { 41, 19, 9, 30 } },
    { DST_ALPHA, ONE, { 131, 79, 129, 78 } },
    { DST_ALPHA, SRC_ALPHA, { 98, 56, 85, 60 } },
    { DST_ALPHA, DST_ALPHA, { 58, 30, 32, 39 } },
    { DST_ALPHA, ONE_MINUS_SRC_ALPHA, { 75, 41, 54, 48 } },
    { DST_ALPHA, ONE_MINUS_DST_ALPHA, { 114, 68, 107, 69 } },
    { ONE_MINUS_SRC_ALPHA, ZERO, { 82, 37, 19, 60 } },
    { ONE_MINUS_SRC_ALPHA, ONE, { 172, 97, 139, 108 } },
    { ONE_MINUS_SRC_ALPHA, SRC_ALPHA, { 138, 75, 94, 90 } },
    { ONE_MINUS_SRC_ALPHA, DST_ALPHA, { 99, 49, 41, 69 } },
    { ONE_MINUS_SRC_ALPHA, ONE_MINUS_SRC_ALPHA, { 115, 60, 63, 77 } },
    { ONE_MINUS_SRC_ALPHA, ONE_MINUS_DST_ALPHA, { 155, 86, 116, 99 } },
    { ONE_MINUS_DST_ALPHA, ZERO, { 179, 81, 41, 130 } },
    { ONE_MINUS_DST_ALPHA, ONE, { 255, 141, 161, 178 } },
    { ONE_MINUS_DST_ALPHA, SRC_ALPHA, { 235, 119, 116, 160 } },
    { ONE_MINUS_DST_ALPHA, DST_ALPHA, { 196, 92, 63, 139 } },
    { ONE_MINUS_DST_ALPHA, ONE_MINUS_SRC_ALPHA, { 212, 104, 85, 148 } },
    { ONE_MINUS_DST_ALPHA, ONE_MINUS_DST_ALPHA, { 252, 130, 138, 169 } },
};

#define BLENDED(src, dst)                                                                                              \
    CLEAR_COLOR_RGB(90, 60, 120), CLEAR_COLOR_A(48), CLEAR(1, 1, 1), COLOR_RGB(220, 100, 50), COLOR_A(160),            \
        BLEND_FUNC(src, dst), BEGIN_EVERYWHERE, EVERYWHERE

static void check_blends(void)
{
    begin_part("blend factors");
    for (size_t n = 0; n < LENGTH(blends); n++) {
        const uint8_t *after = blends[n].after;
        char name[MOST_NAME];
        snprintf(name, sizeof name, "factors %u and %u", blends[n].src, blends[n].dst);
        CHECK_PIXEL(name, PIXEL(after[0], after[1], after[2], 255), BLENDED(blends[n].src, blends[n].dst), DISPLAY());
        CHECK_PIXEL(name, PIXEL(after[3], after[3], after[3], 255), BLENDED(blends[n].src, blends[n].dst), SHOW_ALPHA,
                    DISPLAY());
    }
}

static void check_blend_examples(void)
{
    begin_part("blending");
    CHECK_PIXEL("document 01's example 8: S 100, D 200, factors 128 and 127", PIXEL(150, 150, 150, 255),
                CLEAR_COLOR_RGB(200, 200, 200), CLEAR(1, 0, 0), COLOR_RGB(100, 100, 100), COLOR_A(128),
                BEGIN_EVERYWHERE, EVERYWHERE, DISPLAY());
    CHECK_PIXEL("document 01's example 9: S 200, D 100, both ONE", PIXEL(255, 255, 255, 255),
                CLEAR_COLOR_RGB(100, 100, 100), CLEAR(1, 0, 0), COLOR_RGB(200, 200, 200), BLEND_FUNC(ONE, ONE),
                BEGIN_EVERYWHERE, EVERYWHERE, DISPLAY());
    CHECK_PIXEL("alpha 0 leaves the colour and writes the tag", PIXEL(10, 20, 30, 255), CLEAR_VALUES, CLEAR(1, 1, 1),
                COLOR_A(0), BEGIN_EVERYWHERE, EVERYWHERE, DISPLAY());
    CHECK_PIXEL("alpha 255 covers it", PIXEL(1, 2, 3, 255), CLEAR_VALUES, CLEAR(1, 1, 1), COLOR_RGB(1, 2, 3),
                BEGIN_EVERYWHERE, EVERYWHERE, DISPLAY());
    CHECK_PIXEL("DST_ALPHA is 0 at the start", PIXEL(0, 0, 0, 255), BLEND_FUNC(DST_ALPHA, ZERO), BEGIN_EVERYWHERE,
                EVERYWHERE, DISPLAY());
    CHECK_PIXEL("DST_ALPHA is what the action before stored: (255 * 40 + 127) / 255", PIXEL(40, 40, 40, 255),
                BEGIN_EVERYWHERE, COLOR_MASK(0, 0, 0, 1), BLEND_FUNC(ONE, ZERO), COLOR_A(40), EVERYWHERE,
                COLOR_MASK(1, 1, 1, 1), BLEND_FUNC(DST_ALPHA, ZERO), EVERYWHERE, DISPLAY());
    CHECK_PIXEL("and not what this one stores: alpha becomes (200 * 40 + 127) / 255", PIXEL(31, 31, 31, 255),
                BEGIN_EVERYWHERE, COLOR_MASK(0, 0, 0, 1), BLEND_FUNC(ONE, ZERO), COLOR_A(40), EVERYWHERE,
                COLOR_MASK(1, 1, 1, 1), BLEND_FUNC(DST_ALPHA, ZERO), COLOR_A(200), EVERYWHERE, SHOW_ALPHA, DISPLAY());
    CHECK_PIXEL("half is rounded down: (1 * 127 + 127) / 255 is below 1", PIXEL(0, 0, 0, 255), COLOR_RGB(1, 1, 1),
                COLOR_A(127), BLEND_FUNC(SRC_ALPHA, ZERO), BEGIN_EVERYWHERE, EVERYWHERE, DISPLAY());
    CHECK_PIXEL("more than half up: (1 * 128 + 127) / 255 is 1", PIXEL(1, 1, 1, 255), COLOR_RGB(1, 1, 1), COLOR_A(128),
                BLEND_FUNC(SRC_ALPHA, ZERO), BEGIN_EVERYWHERE, EVERYWHERE, DISPLAY());
}

/* ---- Tags and contexts ---- */

static void check_tags(void)
{
    begin_part("tags");
    CHECK_PIXEL("the starting tag is 255", PIXEL(255, 255, 255, 255), BEGIN_EVERYWHERE, EVERYWHERE, DISPLAY());
    CHECK_PIXEL("TAG 7", PIXEL(255, 255, 255, 7), TAG(7), BEGIN_EVERYWHERE, EVERYWHERE, DISPLAY());
    CHECK_PIXEL("TAG 0 is written", PIXEL(255, 255, 255, 0), TAG(7), BEGIN_EVERYWHERE, EVERYWHERE, TAG(0), EVERYWHERE,
                DISPLAY());
    CHECK_PIXEL("TAG_MASK 0 leaves the tag", PIXEL(255, 255, 255, 60), CLEAR_VALUES, CLEAR(1, 1, 1), TAG_MASK(0),
                BEGIN_EVERYWHERE, EVERYWHERE, DISPLAY());
    CHECK_PIXEL("TAG_MASK 0 leaves a tag of 0", PIXEL(255, 255, 255, 0), TAG_MASK(0), BEGIN_EVERYWHERE, EVERYWHERE,
                DISPLAY());
    CHECK_PIXEL("TAG_MASK 1 again", PIXEL(255, 255, 255, 255), TAG_MASK(0), TAG_MASK(1), BEGIN_EVERYWHERE, EVERYWHERE,
                DISPLAY());
    CHECK_PIXEL("whatever the colour mask does", PIXEL(0, 0, 0, 7), TAG(7), COLOR_MASK(0, 0, 0, 0), BEGIN_EVERYWHERE,
                EVERYWHERE, DISPLAY());
    CHECK_PIXEL("not where the alpha test fails", PIXEL(0, 0, 0, 0), ALPHA_FUNC(NEVER, 0), BEGIN_EVERYWHERE, EVERYWHERE,
                DISPLAY());
    CHECK_PIXEL("not where the stencil test fails", PIXEL(0, 0, 0, 0), STENCIL_FUNC(NEVER, 0, 255), BEGIN_EVERYWHERE,
                EVERYWHERE, DISPLAY());
}

static void check_contexts(void)
{
    begin_part("contexts");
    CHECK_PIXEL("a restored colour and tag", PIXEL(1, 2, 3, 4), COLOR_RGB(1, 2, 3), TAG(4), SAVE_CONTEXT(),
                COLOR_RGB(9, 9, 9), TAG(9), RESTORE_CONTEXT(), BEGIN_EVERYWHERE, EVERYWHERE, DISPLAY());
    CHECK_PIXEL("restored masks", PIXEL(255, 255, 255, 255), SAVE_CONTEXT(), COLOR_MASK(0, 0, 0, 0), TAG_MASK(0),
                RESTORE_CONTEXT(), BEGIN_EVERYWHERE, EVERYWHERE, DISPLAY());
    CHECK_PIXEL("a restored stencil mask", PIXEL(9, 9, 9, 255), SAVE_CONTEXT(), STENCIL_MASK(0), RESTORE_CONTEXT(),
                STENCIL_FUNC(ALWAYS, 9, 0), STENCIL_OP(KEEP, REPLACE), BEGIN_EVERYWHERE, EVERYWHERE, SHOW_STENCIL,
                DISPLAY());
    CHECK_PIXEL("document 01's example 11, the fourth restore: alpha 2 of white on black", PIXEL(2, 2, 2, 255),
                COLOR_A(1), SAVE_CONTEXT(), COLOR_A(2), SAVE_CONTEXT(), COLOR_A(3), SAVE_CONTEXT(), COLOR_A(4),
                SAVE_CONTEXT(), COLOR_A(5), SAVE_CONTEXT(), RESTORE_CONTEXT(), RESTORE_CONTEXT(), RESTORE_CONTEXT(),
                RESTORE_CONTEXT(), BEGIN_EVERYWHERE, EVERYWHERE, DISPLAY());
    CHECK_PIXEL("and the fifth: the starting values", PIXEL(255, 255, 255, 255), COLOR_A(1), SAVE_CONTEXT(), COLOR_A(2),
                SAVE_CONTEXT(), COLOR_A(3), SAVE_CONTEXT(), COLOR_A(4), SAVE_CONTEXT(), COLOR_A(5), SAVE_CONTEXT(),
                RESTORE_CONTEXT(), RESTORE_CONTEXT(), RESTORE_CONTEXT(), RESTORE_CONTEXT(), RESTORE_CONTEXT(),
                BEGIN_EVERYWHERE, EVERYWHERE, DISPLAY());
    CHECK_PIXEL("a colour set after an action is the next one's", PIXEL(4, 4, 4, 5), BEGIN_EVERYWHERE, EVERYWHERE,
                COLOR_RGB(4, 4, 4), TAG(5), EVERYWHERE, COLOR_RGB(6, 6, 6), TAG(7), DISPLAY());
}

void check_pixels_by_hand(void)
{
    CHECK_PICTURES("a red row", red_row);
    check_clears();
    check_clear_under_masks();
    check_clear_without_tests();
    check_colour_masks();
    CHECK_PICTURES("the alpha test", alpha_tests);
    CHECK_PICTURES("the stencil test", stencil_tests);
    check_stencil_actions();
    check_order_of_tests();
    check_blends();
    check_blend_examples();
    check_tags();
    check_contexts();
}
