/* Words read and written one at a time: by hand, at the limits of every field, for every top byte, and refused. */
#include <inttypes.h>
#include <stddef.h>
#include <stdio.h>

#include "../second/guide.h"
#include "../shared/check.h"

_Static_assert(sizeof(jv_word) == 28, "a word's answer is seven numbers");
_Static_assert(sizeof(jv_bits) == 8, "a written word's answer is two numbers");

#define LENGTH(array) (sizeof(array) / sizeof((array)[0]))

/* ---- One word ---- */

/* Both return what came, for checks that go on from there. */
#define CHECK_READ(bits, want) check_read(__FILE__, __LINE__, bits, want)
#define CHECK_WRITE(instruction, want) check_write(__FILE__, __LINE__, instruction, want)

static void print_word(const char *before, jv_word w)
{
    printf("%s number %" PRIu32 ", command 0x%02" PRIX32 ", fields 0x%" PRIX32 " 0x%" PRIX32 " 0x%" PRIX32 " 0x%" PRIX32
           " 0x%" PRIX32 "\n",
           before, w.number, w.command, w.a, w.b, w.c, w.d, w.e);
}

static bool are_equal_words(jv_word v, jv_word w)
{
    return v.number == w.number && v.command == w.command && v.a == w.a && v.b == w.b && v.c == w.c && v.d == w.d &&
           v.e == w.e;
}

static jv_word check_read(const char *file, int line, uint32_t bits, jv_word want)
{
    jv_word came = jv_read_word(bits);
    if (is_to_be_told(file, line, are_equal_words(came, want))) {
        printf("jv_read_word(0x%08" PRIX32 ")\n", bits);
        print_word("    came:   ", came);
        print_word("    wanted: ", want);
    }
    return came;
}

static jv_bits check_write(const char *file, int line, instruction i, jv_bits want)
{
    const uint32_t *value = i.field;
    jv_bits came = jv_write_word(i.command, value[0], value[1], value[2], value[3], value[4]);
    if (is_to_be_told(file, line, came.number == want.number && came.bits == want.bits)) {
        printf("jv_write_word(0x%02" PRIX32 ", 0x%" PRIX32 ", 0x%" PRIX32 ", 0x%" PRIX32 ", 0x%" PRIX32 ", 0x%" PRIX32
               ")\n",
               i.command, value[0], value[1], value[2], value[3], value[4]);
        printf("    came:    number %" PRIu32 ", bits 0x%08" PRIX32 "\n", came.number, came.bits);
        printf("    wanted:  number %" PRIu32 ", bits 0x%08" PRIX32 "\n", want.number, want.bits);
    }
    return came;
}

/* ---- The words ---- */

static const struct {
    uint32_t bits;
    instruction instruction;
} by_hand[] = {
    /* Document 01's examples 1 to 5. */
    { 0x40F00110, { JV_VERTEX2F, { 480, 272 } } },
    { 0x7FF80000, { JV_VERTEX2F, { (uint32_t)-16, 0 } } },
    { 0x9B86EFD4, { JV_VERTEX2II, { 220, 110, 31, 84 } } },
    { 0x1C05003C, { JV_SCISSOR_SIZE, { 80, 60 } } },
    { 0x1C800800, { JV_SCISSOR_SIZE, { JV_MAX_SCISSOR, JV_MAX_SCISSOR } } },

    /* One of each command, no two fields of a word alike. */
    { 0x00000000, { JV_DISPLAY, { 0 } } },
    { 0x010FFFFE, { JV_BITMAP_SOURCE, { 1048574 } } },
    { 0x02112233, { JV_CLEAR_COLOR_RGB, { 0x11, 0x22, 0x33 } } },
    { 0x03000038, { JV_TAG, { 56 } } },
    { 0x04FF6432, { JV_COLOR_RGB, { 255, 100, 50 } } },
    { 0x0500001F, { JV_BITMAP_HANDLE, { 31 } } },
    { 0x06000047, { JV_CELL, { 71 } } },
    { 0x07390040, { JV_BITMAP_LAYOUT, { JV_FORMAT_RGB565, 128, 64 } } },
    { 0x08148030, { JV_BITMAP_SIZE, { JV_FILTER_BILINEAR, JV_WRAP_BORDER, JV_WRAP_REPEAT, 64, 48 } } },
    { 0x080BFE01, { JV_BITMAP_SIZE, { JV_FILTER_NEAREST, JV_WRAP_REPEAT, JV_WRAP_BORDER, 511, 1 } } },
    { 0x09000480, { JV_ALPHA_FUNC, { JV_TEST_GEQUAL, 128 } } },
    { 0x0A0502FF, { JV_STENCIL_FUNC, { JV_TEST_EQUAL, 2, 255 } } },
    { 0x0B000014, { JV_BLEND_FUNC, { JV_FACTOR_SRC_ALPHA, JV_FACTOR_ONE_MINUS_SRC_ALPHA } } },
    { 0x0C00000B, { JV_STENCIL_OP, { JV_ACTION_KEEP, JV_ACTION_INCR } } },
    { 0x0D0000A0, { JV_POINT_SIZE, { 160 } } },
    { 0x0E000050, { JV_LINE_WIDTH, { 80 } } },
    { 0x0F0000C8, { JV_CLEAR_COLOR_A, { 200 } } },
    { 0x10000080, { JV_COLOR_A, { 128 } } },
    { 0x11000007, { JV_CLEAR_STENCIL, { 7 } } },
    { 0x12000009, { JV_CLEAR_TAG, { 9 } } },
    { 0x130000F0, { JV_STENCIL_MASK, { 240 } } },
    { 0x14000001, { JV_TAG_MASK, { 1 } } },
    { 0x15000080, { JV_BITMAP_TRANSFORM_A, { 128 } } },
    { 0x1601FFFF, { JV_BITMAP_TRANSFORM_B, { (uint32_t)-1 } } },
    { 0x17FFFF00, { JV_BITMAP_TRANSFORM_C, { (uint32_t)-256 } } },
    { 0x18010000, { JV_BITMAP_TRANSFORM_D, { (uint32_t)-65536 } } },
    { 0x1900FFFF, { JV_BITMAP_TRANSFORM_E, { 65535 } } },
    { 0x1A7FFFFF, { JV_BITMAP_TRANSFORM_F, { 8388607 } } },
    { 0x1A800000, { JV_BITMAP_TRANSFORM_F, { (uint32_t)-8388608 } } },
    { 0x1B01401E, { JV_SCISSOR_XY, { 40, 30 } } },
    { 0x1C001000, { JV_SCISSOR_SIZE, { 1, 0 } } },
    { 0x1D001FFC, { JV_CALL, { 8188 } } },
    { 0x1E00FFFF, { JV_JUMP, { 65535 } } },
    { 0x1F000009, { JV_BEGIN, { JV_PRIMITIVE_RECTS } } },
    { 0x2000000B, { JV_COLOR_MASK, { 1, 0, 1, 1 } } },
    { 0x20000006, { JV_COLOR_MASK, { 0, 1, 1, 0 } } },
    { 0x21000000, { JV_END, { 0 } } },
    { 0x22000000, { JV_SAVE_CONTEXT, { 0 } } },
    { 0x23000000, { JV_RESTORE_CONTEXT, { 0 } } },
    { 0x24000000, { JV_RETURN, { 0 } } },
    { 0x25000001, { JV_MACRO, { 1 } } },
    { 0x26000006, { JV_CLEAR, { 1, 1, 0 } } },
    { 0x26000001, { JV_CLEAR, { 0, 0, 1 } } },
    { 0x27000003, { JV_VERTEX_FORMAT, { 3 } } },
    { 0x28000006, { JV_BITMAP_LAYOUT_H, { 1, 2 } } },
    { 0x2900000D, { JV_BITMAP_SIZE_H, { 3, 1 } } },
    { 0x2A3FFFFF, { JV_PALETTE_SOURCE, { 4194303 } } },
    { 0x2B01FFF0, { JV_VERTEX_TRANSLATE_X, { (uint32_t)-16 } } },
    { 0x2C001000, { JV_VERTEX_TRANSLATE_Y, { 4096 } } },
    { 0x2D000000, { JV_NOP, { 0 } } },
    { 0x60003FFF, { JV_VERTEX2F, { (uint32_t)-16384, 16383 } } },
    { 0x5FFFC000, { JV_VERTEX2F, { 16383, (uint32_t)-16384 } } },
    { 0xBFE01080, { JV_VERTEX2II, { 511, 1, 1, 0 } } },

    /* Accepted, though a user might expect a refusal. */
    { 0x0E000000, { JV_LINE_WIDTH, { 0 } } },
    { 0x03000000, { JV_TAG, { 0 } } },
    { 0x1D002000, { JV_CALL, { 8192 } } },
    { 0x1D00FFFF, { JV_CALL, { 65535 } } },
    { 0x1E001FFD, { JV_JUMP, { 8189 } } },
    { 0x1F000003, { JV_BEGIN, { JV_PRIMITIVE_LINES } } },
    { 0x1F000004, { JV_BEGIN, { JV_PRIMITIVE_LINE_STRIP } } },
    { 0x1F000005, { JV_BEGIN, { JV_PRIMITIVE_EDGE_STRIP_R } } },
    { 0x1F000006, { JV_BEGIN, { JV_PRIMITIVE_EDGE_STRIP_L } } },
    { 0x1F000007, { JV_BEGIN, { JV_PRIMITIVE_EDGE_STRIP_A } } },
    { 0x1F000008, { JV_BEGIN, { JV_PRIMITIVE_EDGE_STRIP_B } } },
    { 0x25000000, { JV_MACRO, { 0 } } },
    { 0x07000000, { JV_BITMAP_LAYOUT, { 0, 0, 0 } } },
    { 0x07080000, { JV_BITMAP_LAYOUT, { 1, 0, 0 } } },
    { 0x07100000, { JV_BITMAP_LAYOUT, { 2, 0, 0 } } },
    { 0x07180000, { JV_BITMAP_LAYOUT, { 3, 0, 0 } } },
    { 0x07200000, { JV_BITMAP_LAYOUT, { 4, 0, 0 } } },
    { 0x07280000, { JV_BITMAP_LAYOUT, { 5, 0, 0 } } },
    { 0x07300000, { JV_BITMAP_LAYOUT, { 6, 0, 0 } } },
    { 0x07380000, { JV_BITMAP_LAYOUT, { 7, 0, 0 } } },
    { 0x07480000, { JV_BITMAP_LAYOUT, { 9, 0, 0 } } },
    { 0x07500000, { JV_BITMAP_LAYOUT, { 10, 0, 0 } } },
    { 0x07580000, { JV_BITMAP_LAYOUT, { 11, 0, 0 } } },
    { 0x07700000, { JV_BITMAP_LAYOUT, { 14, 0, 0 } } },
    { 0x07780000, { JV_BITMAP_LAYOUT, { 15, 0, 0 } } },
    { 0x07800000, { JV_BITMAP_LAYOUT, { 16, 0, 0 } } },
    { 0x07880000, { JV_BITMAP_LAYOUT, { 17, 0, 0 } } },
    { 0x08100000, { JV_BITMAP_SIZE, { 1, 0, 0, 0, 0 } } },
    { 0x08080000, { JV_BITMAP_SIZE, { 0, 1, 0, 0, 0 } } },
    { 0x08040000, { JV_BITMAP_SIZE, { 0, 0, 1, 0, 0 } } },
    { 0x0A070000, { JV_STENCIL_FUNC, { 7, 0, 0 } } },
    { 0x0B00002D, { JV_BLEND_FUNC, { 5, 5 } } },
    { 0x0C00002D, { JV_STENCIL_OP, { 5, 5 } } },
    { 0x27000004, { JV_VERTEX_FORMAT, { 4 } } },
    { 0x8000007F, { JV_VERTEX2II, { 0, 0, 0, 127 } } },
};

static void check_by_hand(void)
{
    begin_part("worked by hand");
    for (size_t n = 0; n < LENGTH(by_hand); n++) {
        CHECK_READ(by_hand[n].bits, as_word(by_hand[n].instruction));
        CHECK_WRITE(by_hand[n].instruction, as_bits(by_hand[n].bits));
    }
    begin_part("document 01, example 5");
    CHECK_READ(0x1C801800, refused_word(12));
}

/* The guide keeps 15 for its coprocessor and 16 up for its fonts; as fields of a word they are like any other. */
static void check_high_handles(void)
{
    begin_part("handles 15 to 31");
    for (uint32_t handle = 15; handle <= 31; handle++) {
        CHECK_READ(0x05000000 | handle, as_word(instruct(JV_BITMAP_HANDLE, handle, 0, 0, 0, 0)));
        CHECK_WRITE(instruct(JV_BITMAP_HANDLE, handle, 0, 0, 0, 0), as_bits(0x05000000 | handle));
        CHECK_READ(0x80000000 | handle << 7, as_word(instruct(JV_VERTEX2II, 0, 0, handle, 0, 0)));
        CHECK_WRITE(instruct(JV_VERTEX2II, 0, 0, handle, 0, 0), as_bits(0x80000000 | handle << 7));
    }
}

static void check_reserved_bits(void)
{
    begin_part("reserved bits, read");
    CHECK_READ(0x00FFFFFF, as_word(instruct(JV_DISPLAY, 0, 0, 0, 0, 0)));
    CHECK_READ(0x01C00002, as_word(instruct(JV_BITMAP_SOURCE, 2, 0, 0, 0, 0)));
    CHECK_READ(0x03FFFF05, as_word(instruct(JV_TAG, 5, 0, 0, 0, 0)));
    CHECK_READ(0x09FFFF80, as_word(instruct(JV_ALPHA_FUNC, 7, 128, 0, 0, 0)));
    CHECK_READ(0x0AF102FF, as_word(instruct(JV_STENCIL_FUNC, 1, 2, 255, 0, 0)));
    CHECK_READ(0x14FFFFFE, as_word(instruct(JV_TAG_MASK, 0, 0, 0, 0, 0)));
    CHECK_READ(0x15FEFFFF, as_word(instruct(JV_BITMAP_TRANSFORM_A, 65535, 0, 0, 0, 0)));
    CHECK_READ(0x25FFFFFE, as_word(instruct(JV_MACRO, 0, 0, 0, 0, 0)));
    CHECK_READ(0x27FFFFFC, as_word(instruct(JV_VERTEX_FORMAT, 4, 0, 0, 0, 0)));
    CHECK_READ(0x2DFFFFFF, as_word(instruct(JV_NOP, 0, 0, 0, 0, 0)));
}

/* One field at one value, the others as given: written, and read as far as its bits can hold it. */
static void check_field_at(const entry *e, unsigned n, uint32_t value, instruction others)
{
    instruction i = others;
    i.field[n] = value;
    CHECK_WRITE(i, guide_write(i));
    if (!is_held(&e->field[n], value))
        return;
    CHECK_READ(place_fields(e, i.field), is_meant(&e->field[n], value) ? as_word(i) : refused_word(12));
}

static void check_field(const entry *e, unsigned n, instruction others)
{
    const field *f = &e->field[n];
    const uint32_t values[] = {
        least_held(f),
        least_meant(f),
        largest_meant(f),
        largest_meant(f) + 1,
        largest_held(f),
        largest_held(f) + 1,
        least_held(f) - 1,
        /* In a signed field the unsigned reading of -1, which has the right bits and is still no number of its. */
        2 * largest_held(f) + 1,
        0x80000000,
        0xFFFFFFFF,
    };
    for (size_t v = 0; v < LENGTH(values); v++)
        check_field_at(e, n, values[v], others);
}

static void check_limits(void)
{
    for (const entry *e = guide; e < guide + COMMANDS; e++) {
        begin_part(e->name);
        instruction zeros = { .command = e->command };
        instruction largest = zeros;
        for (unsigned n = 0; n < e->fields; n++)
            largest.field[n] = largest_meant(&e->field[n]);
        for (unsigned n = 0; n < e->fields; n++) {
            check_field(e, n, zeros);
            check_field(e, n, largest);
        }
        if (e->fields == 0) {
            CHECK_WRITE(zeros, as_bits(e->command << 24));
            CHECK_READ(e->command << 24, as_word(zeros));
        }
    }
}

static void check_top_bytes(void)
{
    static const uint32_t low_bits[] = { 0x000000, 0xFFFFFF, 0x555555, 0xAAAAAA, 0x000001,
                                         0x800000, 0x00FF00, 0x012345, 0xFEDCBA };
    begin_part("top bytes, read");
    for (uint32_t top = 0x00; top <= 0xFF; top++)
        for (size_t n = 0; n < LENGTH(low_bits); n++) {
            uint32_t bits = top << 24 | low_bits[n];
            bool is_command = top <= 0x2D || (0x40 <= top && top <= 0xBF);
            CHECK_READ(bits, is_command ? guide_read(bits) : refused_word(11));
        }
}

static void check_unknown_commands(void)
{
    begin_part("unknown commands, written");
    for (uint32_t command = 0x2E; command <= 0x100; command++) {
        if (command == 0x40 || command == 0x80)
            continue;
        CHECK_WRITE(instruct(command, 0, 0, 0, 0, 0), refused_bits(11));
        CHECK_WRITE(instruct(command, 1, 2, 3, 4, 5), refused_bits(11));
        CHECK_WRITE(instruct(command, 0, 0, 0, 0, 0xFFFFFFFF), refused_bits(11));
    }
    CHECK_WRITE(instruct(0x01000000, 0, 0, 0, 0, 0), refused_bits(11));
    CHECK_WRITE(instruct(0x80000000, 0, 0, 0, 0, 0), refused_bits(11));
    CHECK_WRITE(instruct(0xFFFFFFFF, 0, 0, 0, 0, 0), refused_bits(11));
    CHECK_WRITE(instruct(0xFFFFFFFF, 1, 1, 1, 1, 1), refused_bits(11));
}

/* A value without meaning in one field, the word's other fields 0. */
static void check_refused(uint32_t bits, uint32_t command, uint32_t a, uint32_t b)
{
    CHECK_READ(bits, refused_word(12));
    CHECK_WRITE(instruct(command, a, b, 0, 0, 0), refused_bits(12));
}

static void check_values_without_meaning(void)
{
    begin_part("test function above ALWAYS");
    for (uint32_t func = JV_TEST_ALWAYS + 1; func <= 15; func++) {
        check_refused(0x0A000000 | func << 16, JV_STENCIL_FUNC, func, 0);
        CHECK_WRITE(instruct(JV_ALPHA_FUNC, func, 0, 0, 0, 0), refused_bits(12));
    }
    begin_part("stencil action above INVERT");
    for (uint32_t action = JV_ACTION_INVERT + 1; action <= 7; action++) {
        check_refused(0x0C000000 | action << 3, JV_STENCIL_OP, action, 0);
        check_refused(0x0C000000 | action, JV_STENCIL_OP, 0, action);
    }
    begin_part("blend factor above ONE_MINUS_DST_ALPHA");
    for (uint32_t factor = JV_FACTOR_ONE_MINUS_DST_ALPHA + 1; factor <= 7; factor++) {
        check_refused(0x0B000000 | factor << 3, JV_BLEND_FUNC, factor, 0);
        check_refused(0x0B000000 | factor, JV_BLEND_FUNC, 0, factor);
    }
    begin_part("primitive 0 or above RECTS");
    check_refused(0x1F000000, JV_BEGIN, 0, 0);
    for (uint32_t prim = JV_PRIMITIVE_RECTS + 1; prim <= 15; prim++)
        check_refused(0x1F000000 | prim, JV_BEGIN, prim, 0);
    begin_part("format without meaning");
    check_refused(0x07400000, JV_BITMAP_LAYOUT, 8, 0);
    check_refused(0x07600000, JV_BITMAP_LAYOUT, 12, 0);
    check_refused(0x07680000, JV_BITMAP_LAYOUT, 13, 0);
    for (uint32_t format = JV_FORMAT_L2 + 1; format <= 31; format++)
        check_refused(0x07000000 | format << 19, JV_BITMAP_LAYOUT, format, 0);
    begin_part("frac too large");
    for (uint32_t frac = JV_MAX_FRAC + 1; frac <= 7; frac++)
        check_refused(0x27000000 | frac, JV_VERTEX_FORMAT, frac, 0);
    begin_part("scissor width or height too large");
    for (uint32_t size = JV_MAX_SCISSOR + 1; size <= 4095; size++) {
        check_refused(0x1C000000 | size << 12, JV_SCISSOR_SIZE, size, 0);
        check_refused(0x1C000000 | size, JV_SCISSOR_SIZE, 0, size);
    }
}

static void check_fields_too_many(void)
{
    static const uint32_t extras[] = { 1, 0x80, 0x80000000, 0xFFFFFFFF };
    begin_part("a field that the command does not have");
    CHECK_WRITE(instruct(JV_DISPLAY, 1, 0, 0, 0, 0), refused_bits(12));
    CHECK_WRITE(instruct(JV_TAG, 0, 1, 0, 0, 0), refused_bits(12));
    CHECK_WRITE(instruct(JV_VERTEX2F, 0, 0, 1, 0, 0), refused_bits(12));
    CHECK_WRITE(instruct(JV_CLEAR, 0, 0, 0, 1, 0), refused_bits(12));
    CHECK_WRITE(instruct(JV_VERTEX2II, 0, 0, 0, 0, 1), refused_bits(12));
    for (const entry *e = guide; e < guide + COMMANDS; e++)
        for (unsigned n = e->fields; n < FIELDS; n++)
            for (size_t x = 0; x < LENGTH(extras); x++) {
                instruction i = { .command = e->command };
                if (e->fields > 0)
                    i.field[0] = least_meant(&e->field[0]);
                i.field[n] = extras[x];
                CHECK_WRITE(i, refused_bits(12));
            }
}

/* The bits that each command has: its own top bits and its fields. All others are reserved. */
static const struct {
    uint32_t command, mask;
} had_bits[COMMANDS] = {
    { JV_DISPLAY, 0xFF000000 },
    { JV_BITMAP_SOURCE, 0xFF3FFFFF },
    { JV_CLEAR_COLOR_RGB, 0xFFFFFFFF },
    { JV_TAG, 0xFF0000FF },
    { JV_COLOR_RGB, 0xFFFFFFFF },
    { JV_BITMAP_HANDLE, 0xFF00001F },
    { JV_CELL, 0xFF00007F },
    { JV_BITMAP_LAYOUT, 0xFFFFFFFF },
    { JV_BITMAP_SIZE, 0xFF1FFFFF },
    { JV_ALPHA_FUNC, 0xFF0007FF },
    { JV_STENCIL_FUNC, 0xFF0FFFFF },
    { JV_BLEND_FUNC, 0xFF00003F },
    { JV_STENCIL_OP, 0xFF00003F },
    { JV_POINT_SIZE, 0xFF001FFF },
    { JV_LINE_WIDTH, 0xFF000FFF },
    { JV_CLEAR_COLOR_A, 0xFF0000FF },
    { JV_COLOR_A, 0xFF0000FF },
    { JV_CLEAR_STENCIL, 0xFF0000FF },
    { JV_CLEAR_TAG, 0xFF0000FF },
    { JV_STENCIL_MASK, 0xFF0000FF },
    { JV_TAG_MASK, 0xFF000001 },
    { JV_BITMAP_TRANSFORM_A, 0xFF01FFFF },
    { JV_BITMAP_TRANSFORM_B, 0xFF01FFFF },
    { JV_BITMAP_TRANSFORM_C, 0xFFFFFFFF },
    { JV_BITMAP_TRANSFORM_D, 0xFF01FFFF },
    { JV_BITMAP_TRANSFORM_E, 0xFF01FFFF },
    { JV_BITMAP_TRANSFORM_F, 0xFFFFFFFF },
    { JV_SCISSOR_XY, 0xFF3FFFFF },
    { JV_SCISSOR_SIZE, 0xFFFFFFFF },
    { JV_CALL, 0xFF00FFFF },
    { JV_JUMP, 0xFF00FFFF },
    { JV_BEGIN, 0xFF00000F },
    { JV_COLOR_MASK, 0xFF00000F },
    { JV_END, 0xFF000000 },
    { JV_SAVE_CONTEXT, 0xFF000000 },
    { JV_RESTORE_CONTEXT, 0xFF000000 },
    { JV_RETURN, 0xFF000000 },
    { JV_MACRO, 0xFF000001 },
    { JV_CLEAR, 0xFF000007 },
    { JV_VERTEX_FORMAT, 0xFF000007 },
    { JV_BITMAP_LAYOUT_H, 0xFF00000F },
    { JV_BITMAP_SIZE_H, 0xFF00000F },
    { JV_PALETTE_SOURCE, 0xFF3FFFFF },
    { JV_VERTEX_TRANSLATE_X, 0xFF01FFFF },
    { JV_VERTEX_TRANSLATE_Y, 0xFF01FFFF },
    { JV_NOP, 0xFF000000 },
    { JV_VERTEX2F, 0xFFFFFFFF },
    { JV_VERTEX2II, 0xFFFFFFFF },
};

/* A word that is read is written again without its reserved bits. */
static void check_had_bits(void)
{
    static const uint32_t low_bits[] = { 0xFFFFFF, 0x555555, 0xAAAAAA, 0xFEDCBA, 0x012345, 0xF00000, 0x00003F };
    begin_part("reserved bits, written again");
    for (unsigned c = 0; c < COMMANDS; c++)
        for (size_t n = 0; n < LENGTH(low_bits); n++) {
            uint32_t bits = had_bits[c].command << 24 | low_bits[n];
            jv_word read = jv_read_word(bits);
            if (read.number == JV_DONE)
                CHECK_WRITE(instruct(read.command, read.a, read.b, read.c, read.d, read.e),
                            as_bits(bits & had_bits[c].mask));
        }
}

int main(void)
{
    check_by_hand();
    check_high_handles();
    check_reserved_bits();
    check_limits();
    check_top_bytes();
    check_unknown_commands();
    check_values_without_meaning();
    check_fields_too_many();
    check_had_bits();
    return end_checks();
}
