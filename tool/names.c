#include "names.h"

#include "jokulvisp.h"

static const char *const test_names[] = {
    [JV_TEST_NEVER] = "NEVER",
    [JV_TEST_LESS] = "LESS",
    [JV_TEST_LEQUAL] = "LEQUAL",
    [JV_TEST_GREATER] = "GREATER",
    [JV_TEST_GEQUAL] = "GEQUAL",
    [JV_TEST_EQUAL] = "EQUAL",
    [JV_TEST_NOTEQUAL] = "NOTEQUAL",
    [JV_TEST_ALWAYS] = "ALWAYS",
};

static const char *const action_names[] = {
    [JV_ACTION_ZERO] = "ZERO",
    [JV_ACTION_KEEP] = "KEEP",
    [JV_ACTION_REPLACE] = "REPLACE",
    [JV_ACTION_INCR] = "INCR",
    [JV_ACTION_DECR] = "DECR",
    [JV_ACTION_INVERT] = "INVERT",
};

static const char *const factor_names[] = {
    [JV_FACTOR_ZERO] = "ZERO",
    [JV_FACTOR_ONE] = "ONE",
    [JV_FACTOR_SRC_ALPHA] = "SRC_ALPHA",
    [JV_FACTOR_DST_ALPHA] = "DST_ALPHA",
    [JV_FACTOR_ONE_MINUS_SRC_ALPHA] = "ONE_MINUS_SRC_ALPHA",
    [JV_FACTOR_ONE_MINUS_DST_ALPHA] = "ONE_MINUS_DST_ALPHA",
};

static const char *const primitive_names[] = {
    [JV_PRIMITIVE_BITMAPS] = "BITMAPS",
    [JV_PRIMITIVE_POINTS] = "POINTS",
    [JV_PRIMITIVE_LINES] = "LINES",
    [JV_PRIMITIVE_LINE_STRIP] = "LINE_STRIP",
    [JV_PRIMITIVE_EDGE_STRIP_R] = "EDGE_STRIP_R",
    [JV_PRIMITIVE_EDGE_STRIP_L] = "EDGE_STRIP_L",
    [JV_PRIMITIVE_EDGE_STRIP_A] = "EDGE_STRIP_A",
    [JV_PRIMITIVE_EDGE_STRIP_B] = "EDGE_STRIP_B",
    [JV_PRIMITIVE_RECTS] = "RECTS",
};

/* The guide's table spells the paletted formats without their last D, its text and its examples with it. */
static const char *const format_names[] = {
    [JV_FORMAT_ARGB1555] = "ARGB1555",
    [JV_FORMAT_L1] = "L1",
    [JV_FORMAT_L4] = "L4",
    [JV_FORMAT_L8] = "L8",
    [JV_FORMAT_RGB332] = "RGB332",
    [JV_FORMAT_ARGB2] = "ARGB2",
    [JV_FORMAT_ARGB4] = "ARGB4",
    [JV_FORMAT_RGB565] = "RGB565",
    [JV_FORMAT_TEXT8X8] = "TEXT8X8",
    [JV_FORMAT_TEXTVGA] = "TEXTVGA",
    [JV_FORMAT_BARGRAPH] = "BARGRAPH",
    [JV_FORMAT_PALETTED565] = "PALETTED565",
    [JV_FORMAT_PALETTED4444] = "PALETTED4444",
    [JV_FORMAT_PALETTED8] = "PALETTED8",
    [JV_FORMAT_L2] = "L2",
};

static const char *const filter_names[] = {
    [JV_FILTER_NEAREST] = "NEAREST",
    [JV_FILTER_BILINEAR] = "BILINEAR",
};

static const char *const wrap_names[] = {
    [JV_WRAP_BORDER] = "BORDER",
    [JV_WRAP_REPEAT] = "REPEAT",
};

#define NAMED(noun, names) { noun, names, sizeof(names) / sizeof((names)[0]) - 1 }

static const value_set tests = NAMED("test function", test_names);
static const value_set actions = NAMED("stencil action", action_names);
static const value_set factors = NAMED("blend factor", factor_names);
static const value_set primitives = NAMED("primitive", primitive_names);
static const value_set formats = NAMED("bitmap format", format_names);
static const value_set filters = NAMED("filter", filter_names);
static const value_set wraps = NAMED("wrap mode", wrap_names);
static const value_set fractions = { NULL, NULL, JV_MAX_FRAC };
static const value_set scissors = { NULL, NULL, JV_MAX_SCISSOR };

#define NUMBER(name, high, low) { name, high, low, UNSIGNED, NULL }
#define INTEGER(name, high, low) { name, high, low, SIGNED, NULL }
#define PLACE(name, high, low) { name, high, low, TARGET, NULL }
#define VALUE(name, high, low, values) { name, high, low, UNSIGNED, &(values) }

static const command_names commands[] = {
    { "DISPLAY", JV_DISPLAY, { { 0 } } },
    { "BITMAP_SOURCE", JV_BITMAP_SOURCE, { NUMBER("addr", 21, 0) } },
    { "CLEAR_COLOR_RGB", JV_CLEAR_COLOR_RGB, { NUMBER("red", 23, 16), NUMBER("green", 15, 8), NUMBER("blue", 7, 0) } },
    { "TAG", JV_TAG, { NUMBER("s", 7, 0) } },
    { "COLOR_RGB", JV_COLOR_RGB, { NUMBER("red", 23, 16), NUMBER("green", 15, 8), NUMBER("blue", 7, 0) } },
    { "BITMAP_HANDLE", JV_BITMAP_HANDLE, { NUMBER("handle", 4, 0) } },
    { "CELL", JV_CELL, { NUMBER("cell", 6, 0) } },
    { "BITMAP_LAYOUT", JV_BITMAP_LAYOUT, { VALUE("format", 23, 19, formats), NUMBER("linestride", 18, 9),
                                           NUMBER("height", 8, 0) } },
    { "BITMAP_SIZE", JV_BITMAP_SIZE, { VALUE("filter", 20, 20, filters), VALUE("wrapx", 19, 19, wraps),
                                       VALUE("wrapy", 18, 18, wraps), NUMBER("width", 17, 9),
                                       NUMBER("height", 8, 0) } },
    { "ALPHA_FUNC", JV_ALPHA_FUNC, { VALUE("func", 10, 8, tests), NUMBER("ref", 7, 0) } },
    { "STENCIL_FUNC", JV_STENCIL_FUNC, { VALUE("func", 19, 16, tests), NUMBER("ref", 15, 8), NUMBER("mask", 7, 0) } },
    { "BLEND_FUNC", JV_BLEND_FUNC, { VALUE("src", 5, 3, factors), VALUE("dst", 2, 0, factors) } },
    { "STENCIL_OP", JV_STENCIL_OP, { VALUE("sfail", 5, 3, actions), VALUE("spass", 2, 0, actions) } },
    { "POINT_SIZE", JV_POINT_SIZE, { NUMBER("size", 12, 0) } },
    { "LINE_WIDTH", JV_LINE_WIDTH, { NUMBER("width", 11, 0) } },
    { "CLEAR_COLOR_A", JV_CLEAR_COLOR_A, { NUMBER("alpha", 7, 0) } },
    { "COLOR_A", JV_COLOR_A, { NUMBER("alpha", 7, 0) } },
    { "CLEAR_STENCIL", JV_CLEAR_STENCIL, { NUMBER("s", 7, 0) } },
    { "CLEAR_TAG", JV_CLEAR_TAG, { NUMBER("t", 7, 0) } },
    { "STENCIL_MASK", JV_STENCIL_MASK, { NUMBER("mask", 7, 0) } },
    { "TAG_MASK", JV_TAG_MASK, { NUMBER("mask", 0, 0) } },
    { "BITMAP_TRANSFORM_A", JV_BITMAP_TRANSFORM_A, { INTEGER("a", 16, 0) } },
    { "BITMAP_TRANSFORM_B", JV_BITMAP_TRANSFORM_B, { INTEGER("b", 16, 0) } },
    { "BITMAP_TRANSFORM_C", JV_BITMAP_TRANSFORM_C, { INTEGER("c", 23, 0) } },
    { "BITMAP_TRANSFORM_D", JV_BITMAP_TRANSFORM_D, { INTEGER("d", 16, 0) } },
    { "BITMAP_TRANSFORM_E", JV_BITMAP_TRANSFORM_E, { INTEGER("e", 16, 0) } },
    { "BITMAP_TRANSFORM_F", JV_BITMAP_TRANSFORM_F, { INTEGER("f", 23, 0) } },
    { "SCISSOR_XY", JV_SCISSOR_XY, { NUMBER("x", 21, 11), NUMBER("y", 10, 0) } },
    { "SCISSOR_SIZE", JV_SCISSOR_SIZE, { VALUE("width", 23, 12, scissors), VALUE("height", 11, 0, scissors) } },
    { "CALL", JV_CALL, { PLACE("dest", 15, 0) } },
    { "JUMP", JV_JUMP, { PLACE("dest", 15, 0) } },
    { "BEGIN", JV_BEGIN, { VALUE("prim", 3, 0, primitives) } },
    { "COLOR_MASK", JV_COLOR_MASK, { NUMBER("r", 3, 3), NUMBER("g", 2, 2), NUMBER("b", 1, 1), NUMBER("a", 0, 0) } },
    { "END", JV_END, { { 0 } } },
    { "SAVE_CONTEXT", JV_SAVE_CONTEXT, { { 0 } } },
    { "RESTORE_CONTEXT", JV_RESTORE_CONTEXT, { { 0 } } },
    { "RETURN", JV_RETURN, { { 0 } } },
    { "MACRO", JV_MACRO, { NUMBER("m", 0, 0) } },
    { "CLEAR", JV_CLEAR, { NUMBER("c", 2, 2), NUMBER("s", 1, 1), NUMBER("t", 0, 0) } },
    { "VERTEX_FORMAT", JV_VERTEX_FORMAT, { VALUE("frac", 2, 0, fractions) } },
    { "BITMAP_LAYOUT_H", JV_BITMAP_LAYOUT_H, { NUMBER("linestride", 3, 2), NUMBER("height", 1, 0) } },
    { "BITMAP_SIZE_H", JV_BITMAP_SIZE_H, { NUMBER("width", 3, 2), NUMBER("height", 1, 0) } },
    { "PALETTE_SOURCE", JV_PALETTE_SOURCE, { NUMBER("addr", 21, 0) } },
    { "VERTEX_TRANSLATE_X", JV_VERTEX_TRANSLATE_X, { INTEGER("x", 16, 0) } },
    { "VERTEX_TRANSLATE_Y", JV_VERTEX_TRANSLATE_Y, { INTEGER("y", 16, 0) } },
    { "NOP", JV_NOP, { { 0 } } },
    { "VERTEX2F", JV_VERTEX2F, { INTEGER("x", 29, 15), INTEGER("y", 14, 0) } },
    { "VERTEX2II", JV_VERTEX2II, { NUMBER("x", 29, 21), NUMBER("y", 20, 12), NUMBER("handle", 11, 7),
                                   NUMBER("cell", 6, 0) } },
};

const command_names any_word = { "WORD", 0, { NUMBER("bits", 31, 0) } };

const command_names *names_at(size_t n)
{
    return n < sizeof commands / sizeof commands[0] ? &commands[n] : NULL;
}

const command_names *find_names(uint32_t command)
{
    for (size_t n = 0; names_at(n) != NULL; n++)
        if (commands[n].command == command)
            return &commands[n];
    return NULL;
}

uint32_t command_in(uint32_t bits)
{
    uint32_t top_two = bits >> 30;
    return top_two == 1 || top_two == 2 ? top_two << 6 : bits >> 24;
}

uint32_t command_mask(const command_names *names)
{
    return names->command == JV_VERTEX2F || names->command == JV_VERTEX2II ? 0xC0000000 : 0xFF000000;
}

unsigned count_fields(const command_names *names)
{
    unsigned count = 0;
    while (count < MOST_FIELDS && names->field[count].name != NULL)
        count++;
    return count;
}

/* As many ones as the field has bits, or so many fewer. */
static uint32_t ones(const field_names *field, unsigned fewer)
{
    return UINT32_MAX >> (31 - (field->high - field->low) + fewer);
}

uint32_t mask_of(const field_names *field)
{
    return ones(field, 0) << field->low;
}

uint32_t value_in(uint32_t bits, const field_names *field)
{
    return bits >> field->low & ones(field, 0);
}

int64_t least_value(const field_names *field)
{
    return field->kind == SIGNED ? -(int64_t)ones(field, 1) - 1 : 0;
}

int64_t largest_value(const field_names *field)
{
    return ones(field, field->kind == SIGNED ? 1 : 0);
}

const char *find_value_name(const field_names *field, uint32_t value)
{
    const value_set *values = field->values;
    return values != NULL && values->names != NULL && value <= values->most ? values->names[value] : NULL;
}

bool has_meaning(const field_names *field, uint32_t value)
{
    const value_set *values = field->values;
    if (values == NULL)
        return true;
    return values->names != NULL ? find_value_name(field, value) != NULL : value <= values->most;
}
