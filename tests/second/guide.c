#include "guide.h"

#include <stddef.h>

/* Each field as the guide prints it: name, highest bit, lowest bit. The guide's colour tables print blue before green,
   at odds with its own parameter lists; here the order is red, green, blue. */
const entry guide[COMMANDS] = {
    { "DISPLAY", JV_DISPLAY, 0, { { 0 } } },
    { "BITMAP_SOURCE", JV_BITMAP_SOURCE, 1, { { "addr", 21, 0, UNSIGNED, PLAIN } } },
    { "CLEAR_COLOR_RGB", JV_CLEAR_COLOR_RGB, 3, { { "red", 23, 16, UNSIGNED, PLAIN },
                                                  { "green", 15, 8, UNSIGNED, PLAIN },
                                                  { "blue", 7, 0, UNSIGNED, PLAIN } } },
    { "TAG", JV_TAG, 1, { { "s", 7, 0, UNSIGNED, PLAIN } } },
    { "COLOR_RGB", JV_COLOR_RGB, 3, { { "red", 23, 16, UNSIGNED, PLAIN },
                                      { "green", 15, 8, UNSIGNED, PLAIN },
                                      { "blue", 7, 0, UNSIGNED, PLAIN } } },
    { "BITMAP_HANDLE", JV_BITMAP_HANDLE, 1, { { "handle", 4, 0, UNSIGNED, PLAIN } } },
    { "CELL", JV_CELL, 1, { { "cell", 6, 0, UNSIGNED, PLAIN } } },
    { "BITMAP_LAYOUT", JV_BITMAP_LAYOUT, 3, { { "format", 23, 19, UNSIGNED, FORMAT },
                                              { "linestride", 18, 9, UNSIGNED, PLAIN },
                                              { "height", 8, 0, UNSIGNED, PLAIN } } },
    { "BITMAP_SIZE", JV_BITMAP_SIZE, 5, { { "filter", 20, 20, UNSIGNED, PLAIN },
                                          { "wrapx", 19, 19, UNSIGNED, PLAIN },
                                          { "wrapy", 18, 18, UNSIGNED, PLAIN },
                                          { "width", 17, 9, UNSIGNED, PLAIN },
                                          { "height", 8, 0, UNSIGNED, PLAIN } } },
    { "ALPHA_FUNC", JV_ALPHA_FUNC, 2, { { "func", 10, 8, UNSIGNED, TEST }, { "ref", 7, 0, UNSIGNED, PLAIN } } },
    { "STENCIL_FUNC", JV_STENCIL_FUNC, 3, { { "func", 19, 16, UNSIGNED, TEST },
                                            { "ref", 15, 8, UNSIGNED, PLAIN },
                                            { "mask", 7, 0, UNSIGNED, PLAIN } } },
    { "BLEND_FUNC", JV_BLEND_FUNC, 2, { { "src", 5, 3, UNSIGNED, FACTOR }, { "dst", 2, 0, UNSIGNED, FACTOR } } },
    { "STENCIL_OP", JV_STENCIL_OP, 2, { { "sfail", 5, 3, UNSIGNED, ACTION }, { "spass", 2, 0, UNSIGNED, ACTION } } },
    { "POINT_SIZE", JV_POINT_SIZE, 1, { { "size", 12, 0, UNSIGNED, PLAIN } } },
    { "LINE_WIDTH", JV_LINE_WIDTH, 1, { { "width", 11, 0, UNSIGNED, PLAIN } } },
    { "CLEAR_COLOR_A", JV_CLEAR_COLOR_A, 1, { { "alpha", 7, 0, UNSIGNED, PLAIN } } },
    { "COLOR_A", JV_COLOR_A, 1, { { "alpha", 7, 0, UNSIGNED, PLAIN } } },
    { "CLEAR_STENCIL", JV_CLEAR_STENCIL, 1, { { "s", 7, 0, UNSIGNED, PLAIN } } },
    { "CLEAR_TAG", JV_CLEAR_TAG, 1, { { "t", 7, 0, UNSIGNED, PLAIN } } },
    { "STENCIL_MASK", JV_STENCIL_MASK, 1, { { "mask", 7, 0, UNSIGNED, PLAIN } } },
    { "TAG_MASK", JV_TAG_MASK, 1, { { "mask", 0, 0, UNSIGNED, PLAIN } } },
    { "BITMAP_TRANSFORM_A", JV_BITMAP_TRANSFORM_A, 1, { { "a", 16, 0, SIGNED, PLAIN } } },
    { "BITMAP_TRANSFORM_B", JV_BITMAP_TRANSFORM_B, 1, { { "b", 16, 0, SIGNED, PLAIN } } },
    { "BITMAP_TRANSFORM_C", JV_BITMAP_TRANSFORM_C, 1, { { "c", 23, 0, SIGNED, PLAIN } } },
    { "BITMAP_TRANSFORM_D", JV_BITMAP_TRANSFORM_D, 1, { { "d", 16, 0, SIGNED, PLAIN } } },
    { "BITMAP_TRANSFORM_E", JV_BITMAP_TRANSFORM_E, 1, { { "e", 16, 0, SIGNED, PLAIN } } },
    { "BITMAP_TRANSFORM_F", JV_BITMAP_TRANSFORM_F, 1, { { "f", 23, 0, SIGNED, PLAIN } } },
    { "SCISSOR_XY", JV_SCISSOR_XY, 2, { { "x", 21, 11, UNSIGNED, PLAIN }, { "y", 10, 0, UNSIGNED, PLAIN } } },
    { "SCISSOR_SIZE", JV_SCISSOR_SIZE, 2, { { "width", 23, 12, UNSIGNED, SCISSOR },
                                            { "height", 11, 0, UNSIGNED, SCISSOR } } },
    { "CALL", JV_CALL, 1, { { "dest", 15, 0, UNSIGNED, PLAIN } } },
    { "JUMP", JV_JUMP, 1, { { "dest", 15, 0, UNSIGNED, PLAIN } } },
    { "BEGIN", JV_BEGIN, 1, { { "prim", 3, 0, UNSIGNED, PRIMITIVE } } },
    { "COLOR_MASK", JV_COLOR_MASK, 4, { { "r", 3, 3, UNSIGNED, PLAIN },
                                        { "g", 2, 2, UNSIGNED, PLAIN },
                                        { "b", 1, 1, UNSIGNED, PLAIN },
                                        { "a", 0, 0, UNSIGNED, PLAIN } } },
    { "END", JV_END, 0, { { 0 } } },
    { "SAVE_CONTEXT", JV_SAVE_CONTEXT, 0, { { 0 } } },
    { "RESTORE_CONTEXT", JV_RESTORE_CONTEXT, 0, { { 0 } } },
    { "RETURN", JV_RETURN, 0, { { 0 } } },
    { "MACRO", JV_MACRO, 1, { { "m", 0, 0, UNSIGNED, PLAIN } } },
    { "CLEAR", JV_CLEAR, 3, { { "c", 2, 2, UNSIGNED, PLAIN },
                              { "s", 1, 1, UNSIGNED, PLAIN },
                              { "t", 0, 0, UNSIGNED, PLAIN } } },
    { "VERTEX_FORMAT", JV_VERTEX_FORMAT, 1, { { "frac", 2, 0, UNSIGNED, FRAC } } },
    { "BITMAP_LAYOUT_H", JV_BITMAP_LAYOUT_H, 2, { { "linestride", 3, 2, UNSIGNED, PLAIN },
                                                  { "height", 1, 0, UNSIGNED, PLAIN } } },
    { "BITMAP_SIZE_H", JV_BITMAP_SIZE_H, 2, { { "width", 3, 2, UNSIGNED, PLAIN },
                                              { "height", 1, 0, UNSIGNED, PLAIN } } },
    { "PALETTE_SOURCE", JV_PALETTE_SOURCE, 1, { { "addr", 21, 0, UNSIGNED, PLAIN } } },
    { "VERTEX_TRANSLATE_X", JV_VERTEX_TRANSLATE_X, 1, { { "x", 16, 0, SIGNED, PLAIN } } },
    { "VERTEX_TRANSLATE_Y", JV_VERTEX_TRANSLATE_Y, 1, { { "y", 16, 0, SIGNED, PLAIN } } },
    { "NOP", JV_NOP, 0, { { 0 } } },
    { "VERTEX2F", JV_VERTEX2F, 2, { { "x", 29, 15, SIGNED, PLAIN }, { "y", 14, 0, SIGNED, PLAIN } } },
    { "VERTEX2II", JV_VERTEX2II, 4, { { "x", 29, 21, UNSIGNED, PLAIN },
                                      { "y", 20, 12, UNSIGNED, PLAIN },
                                      { "handle", 11, 7, UNSIGNED, PLAIN },
                                      { "cell", 6, 0, UNSIGNED, PLAIN } } },
};

const entry *find_entry(uint32_t command)
{
    for (unsigned n = 0; n < COMMANDS; n++)
        if (guide[n].command == command)
            return &guide[n];
    return NULL;
}

uint32_t command_of(uint32_t bits)
{
    uint32_t top_two = bits >> 30;
    if (top_two == 1)
        return 0x40;
    if (top_two == 2)
        return 0x80;
    return bits >> 24;
}

static uint32_t ones(unsigned width)
{
    return ((uint32_t)1 << width) - 1;
}

static unsigned width_of(const field *f)
{
    return f->high - f->low + 1;
}

uint32_t least_held(const field *f)
{
    return f->sign == SIGNED ? ~ones(width_of(f) - 1) : 0;
}

uint32_t largest_held(const field *f)
{
    return f->sign == SIGNED ? ones(width_of(f) - 1) : ones(width_of(f));
}

bool is_held(const field *f, uint32_t value)
{
    if (f->sign == SIGNED)
        return value <= largest_held(f) || value >= least_held(f);
    return value <= largest_held(f);
}

uint32_t least_meant(const field *f)
{
    return f->kind == PRIMITIVE ? JV_PRIMITIVE_BITMAPS : least_held(f);
}

uint32_t largest_meant(const field *f)
{
    switch (f->kind) {
    case TEST:
        return JV_TEST_ALWAYS;
    case ACTION:
        return JV_ACTION_INVERT;
    case FACTOR:
        return JV_FACTOR_ONE_MINUS_DST_ALPHA;
    case PRIMITIVE:
        return JV_PRIMITIVE_RECTS;
    case FORMAT:
        return JV_FORMAT_L2;
    case FRAC:
        return JV_MAX_FRAC;
    case SCISSOR:
        return JV_MAX_SCISSOR;
    case PLAIN:
        break;
    }
    return largest_held(f);
}

bool is_meant(const field *f, uint32_t value)
{
    if (f->kind == PLAIN)
        return true;
    if (f->kind == FORMAT && (value == 8 || value == 12 || value == 13))
        return false;
    return least_meant(f) <= value && value <= largest_meant(f);
}

instruction instruct(uint32_t command, uint32_t a, uint32_t b, uint32_t c, uint32_t d, uint32_t e)
{
    return (instruction){ command, { a, b, c, d, e } };
}

jv_word as_word(instruction i)
{
    return (jv_word){ 0, i.command, i.field[0], i.field[1], i.field[2], i.field[3], i.field[4] };
}

jv_bits as_bits(uint32_t bits)
{
    return (jv_bits){ 0, bits };
}

jv_word refused_word(uint32_t number)
{
    return (jv_word){ number, 0, 0, 0, 0, 0, 0 };
}

jv_bits refused_bits(uint32_t number)
{
    return (jv_bits){ number, 0 };
}

static uint32_t taken_out(const field *f, uint32_t bits)
{
    uint32_t value = (bits >> f->low) & ones(width_of(f));
    bool is_negative = f->sign == SIGNED && value > largest_held(f);
    return is_negative ? value | ~ones(width_of(f)) : value;
}

jv_word guide_read(uint32_t bits)
{
    const entry *e = find_entry(command_of(bits));
    if (e == NULL)
        return refused_word(11);
    instruction read = { .command = e->command };
    for (unsigned n = 0; n < e->fields; n++) {
        read.field[n] = taken_out(&e->field[n], bits);
        if (!is_meant(&e->field[n], read.field[n]))
            return refused_word(12);
    }
    return as_word(read);
}

uint32_t place_fields(const entry *e, const uint32_t value[FIELDS])
{
    uint32_t bits = e->command << 24;
    for (unsigned n = 0; n < e->fields; n++)
        bits |= (value[n] & ones(width_of(&e->field[n]))) << e->field[n].low;
    return bits;
}

jv_bits guide_write(instruction i)
{
    const entry *e = find_entry(i.command);
    if (e == NULL)
        return refused_bits(11);
    for (unsigned n = 0; n < FIELDS; n++) {
        bool fits = n < e->fields ? is_held(&e->field[n], i.field[n]) && is_meant(&e->field[n], i.field[n])
                                  : i.field[n] == 0;
        if (!fits)
            return refused_bits(12);
    }
    return as_bits(place_fields(e, i.field));
}
