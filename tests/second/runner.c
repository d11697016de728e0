#include "runner.h"

#include <string.h>

#include "jokulvisp.h"

/* Primitive 0 has no meaning in BEGIN, so here it stands for none begun. */
enum { NONE = 0 };

/* What SAVE_CONTEXT keeps: every value whose section of the guide calls it part of the context, and that a word which
   is drawn can set. */
typedef struct {
    scissor_box scissor;
    write_masks masks;
    rgba clear_colour, colour;
    uint8_t clear_stencil, clear_tag, tag;
    alpha_test alpha_test;
    stencil_test stencil_test;
    stencil_actions stencil_actions;
    blend_factors blend;
    uint8_t handle, cell, frac;
    uint16_t point_size, line_width;
    position translation;
} context;

/* The main words and the H words write into the same numbers, each its own bits. */
typedef struct {
    uint32_t source;
    uint16_t stride, layout_height, width, height;
    uint8_t format;
    bool has_source, has_layout, has_size;
} bitmap_handle;

typedef struct {
    context now;
    context kept[JV_MAX_CONTEXTS]; /* earliest first */
    unsigned kept_count;
    uint32_t calls[JV_MAX_CALLS]; /* where each open CALL goes on, outermost first */
    unsigned call_count;
    bitmap_handle handles[JV_HANDLES];
    uint32_t primitive;
    bool is_open; /* a vertex waits for the one that completes its rectangle or segment */
    position open;
    uint32_t next; /* the place of the word after this one */
    size_t ram_g_length;
    take_action *take; /* NULL where nobody asks for the actions */
    void *taker;
} machine;

/* The guide's initial values, section by section. COLOR_A's is 255 by its section and by document 01's example 11,
   though the guide's table of the context says 0; SCISSOR_SIZE's is the largest. */
static const context starting_values = {
    .scissor = { 0, 0, JV_MAX_SCISSOR, JV_MAX_SCISSOR },
    .masks = { 0xF, 255, 1 },
    .clear_colour = { 0, 0, 0, 0 },
    .colour = { 255, 255, 255, 255 },
    .clear_stencil = 0,
    .clear_tag = 0,
    .tag = 255,
    .alpha_test = { JV_TEST_ALWAYS, 0 },
    .stencil_test = { JV_TEST_ALWAYS, 0, 255 },
    .stencil_actions = { JV_ACTION_KEEP, JV_ACTION_KEEP },
    .blend = { JV_FACTOR_SRC_ALPHA, JV_FACTOR_ONE_MINUS_SRC_ALPHA },
    .handle = 0,
    .cell = 0,
    .frac = 4,
    .point_size = 16,
    .line_width = 16,
    .translation = { 0, 0 },
};

/* ---- Words ---- */

static uint32_t word_at(const uint8_t *byte)
{
    return (uint32_t)byte[3] << 24 | (uint32_t)byte[2] << 16 | (uint32_t)byte[1] << 8 | byte[0];
}

static uint32_t bits_of(uint32_t word, unsigned high, unsigned low)
{
    return word >> low & (((uint32_t)1 << (high - low + 1)) - 1);
}

static int32_t signed_bits_of(uint32_t word, unsigned high, unsigned low)
{
    int32_t half = (int32_t)1 << (high - low);
    return (int32_t)(bits_of(word, high, low) ^ (uint32_t)half) - half;
}

static bool is_drawn_format(uint32_t format)
{
    return format == JV_FORMAT_ARGB1555 || format == JV_FORMAT_L8 || format == JV_FORMAT_RGB565;
}

static bool is_meant_format(uint32_t format)
{
    return format <= JV_FORMAT_RGB565 || (JV_FORMAT_TEXT8X8 <= format && format <= JV_FORMAT_BARGRAPH) ||
           (JV_FORMAT_PALETTED565 <= format && format <= JV_FORMAT_L2);
}

/* ---- Actions ---- */

/* Most runs are asked for no actions. What makes one is kept out of the code that they go through. */
#define APART __attribute__((noinline))

static bool is_asked_for_actions(const machine *m)
{
    return m->take != NULL;
}

APART static void hand_over_clear(machine *m, uint32_t flags)
{
    run_action action = {
        .kind = CLEARING,
        .scissor = m->now.scissor,
        .masks = m->now.masks,
        .colour = m->now.clear_colour,
        .tag = m->now.clear_tag,
        .flags = (uint8_t)flags,
        .clear_stencil = m->now.clear_stencil,
    };
    m->take(m->taker, &action);
}

/* What every action but CLEAR has of the context. */
static run_action drawing(const context *now, action_kind kind)
{
    return (run_action){
        .kind = kind,
        .scissor = now->scissor,
        .masks = now->masks,
        .colour = now->colour,
        .tag = now->tag,
        .alpha_test = now->alpha_test,
        .stencil_test = now->stencil_test,
        .stencil_actions = now->stencil_actions,
        .blend = now->blend,
    };
}

APART static void hand_over_point(machine *m, position at)
{
    run_action action = drawing(&m->now, A_POINT);
    action.point = (point_shape){ at, m->now.point_size };
    m->take(m->taker, &action);
}

static int32_t lesser(int32_t v, int32_t w)
{
    return v < w ? v : w;
}

static int32_t greater(int32_t v, int32_t w)
{
    return v < w ? w : v;
}

/* 'Corners are put in order, x and y apart.' */
APART static void hand_over_rectangle(machine *m, position first, position second)
{
    run_action action = drawing(&m->now, A_RECTANGLE);
    action.rectangle.low = (position){ lesser(first.x, second.x), lesser(first.y, second.y) };
    action.rectangle.high = (position){ greater(first.x, second.x), greater(first.y, second.y) };
    action.rectangle.width = m->now.line_width;
    m->take(m->taker, &action);
}

/* 'Ends are [...] compared in the order given.' */
APART static void hand_over_segment(machine *m, position from, position to)
{
    run_action action = drawing(&m->now, A_SEGMENT);
    action.segment = (segment_shape){ from, to, m->now.line_width, (uint8_t)m->primitive };
    m->take(m->taker, &action);
}

/* Division in C goes towards zero; a pixel's number is rounded down. */
static int32_t pixel_of(int32_t sixteenths)
{
    return sixteenths >= 0 ? sixteenths / 16 : -((15 - sixteenths) / 16);
}

APART static void hand_over_bitmap(machine *m, position at, const bitmap_handle *h, uint32_t cell_start)
{
    run_action action = drawing(&m->now, A_BITMAP);
    action.bitmap = (bitmap_shape){
        .left = pixel_of(at.x),
        .top = pixel_of(at.y),
        .width = h->width,
        .height = h->height,
        .cell_start = cell_start,
        .stride = h->stride,
        .layout_height = h->layout_height,
        .format = h->format,
    };
    m->take(m->taker, &action);
}

static bool are_equal_scissors(scissor_box a, scissor_box b)
{
    return a.x == b.x && a.y == b.y && a.width == b.width && a.height == b.height;
}

static bool are_equal_masks(write_masks a, write_masks b)
{
    return a.colour == b.colour && a.stencil == b.stencil && a.tag == b.tag;
}

static bool are_equal_colours(rgba a, rgba b)
{
    return a.red == b.red && a.green == b.green && a.blue == b.blue && a.alpha == b.alpha;
}

static bool are_equal_tests(const run_action *a, const run_action *b)
{
    return a->alpha_test.func == b->alpha_test.func && a->alpha_test.ref == b->alpha_test.ref &&
           a->stencil_test.func == b->stencil_test.func && a->stencil_test.ref == b->stencil_test.ref &&
           a->stencil_test.mask == b->stencil_test.mask;
}

static bool are_equal_stencil_actions(stencil_actions a, stencil_actions b)
{
    return a.sfail == b.sfail && a.spass == b.spass;
}

static bool are_equal_blends(blend_factors a, blend_factors b)
{
    return a.src == b.src && a.dst == b.dst;
}

static bool are_equal_positions(position a, position b)
{
    return a.x == b.x && a.y == b.y;
}

static bool are_equal_points(point_shape a, point_shape b)
{
    return are_equal_positions(a.centre, b.centre) && a.size == b.size;
}

static bool are_equal_rectangles(rectangle_shape a, rectangle_shape b)
{
    return are_equal_positions(a.low, b.low) && are_equal_positions(a.high, b.high) && a.width == b.width;
}

static bool are_equal_segments(segment_shape a, segment_shape b)
{
    return are_equal_positions(a.from, b.from) && are_equal_positions(a.to, b.to) && a.width == b.width &&
           a.primitive == b.primitive;
}

static bool are_equal_bitmaps(bitmap_shape a, bitmap_shape b)
{
    return a.left == b.left && a.top == b.top && a.width == b.width && a.height == b.height &&
           a.cell_start == b.cell_start && a.stride == b.stride && a.layout_height == b.layout_height &&
           a.format == b.format;
}

bool are_equal_actions(const run_action *a, const run_action *b)
{
    return a->kind == b->kind && a->flags == b->flags && a->clear_stencil == b->clear_stencil && a->tag == b->tag &&
           are_equal_scissors(a->scissor, b->scissor) && are_equal_masks(a->masks, b->masks) &&
           are_equal_colours(a->colour, b->colour) && are_equal_tests(a, b) &&
           are_equal_stencil_actions(a->stencil_actions, b->stencil_actions) && are_equal_blends(a->blend, b->blend) &&
           are_equal_points(a->point, b->point) && are_equal_rectangles(a->rectangle, b->rectangle) &&
           are_equal_segments(a->segment, b->segment) && are_equal_bitmaps(a->bitmap, b->bitmap);
}

/* ---- Vertices ---- */

static bool is_set_up(const bitmap_handle *h)
{
    bool is_set = h->has_source && h->has_layout && h->has_size;
    return is_set && h->stride != 0 && h->layout_height != 0 && h->width != 0 && h->height != 0;
}

static bool is_aligned(const bitmap_handle *h)
{
    return h->format == JV_FORMAT_L8 || (h->source % 2 == 0 && h->stride % 2 == 0);
}

static uint32_t bitmap_vertex(machine *m, position at, uint32_t handle, uint32_t cell)
{
    const bitmap_handle *h = &m->handles[handle];
    /* At most 127 * 4095 * 2047 and a source below 2^22: 32 bits hold every sum. */
    uint32_t cell_bytes = (uint32_t)h->stride * h->layout_height;
    uint32_t cell_start = h->source + cell * cell_bytes;
    if (!is_set_up(h) || cell_start + cell_bytes > m->ram_g_length || !is_aligned(h))
        return JV_NO_BITMAP;
    if (is_asked_for_actions(m))
        hand_over_bitmap(m, at, h, cell_start);
    return JV_DONE;
}

/* The first vertex opens a corner, the next draws and leaves none open, so a third opens another. */
static void rectangle_vertex(machine *m, position at)
{
    if (!m->is_open)
        m->open = at;
    else if (is_asked_for_actions(m))
        hand_over_rectangle(m, m->open, at);
    m->is_open = !m->is_open;
}

static bool is_within_lines(position end)
{
    return JV_MIN_END <= end.x && end.x <= JV_MAX_END && JV_MIN_END <= end.y && end.y <= JV_MAX_END;
}

/* 'In LINES vertices pair up; in a strip each vertex after the first ends a segment.' Either end may lie too far away,
   but it is the vertex that completes the segment that is at fault. */
static uint32_t line_vertex(machine *m, position at)
{
    bool completes = m->is_open;
    position from = m->open;
    m->open = at;
    m->is_open = !completes || m->primitive == JV_PRIMITIVE_LINE_STRIP;
    if (!completes)
        return JV_DONE;
    if (!is_within_lines(from) || !is_within_lines(at))
        return JV_FAR_END;
    if (is_asked_for_actions(m))
        hand_over_segment(m, from, at);
    return JV_DONE;
}

/* `x` and `y` are in sixteenths, before the translation. */
static uint32_t vertex(machine *m, int32_t x, int32_t y, uint32_t handle, uint32_t cell)
{
    position at = { x + m->now.translation.x, y + m->now.translation.y };
    switch (m->primitive) {
    case JV_PRIMITIVE_POINTS:
        if (is_asked_for_actions(m))
            hand_over_point(m, at);
        return JV_DONE;
    case JV_PRIMITIVE_RECTS:
        rectangle_vertex(m, at);
        return JV_DONE;
    case JV_PRIMITIVE_LINES:
    case JV_PRIMITIVE_LINE_STRIP:
        return line_vertex(m, at);
    case JV_PRIMITIVE_BITMAPS:
        return bitmap_vertex(m, at, handle, cell);
    default:
        return JV_NO_PRIMITIVE;
    }
}

static uint32_t vertex2f(machine *m, uint32_t word)
{
    int32_t scale = (int32_t)1 << (4 - m->now.frac);
    return vertex(m, signed_bits_of(word, 29, 15) * scale, signed_bits_of(word, 14, 0) * scale, m->now.handle,
                  m->now.cell);
}

static uint32_t vertex2ii(machine *m, uint32_t word)
{
    return vertex(m, (int32_t)bits_of(word, 29, 21) * 16, (int32_t)bits_of(word, 20, 12) * 16, bits_of(word, 11, 7),
                  bits_of(word, 6, 0));
}

/* ---- Contexts, calls, primitives ---- */

static void save(machine *m)
{
    if (m->kept_count == JV_MAX_CONTEXTS) {
        memmove(&m->kept[0], &m->kept[1], (JV_MAX_CONTEXTS - 1) * sizeof m->kept[0]);
        m->kept_count--;
    }
    m->kept[m->kept_count++] = m->now;
}

static void restore(machine *m)
{
    m->now = m->kept_count > 0 ? m->kept[--m->kept_count] : starting_values;
}

static uint32_t jump(machine *m, uint32_t target)
{
    if (target % 4 != 0)
        return JV_SPLIT_TARGET;
    m->next = target;
    return JV_DONE;
}

static uint32_t call(machine *m, uint32_t target)
{
    if (m->call_count == JV_MAX_CALLS)
        return JV_FIFTH_CALL;
    m->calls[m->call_count] = m->next;
    uint32_t number = jump(m, target);
    if (number == JV_DONE)
        m->call_count++;
    return number;
}

static uint32_t return_from_call(machine *m)
{
    if (m->call_count == 0)
        return JV_NO_CALL;
    m->next = m->calls[--m->call_count];
    return JV_DONE;
}

/* 'BEGIN and END drop an open corner', and 'an open end, which no context holds'. */
static void start_primitive(machine *m, uint32_t primitive)
{
    m->primitive = primitive;
    m->is_open = false;
}

static uint32_t begin(machine *m, uint32_t primitive)
{
    if (primitive == NONE || primitive > JV_PRIMITIVE_RECTS)
        return JV_NO_MEANING;
    if (JV_PRIMITIVE_LINE_STRIP < primitive && primitive < JV_PRIMITIVE_RECTS)
        return JV_NOT_DRAWN;
    start_primitive(m, primitive);
    return JV_DONE;
}

static void end(machine *m)
{
    start_primitive(m, NONE);
}

/* ---- Settings ---- */

static bitmap_handle *current_handle(machine *m)
{
    return &m->handles[m->now.handle];
}

static uint32_t set_layout(bitmap_handle *h, uint32_t word)
{
    uint32_t format = bits_of(word, 23, 19);
    if (!is_meant_format(format))
        return JV_NO_MEANING;
    if (!is_drawn_format(format))
        return JV_NOT_DRAWN;
    h->format = (uint8_t)format;
    h->stride = (uint16_t)((h->stride & ~0x3FFu) | bits_of(word, 18, 9));
    h->layout_height = (uint16_t)((h->layout_height & ~0x1FFu) | bits_of(word, 8, 0));
    h->has_layout = true;
    return JV_DONE;
}

static void set_layout_high(bitmap_handle *h, uint32_t word)
{
    h->stride = (uint16_t)((h->stride & 0x3FFu) | bits_of(word, 3, 2) << 10);
    h->layout_height = (uint16_t)((h->layout_height & 0x1FFu) | bits_of(word, 1, 0) << 9);
}

static uint32_t set_size(bitmap_handle *h, uint32_t word)
{
    bool has_filter_or_wrap = bits_of(word, 20, 18) != 0;
    if (has_filter_or_wrap)
        return JV_NOT_DRAWN;
    h->width = (uint16_t)((h->width & ~0x1FFu) | bits_of(word, 17, 9));
    h->height = (uint16_t)((h->height & ~0x1FFu) | bits_of(word, 8, 0));
    h->has_size = true;
    return JV_DONE;
}

static void set_size_high(bitmap_handle *h, uint32_t word)
{
    h->width = (uint16_t)((h->width & 0x1FFu) | bits_of(word, 3, 2) << 9);
    h->height = (uint16_t)((h->height & 0x1FFu) | bits_of(word, 1, 0) << 9);
}

static void set_source(bitmap_handle *h, uint32_t word)
{
    h->source = bits_of(word, 21, 0);
    h->has_source = true;
}

static void set_rgb(rgba *colour, uint32_t word)
{
    colour->red = (uint8_t)bits_of(word, 23, 16);
    colour->green = (uint8_t)bits_of(word, 15, 8);
    colour->blue = (uint8_t)bits_of(word, 7, 0);
}

static uint32_t set_stencil_test(stencil_test *test, uint32_t word)
{
    uint32_t func = bits_of(word, 19, 16);
    if (func > JV_TEST_ALWAYS)
        return JV_NO_MEANING;
    *test = (stencil_test){ (uint8_t)func, (uint8_t)bits_of(word, 15, 8), (uint8_t)bits_of(word, 7, 0) };
    return JV_DONE;
}

static uint32_t set_blend(blend_factors *blend, uint32_t word)
{
    uint32_t src = bits_of(word, 5, 3), dst = bits_of(word, 2, 0);
    if (src > JV_FACTOR_ONE_MINUS_DST_ALPHA || dst > JV_FACTOR_ONE_MINUS_DST_ALPHA)
        return JV_NO_MEANING;
    *blend = (blend_factors){ (uint8_t)src, (uint8_t)dst };
    return JV_DONE;
}

static uint32_t set_stencil_actions(stencil_actions *actions, uint32_t word)
{
    uint32_t sfail = bits_of(word, 5, 3), spass = bits_of(word, 2, 0);
    if (sfail > JV_ACTION_INVERT || spass > JV_ACTION_INVERT)
        return JV_NO_MEANING;
    *actions = (stencil_actions){ (uint8_t)sfail, (uint8_t)spass };
    return JV_DONE;
}

static uint32_t set_scissor_size(scissor_box *scissor, uint32_t word)
{
    uint32_t width = bits_of(word, 23, 12), height = bits_of(word, 11, 0);
    if (width > JV_MAX_SCISSOR || height > JV_MAX_SCISSOR)
        return JV_NO_MEANING;
    scissor->width = (uint16_t)width;
    scissor->height = (uint16_t)height;
    return JV_DONE;
}

static uint32_t set_frac(context *now, uint32_t word)
{
    uint32_t frac = bits_of(word, 2, 0);
    if (frac > JV_MAX_FRAC)
        return JV_NO_MEANING;
    now->frac = (uint8_t)frac;
    return JV_DONE;
}

/* ---- The run ---- */

/* Does what the word says, if its top two bits are 00. DISPLAY ends the run before this. */
static uint32_t do_command(machine *m, uint32_t word)
{
    context *now = &m->now;
    switch (word >> 24) {
    case JV_BITMAP_SOURCE:
        set_source(current_handle(m), word);
        return JV_DONE;
    case JV_CLEAR_COLOR_RGB:
        set_rgb(&now->clear_colour, word);
        return JV_DONE;
    case JV_TAG:
        now->tag = (uint8_t)bits_of(word, 7, 0);
        return JV_DONE;
    case JV_COLOR_RGB:
        set_rgb(&now->colour, word);
        return JV_DONE;
    case JV_BITMAP_HANDLE:
        now->handle = (uint8_t)bits_of(word, 4, 0);
        return JV_DONE;
    case JV_CELL:
        now->cell = (uint8_t)bits_of(word, 6, 0);
        return JV_DONE;
    case JV_BITMAP_LAYOUT:
        return set_layout(current_handle(m), word);
    case JV_BITMAP_SIZE:
        return set_size(current_handle(m), word);
    case JV_ALPHA_FUNC:
        now->alpha_test = (alpha_test){ (uint8_t)bits_of(word, 10, 8), (uint8_t)bits_of(word, 7, 0) };
        return JV_DONE;
    case JV_STENCIL_FUNC:
        return set_stencil_test(&now->stencil_test, word);
    case JV_BLEND_FUNC:
        return set_blend(&now->blend, word);
    case JV_STENCIL_OP:
        return set_stencil_actions(&now->stencil_actions, word);
    case JV_POINT_SIZE:
        now->point_size = (uint16_t)bits_of(word, 12, 0);
        return JV_DONE;
    case JV_LINE_WIDTH:
        now->line_width = (uint16_t)bits_of(word, 11, 0);
        return JV_DONE;
    case JV_CLEAR_COLOR_A:
        now->clear_colour.alpha = (uint8_t)bits_of(word, 7, 0);
        return JV_DONE;
    case JV_COLOR_A:
        now->colour.alpha = (uint8_t)bits_of(word, 7, 0);
        return JV_DONE;
    case JV_CLEAR_STENCIL:
        now->clear_stencil = (uint8_t)bits_of(word, 7, 0);
        return JV_DONE;
    case JV_CLEAR_TAG:
        now->clear_tag = (uint8_t)bits_of(word, 7, 0);
        return JV_DONE;
    case JV_STENCIL_MASK:
        now->masks.stencil = (uint8_t)bits_of(word, 7, 0);
        return JV_DONE;
    case JV_TAG_MASK:
        now->masks.tag = (uint8_t)bits_of(word, 0, 0);
        return JV_DONE;
    case JV_BITMAP_TRANSFORM_A:
    case JV_BITMAP_TRANSFORM_B:
    case JV_BITMAP_TRANSFORM_C:
    case JV_BITMAP_TRANSFORM_D:
    case JV_BITMAP_TRANSFORM_E:
    case JV_BITMAP_TRANSFORM_F:
        return JV_NOT_DRAWN;
    case JV_SCISSOR_XY:
        now->scissor.x = (uint16_t)bits_of(word, 21, 11);
        now->scissor.y = (uint16_t)bits_of(word, 10, 0);
        return JV_DONE;
    case JV_SCISSOR_SIZE:
        return set_scissor_size(&now->scissor, word);
    case JV_CALL:
        return call(m, bits_of(word, 15, 0));
    case JV_JUMP:
        return jump(m, bits_of(word, 15, 0));
    case JV_BEGIN:
        return begin(m, bits_of(word, 3, 0));
    case JV_COLOR_MASK:
        now->masks.colour = (uint8_t)bits_of(word, 3, 0);
        return JV_DONE;
    case JV_END:
        end(m);
        return JV_DONE;
    case JV_SAVE_CONTEXT:
        save(m);
        return JV_DONE;
    case JV_RESTORE_CONTEXT:
        restore(m);
        return JV_DONE;
    case JV_RETURN:
        return return_from_call(m);
    case JV_MACRO:
        return JV_NOT_DRAWN;
    case JV_CLEAR:
        if (is_asked_for_actions(m))
            hand_over_clear(m, bits_of(word, 2, 0));
        return JV_DONE;
    case JV_VERTEX_FORMAT:
        return set_frac(now, word);
    case JV_BITMAP_LAYOUT_H:
        set_layout_high(current_handle(m), word);
        return JV_DONE;
    case JV_BITMAP_SIZE_H:
        set_size_high(current_handle(m), word);
        return JV_DONE;
    case JV_PALETTE_SOURCE:
        return JV_NOT_DRAWN;
    case JV_VERTEX_TRANSLATE_X:
        now->translation.x = signed_bits_of(word, 16, 0);
        return JV_DONE;
    case JV_VERTEX_TRANSLATE_Y:
        now->translation.y = signed_bits_of(word, 16, 0);
        return JV_DONE;
    case JV_NOP:
        return JV_DONE;
    default:
        return JV_NO_COMMAND;
    }
}

static uint32_t do_word(machine *m, uint32_t word)
{
    switch (word >> 30) {
    case 0:
        return do_command(m, word);
    case 1:
        return vertex2f(m, word);
    case 2:
        return vertex2ii(m, word);
    default:
        return JV_NO_COMMAND;
    }
}

static run_answer run(machine *m, const uint8_t *list, size_t list_length, uint32_t limit)
{
    uint32_t place = 0, count = 0;
    for (;;) {
        if (count == limit)
            return (run_answer){ JV_LIMIT_REACHED, place, count };
        if (place >= list_length)
            return (run_answer){ JV_PAST_END, place, count };
        uint32_t word = word_at(list + place);
        count++;
        bool is_display = word >> 24 == JV_DISPLAY;
        if (is_display)
            return (run_answer){ JV_DONE, 0, count };
        m->next = place + 4;
        uint32_t number = do_word(m, word);
        if (number != JV_DONE)
            return (run_answer){ number, place, count };
        place = m->next;
    }
}

static uint32_t refusal(const run_request *r)
{
    if (r->width < 1 || r->width > JV_MAX_WIDTH || r->height < 1 || r->height > JV_MAX_HEIGHT)
        return JV_BAD_FRAME;
    if (r->list_length < JV_MIN_LIST_BYTES || r->list_length > JV_MAX_LIST_BYTES || r->list_length % 4 != 0)
        return JV_BAD_LIST;
    if (r->ram_g_length > JV_MAX_RAM_G_BYTES)
        return JV_BAD_RAM_G;
    if (r->limit < 1 || r->limit > JV_MAX_LIMIT)
        return JV_BAD_LIMIT;
    return JV_DONE;
}

run_answer run_list_for_actions(const run_request *request, take_action *take, void *taker)
{
    uint32_t number = refusal(request);
    if (number != JV_DONE)
        return (run_answer){ number, 0, 0 };
    machine m = { .now = starting_values, .ram_g_length = request->ram_g_length, .take = take, .taker = taker };
    return run(&m, request->list, request->list_length, request->limit);
}

run_answer run_list(const run_request *request)
{
    return run_list_for_actions(request, NULL, NULL);
}
