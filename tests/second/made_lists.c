#include "made_lists.h"

#include <stdbool.h>
#include <string.h>

#include "../shared/draw.h"
#include "../shared/list_words.h"
#include "../shared/tables.h"
#include "guide.h"

/* No two operands or arguments of one expression draw: C leaves open which of them comes first, and the lists would
   differ from one compiler to the next. */

#define DRAW_ONE_OF(array) ((array)[draw_below(LENGTH(array))])

enum { MOST_WORDS = JV_MAX_LIST_BYTES / 4, MOST_STRETCHES = 6, MOST_CALLS_PUT = 64, MOST_READY = 8, MOST_CELL = 127 };

/* A run that has not ended by then is most likely endless, and would take its time under a large limit. */
enum { LONG_RUN = 3000 };

/* A handle that is set up so that its cells 0 to `last_cell` can be drawn. */
typedef struct {
    uint32_t handle, last_cell;
} ready_handle;

/* A list being written. Stretch 0 is where the run starts; it ends in DISPLAY, the others in RETURN. A CALL is written
   before it is known where its stretch starts. The list draws anywhere, or it aims at a frame. */
typedef struct {
    uint32_t words[MOST_WORDS];
    size_t count;
    size_t ram_g_length;
    frame_size aim; /* 0 by 0 for none */
    ready_handle ready[MOST_READY];
    unsigned ready_count;
    unsigned stretches;
    size_t start[MOST_STRETCHES];
    struct {
        size_t at;
        unsigned stretch;
    } calls[MOST_CALLS_PUT];
    unsigned call_count;
} draft;

static void put(draft *d, uint32_t word)
{
    if (d->count < MOST_WORDS)
        d->words[d->count++] = word;
}

static bool does_aim(const draft *d)
{
    return d->aim.width > 0 && d->aim.height > 0;
}

/* Whether something goes wrong, about once in so many times, and less often where a picture is to come of the list. */
static bool draw_mishap(const draft *d, uint32_t times)
{
    return draw_once_in(does_aim(d) ? 8 * times : times);
}

/* ---- Single words ---- */

/* The bits of the word that no field has. */
static uint32_t reserved_bits(const entry *e)
{
    static const uint32_t ones[FIELDS] = { 0xFFFFFFFF, 0xFFFFFFFF, 0xFFFFFFFF, 0xFFFFFFFF, 0xFFFFFFFF };
    uint32_t top = e->command >= 0x40 ? 0xC0000000 : 0xFF000000;
    return ~(top | place_fields(e, ones));
}

static uint32_t draw_meant_value(const field *f)
{
    static const uint32_t drawn_formats[] = { ARGB1555, L8, RGB565 };
    static const uint32_t drawn_primitives[] = { BITMAPS, POINTS, LINES, LINE_STRIP, RECTS };
    if (f->kind == FORMAT)
        return DRAW_ONE_OF(drawn_formats);
    if (f->kind == PRIMITIVE)
        return DRAW_ONE_OF(drawn_primitives);
    switch (draw_below(8)) {
    case 0:
        return least_meant(f);
    case 1:
        return largest_meant(f);
    default:
        return least_meant(f) + draw_below(largest_meant(f) - least_meant(f) + 1);
    }
}

/* A word of this command with a meaning that is drawn, as far as that is the word's own affair. */
static uint32_t draw_word_of(uint32_t command)
{
    const entry *e = find_entry(command);
    uint32_t value[FIELDS] = { 0 };
    for (unsigned n = 0; n < e->fields; n++)
        value[n] = draw_meant_value(&e->field[n]);
    uint32_t word = place_fields(e, value);
    uint32_t filter_and_wraps = BITMAP_SIZE(1, 1, 1, 0, 0) & 0x00FFFFFF;
    if (command == JV_BITMAP_SIZE)
        word &= ~filter_and_wraps;
    return draw_once_in(8) ? word | (draw() & reserved_bits(e)) : word;
}

/* Numbers next to which something changes, and now and then any. */
static uint32_t draw_telling_byte(void)
{
    static const uint32_t telling[] = { 0, 1, 2, 127, 128, 254, 255, 255 };
    return draw_once_in(2) ? DRAW_ONE_OF(telling) : draw_below(256);
}

/* Seldom NEVER, for nothing is drawn under it. */
static uint32_t draw_test(void)
{
    return draw_once_in(40) ? NEVER : draw_from(LESS, ALWAYS);
}

static uint32_t draw_stencil_test(void)
{
    static const uint32_t masks[] = { 255, 255, 1, 3, 0x0F, 0xF0 };
    uint32_t func = draw_test();
    uint32_t ref = draw_once_in(2) ? draw_below(4) : draw_telling_byte();
    return STENCIL_FUNC(func, ref, DRAW_ONE_OF(masks));
}

static uint32_t draw_blend(void)
{
    uint32_t src = draw_below(ONE_MINUS_DST_ALPHA + 1), dst = draw_below(ONE_MINUS_DST_ALPHA + 1);
    return draw_once_in(3) ? BLEND_FUNC(SRC_ALPHA, ONE_MINUS_SRC_ALPHA) : BLEND_FUNC(src, dst);
}

static uint32_t draw_colour_mask(void)
{
    uint32_t bits = draw_once_in(2) ? 15 : draw_below(16);
    return COLOR_MASK(bits >> 3, bits >> 2, bits >> 1, bits);
}

/* Up to a size that fills the frame, mostly; seldom up to the largest there is. */
static uint32_t draw_size(const draft *d, uint32_t most)
{
    uint32_t longer_side = d->aim.width > d->aim.height ? d->aim.width : d->aim.height;
    switch (draw_below(8)) {
    case 0:
        return draw_below(most + 1);
    case 1:
    case 2:
    case 3:
        return draw_below(8 * longer_side + 16) % (most + 1);
    default:
        return draw_below(50);
    }
}

static uint32_t draw_scissor_size(const draft *d)
{
    uint32_t width = draw_below(d->aim.width + 2), height = draw_below(d->aim.height + 2);
    return draw_once_in(2) ? SCISSOR_SIZE(JV_MAX_SCISSOR, JV_MAX_SCISSOR) : SCISSOR_SIZE(width, height);
}

static uint32_t draw_scissor_place(const draft *d)
{
    uint32_t x = draw_below(d->aim.width), y = draw_below(d->aim.height);
    return draw_once_in(3) ? SCISSOR_XY(0, 0) : SCISSOR_XY(x / 2, y / 2);
}

static uint32_t draw_translation(uint32_t command, uint32_t side)
{
    int32_t halfway = (int32_t)draw_below(16 * side + 1) - 8 * (int32_t)side;
    if (draw_once_in(20))
        return draw_word_of(command);
    return command << 24 | (draw_once_in(2) ? 0 : (uint32_t)halfway & 0x1FFFF);
}

/* A word of this command after which something is still seen in the frame, mostly. */
static uint32_t draw_aimed_word_of(const draft *d, uint32_t command)
{
    switch (command) {
    case JV_CLEAR_COLOR_A:
    case JV_CLEAR_STENCIL:
    case JV_COLOR_A:
        return command << 24 | draw_telling_byte();
    case JV_STENCIL_MASK:
        return STENCIL_MASK(draw_once_in(2) ? 255 : draw_below(256));
    case JV_ALPHA_FUNC: {
        uint32_t func = draw_test();
        return ALPHA_FUNC(func, draw_telling_byte());
    }
    case JV_STENCIL_FUNC:
        return draw_stencil_test();
    case JV_BLEND_FUNC:
        return draw_blend();
    case JV_COLOR_MASK:
        return draw_colour_mask();
    case JV_TAG_MASK:
        return TAG_MASK(draw_once_in(4) ? 0 : 1);
    case JV_POINT_SIZE:
        return POINT_SIZE(draw_size(d, 8191));
    case JV_LINE_WIDTH:
        return LINE_WIDTH(draw_size(d, 4095));
    case JV_SCISSOR_XY:
        return draw_scissor_place(d);
    case JV_SCISSOR_SIZE:
        return draw_scissor_size(d);
    case JV_VERTEX_FORMAT:
        return VERTEX_FORMAT(draw_once_in(3) ? draw_below(JV_MAX_FRAC + 1) : 4);
    case JV_VERTEX_TRANSLATE_X:
        return draw_translation(command, d->aim.width);
    case JV_VERTEX_TRANSLATE_Y:
        return draw_translation(command, d->aim.height);
    default:
        return draw_word_of(command);
    }
}

/* Those that neither lead elsewhere nor decide what can be drawn. */
static uint32_t draw_setting(const draft *d)
{
    static const uint32_t commands[] = {
        JV_CLEAR_COLOR_RGB, JV_CLEAR_COLOR_A,      JV_CLEAR_STENCIL,      JV_CLEAR_TAG,    JV_CLEAR,
        JV_COLOR_RGB,       JV_COLOR_A,            JV_TAG,                JV_ALPHA_FUNC,   JV_STENCIL_FUNC,
        JV_STENCIL_OP,      JV_BLEND_FUNC,         JV_COLOR_MASK,         JV_STENCIL_MASK, JV_TAG_MASK,
        JV_POINT_SIZE,      JV_LINE_WIDTH,         JV_SCISSOR_XY,         JV_SCISSOR_SIZE, JV_NOP,
        JV_VERTEX_FORMAT,   JV_VERTEX_TRANSLATE_X, JV_VERTEX_TRANSLATE_Y,
    };
    uint32_t command = DRAW_ONE_OF(commands);
    return does_aim(d) ? draw_aimed_word_of(d, command) : draw_word_of(command);
}

static uint32_t draw_no_command(void)
{
    uint32_t any = draw();
    uint32_t top_byte = draw_from(0x2E, 0x3F);
    return draw_once_in(2) ? 0xC0000000 | any : top_byte << 24 | (any & 0xFFFFFF);
}

static uint32_t draw_no_meaning(void)
{
    static const uint32_t formats[] = { 8, 12, 13, 18, 19, 24, 31 };
    uint32_t any = draw();
    switch (draw_below(10)) {
    case 0:
        return STENCIL_FUNC(draw_from(ALWAYS + 1, 15), any, any >> 8);
    case 1:
        return BLEND_FUNC(draw_from(ONE_MINUS_DST_ALPHA + 1, 7), any);
    case 2:
        return BLEND_FUNC(any, draw_from(ONE_MINUS_DST_ALPHA + 1, 7));
    case 3:
        return STENCIL_OP(draw_from(INVERT + 1, 7), any);
    case 4:
        return STENCIL_OP(any, draw_from(INVERT + 1, 7));
    case 5:
        return BEGIN(any % 3 == 0 ? 0 : draw_from(RECTS + 1, 15));
    case 6:
        return BITMAP_LAYOUT(DRAW_ONE_OF(formats), any, any >> 10);
    case 7:
        return VERTEX_FORMAT(draw_from(JV_MAX_FRAC + 1, 7));
    case 8:
        return SCISSOR_SIZE(draw_from(JV_MAX_SCISSOR + 1, 4095), any);
    default:
        return SCISSOR_SIZE(any, draw_from(JV_MAX_SCISSOR + 1, 4095));
    }
}

static uint32_t draw_not_drawn(void)
{
    static const uint32_t formats[] = { JV_FORMAT_L1,           JV_FORMAT_L4,        JV_FORMAT_RGB332,
                                        JV_FORMAT_ARGB2,        JV_FORMAT_ARGB4,     JV_FORMAT_TEXT8X8,
                                        JV_FORMAT_TEXTVGA,      JV_FORMAT_BARGRAPH,  JV_FORMAT_PALETTED565,
                                        JV_FORMAT_PALETTED4444, JV_FORMAT_PALETTED8, JV_FORMAT_L2 };
    uint32_t any = draw();
    switch (draw_below(5)) {
    case 0:
        return BEGIN(draw_from(EDGE_STRIP_R, EDGE_STRIP_B));
    case 1:
        return BITMAP_LAYOUT(DRAW_ONE_OF(formats), any, any >> 10);
    case 2: {
        uint32_t filter_and_wraps = draw_from(1, 7);
        return BITMAP_SIZE(filter_and_wraps >> 2, filter_and_wraps >> 1, filter_and_wraps, any, any >> 9);
    }
    case 3:
        return draw_from(JV_BITMAP_TRANSFORM_A, JV_BITMAP_TRANSFORM_F) << 24 | (any % 2 == 0 ? 256 : any & 0xFFFFFF);
    default:
        return draw_word_of(any % 2 == 0 ? JV_PALETTE_SOURCE : JV_MACRO);
    }
}

/* A place on the side of a frame or a little beside it: in sixteenths, on a pixel, or in pixels for a small frac. */
static int32_t draw_place(uint32_t side)
{
    switch (draw_below(12)) {
    case 0:
        return (int32_t)draw_below(32768) - 16384;
    case 1:
        return (int32_t)draw_below(side + 8) - 4;
    case 2:
    case 3:
        return 16 * ((int32_t)draw_below(side + 8) - 4);
    default:
        return (int32_t)draw_below(16 * side + 96) - 48;
    }
}

static uint32_t draw_vertex2f(const draft *d)
{
    if (does_aim(d)) {
        int32_t x = draw_place(d->aim.width), y = draw_place(d->aim.height);
        return VERTEX2F(x, y);
    }
    uint32_t any = draw();
    return VERTEX2F(any >> 15, any);
}

static uint32_t draw_vertex2ii(const draft *d, uint32_t handle, uint32_t cell)
{
    if (does_aim(d)) {
        uint32_t x = draw_below(d->aim.width + 2), y = draw_below(d->aim.height + 2);
        return VERTEX2II(x, y, handle, cell);
    }
    uint32_t any = draw();
    return VERTEX2II(any >> 9, any, handle, cell);
}

uint32_t draw_word_like(uint32_t word, frame_size frame)
{
    static draft d;
    uint32_t command = command_of(word);
    d.aim = frame;
    if (command == JV_CALL || command == JV_JUMP || find_entry(command) == NULL)
        return word;
    if (command == JV_VERTEX2F)
        return draw_vertex2f(&d);
    if (command == JV_VERTEX2II)
        return draw_vertex2ii(&d, word >> 7, word);
    return does_aim(&d) ? draw_aimed_word_of(&d, command) : draw_word_of(command);
}

/* ---- Bitmaps ---- */

static bool is_ready(const draft *d, uint32_t handle)
{
    for (unsigned n = 0; n < d->ready_count; n++)
        if (d->ready[n].handle == handle)
            return true;
    return false;
}

typedef struct {
    uint32_t format, source, stride, layout_height, width, height;
} bitmap_settings;

/* Mostly small, now and then such as only the H words can say. */
static uint32_t draw_measure(uint32_t most)
{
    return draw_once_in(6) ? draw_from(1, most) : draw_from(1, 40);
}

static bitmap_settings draw_bitmap_settings(void)
{
    static const uint32_t formats[] = { ARGB1555, L8, RGB565 };
    bitmap_settings b = { .format = DRAW_ONE_OF(formats) };
    b.stride = draw_measure(4095);
    b.layout_height = draw_measure(2047);
    b.width = draw_measure(2047);
    b.height = draw_measure(2047);
    if (b.format != L8)
        b.stride = b.stride / 2 * 2 + (b.stride == 1 ? 2 : 0);
    return b;
}

/* So that cells 0 to `last_cell` fit, the last of them often to the byte. Gives false where not even one fits. */
static bool place_cells(bitmap_settings *b, size_t ram_g_length, uint32_t *last_cell)
{
    uint32_t cell_bytes = b->stride * b->layout_height;
    if (cell_bytes > ram_g_length)
        return false;
    uint32_t most_cells = (uint32_t)ram_g_length / cell_bytes;
    *last_cell = draw_below(most_cells > MOST_CELL ? MOST_CELL + 1 : most_cells);
    uint32_t room = (uint32_t)ram_g_length - (*last_cell + 1) * cell_bytes;
    b->source = draw_once_in(2) ? room : draw_below(room + 1);
    if (b->format != L8)
        b->source = b->source / 2 * 2;
    return true;
}

/* In any order, for none undoes another. Now and then one is forgotten. */
static void put_bitmap_settings(draft *d, const bitmap_settings *b, bool needs_high_words)
{
    uint32_t words[] = {
        BITMAP_SOURCE(b->source),
        BITMAP_LAYOUT(b->format, b->stride, b->layout_height),
        BITMAP_SIZE(0, 0, 0, b->width, b->height),
        BITMAP_LAYOUT_H(b->stride >> 10, b->layout_height >> 9),
        BITMAP_SIZE_H(b->width >> 9, b->height >> 9),
    };
    size_t count = needs_high_words ? 5 : 3;
    size_t first = draw_below((uint32_t)count);
    size_t left = draw_mishap(d, 40) ? count - 1 : count;
    for (size_t n = 0; n < left; n++)
        put(d, words[(first + n) % count]);
}

/* One setting that makes the bitmap not drawable, or a little too large. */
static void spoil(bitmap_settings *b)
{
    switch (draw_below(7)) {
    case 0:
    case 1:
        b->source += draw_from(1, 2);
        break;
    case 2:
        b->stride += 1;
        break;
    case 3:
        b->stride = 0;
        break;
    case 4:
        b->layout_height = 0;
        break;
    case 5:
        b->width = 0;
        break;
    default:
        b->height = 0;
        break;
    }
}

static void set_up_bitmap(draft *d)
{
    uint32_t handle = draw_below(JV_HANDLES);
    bitmap_settings b = draw_bitmap_settings();
    ready_handle ready = { handle, 0 };
    if (d->ready_count == MOST_READY || !place_cells(&b, d->ram_g_length, &ready.last_cell))
        return;
    bool is_large = b.stride > 1023 || b.layout_height > 511 || b.width > 511 || b.height > 511;
    bool needs_high_words = is_large || is_ready(d, handle) || draw_once_in(3);
    if (draw_mishap(d, 24))
        spoil(&b);
    put(d, BITMAP_HANDLE(handle));
    put_bitmap_settings(d, &b, needs_high_words);
    if (is_ready(d, handle))
        for (unsigned n = 0; n < d->ready_count; n++)
            d->ready[n] = d->ready[n].handle == handle ? ready : d->ready[n];
    else
        d->ready[d->ready_count++] = ready;
}

/* ---- Groups of words ---- */

static void maybe_put_setting(draft *d)
{
    if (draw_once_in(3))
        put(d, draw_setting(d));
}

static void put_settings(draft *d)
{
    for (uint32_t left = draw_from(1, 6); left > 0; left--)
        put(d, draw_setting(d));
}

static void put_points_or_rectangles(draft *d)
{
    put(d, BEGIN(draw_once_in(2) ? POINTS : RECTS));
    for (uint32_t left = draw_from(1, 6); left > 0; left--) {
        maybe_put_setting(d);
        uint32_t any = draw();
        put(d, any % 2 == 0 ? draw_vertex2f(d) : draw_vertex2ii(d, any >> 1, any >> 6));
    }
    if (draw_once_in(2))
        put(d, END());
}

static void put_bitmaps(draft *d)
{
    if (d->ready_count == 0)
        return;
    put(d, BEGIN(BITMAPS));
    for (uint32_t left = draw_from(1, 5); left > 0; left--) {
        ready_handle r = d->ready[draw_below(d->ready_count)];
        uint32_t cell = draw_once_in(3) ? r.last_cell : draw_below(r.last_cell + 1);
        if (draw_mishap(d, 40))
            cell = r.last_cell + 1;
        if (draw_once_in(2)) {
            put(d, draw_vertex2ii(d, r.handle, cell));
        } else {
            put(d, BITMAP_HANDLE(r.handle));
            put(d, CELL(cell));
            put(d, draw_vertex2f(d));
        }
    }
    if (draw_once_in(2))
        put(d, END());
}

static void put_saves(draft *d)
{
    for (uint32_t left = draw_from(1, 6); left > 0; left--) {
        bool takes_ready = d->ready_count > 0 && !draw_mishap(d, 8);
        ready_handle r =
            takes_ready ? d->ready[draw_below(d->ready_count)] : (ready_handle){ draw_below(JV_HANDLES), 3 };
        put(d, BITMAP_HANDLE(r.handle));
        put(d, CELL(draw_below(r.last_cell + 1)));
        maybe_put_setting(d);
        put(d, SAVE_CONTEXT());
    }
}

static void put_restores(draft *d)
{
    for (uint32_t left = draw_from(1, 6); left > 0; left--)
        put(d, RESTORE_CONTEXT());
}

/* Whether handle and cell are drawable after them shows which contexts were kept. */
static void put_contexts(draft *d)
{
    if (!draw_once_in(4))
        put_saves(d);
    maybe_put_setting(d);
    put_restores(d);
    if (draw_once_in(3) && d->ready_count > 0) {
        put(d, BEGIN(BITMAPS));
        put(d, draw_vertex2f(d));
    }
}

static void put_call(draft *d, unsigned stretch)
{
    bool has_room = d->call_count < MOST_CALLS_PUT && d->count < MOST_WORDS;
    if (stretch + 1 >= d->stretches || !has_room)
        return;
    d->calls[d->call_count].at = d->count;
    d->calls[d->call_count].stretch = draw_from(stretch + 1, draw_once_in(3) ? d->stretches - 1 : stretch + 1);
    d->call_count++;
    put(d, CALL(0));
}

/* A jump forward over words that need not be words at all. */
static void put_jump(draft *d)
{
    uint32_t left = draw_below(4);
    put(d, JUMP(4 * (d->count + 1 + left)));
    for (; left > 0; left--)
        put(d, draw());
}

static void put_jump_back(draft *d)
{
    put(d, JUMP(4 * draw_below((uint32_t)d->count + 1)));
}

/* ---- Lines ---- */

/* None, or such that whole numbers are often just as far away. */
static uint32_t draw_line_width(const draft *d)
{
    switch (draw_below(6)) {
    case 0:
        return 0;
    case 1:
        return 5 * draw_below(16);
    case 2:
        return 16 * draw_below(4);
    default:
        return draw_size(d, 4095);
    }
}

/* In the unit of VERTEX2F. */
typedef struct {
    int32_t x, y;
} end_place;

static bool is_in_vertex2f(end_place e)
{
    return -16384 <= e.x && e.x < 16384 && -16384 <= e.y && e.y < 16384;
}

static end_place draw_end(const draft *d)
{
    int32_t x = does_aim(d) ? draw_place(d->aim.width) : (int32_t)draw_below(32768) - 16384;
    int32_t y = does_aim(d) ? draw_place(d->aim.height) : (int32_t)draw_below(32768) - 16384;
    return (end_place){ x, y };
}

/* The end after this one: the same, or in a row, a column or a diagonal with it, or steep or flat, or where distances
   are whole numbers; and often anywhere. */
static end_place draw_end_after(const draft *d, end_place last)
{
    static const end_place ways[] = { { 0, 0 }, { 1, 0 },  { -1, 0 },  { 0, 1 },   { 0, -1 }, { 1, 1 },   { 1, -1 },
                                      { 1, 9 }, { -7, 1 }, { 16, 48 }, { 48, 16 }, { 3, 4 },  { -4, -3 }, { 12, -5 } };
    end_place way = DRAW_ONE_OF(ways);
    int32_t steps = (int32_t)draw_below(draw_once_in(4) ? 1000 : 60);
    end_place next = { last.x + steps * way.x, last.y + steps * way.y };
    return draw_once_in(2) && is_in_vertex2f(next) ? next : draw_end(d);
}

/* As far away as an end may lie, or nearly; and now and then too far. */
static int32_t draw_far_place(const draft *d)
{
    static const int32_t far[] = { JV_MIN_END, JV_MIN_END + 1, JV_MAX_END - 1, JV_MAX_END };
    static const int32_t too_far[] = { JV_MIN_END - 1, JV_MAX_END + 1, -49152, 49151 };
    if (draw_mishap(d, 6))
        return DRAW_ONE_OF(too_far);
    return draw_once_in(2) ? DRAW_ONE_OF(far) : (int32_t)draw_below(JV_MAX_END - JV_MIN_END + 1) + JV_MIN_END;
}

/* An end at this place in sixteenths, which a vertex alone might not reach: in any format, and with a translation that
   is mostly taken back. */
static void put_end_at(draft *d, int32_t x, int32_t y)
{
    uint32_t frac = draw_below(JV_MAX_FRAC + 1);
    int32_t unit = (int32_t)1 << (4 - frac);
    int32_t said_x = (int32_t)draw_below(2000) - 1000, said_y = (int32_t)draw_below(2000) - 1000;
    put(d, VERTEX_FORMAT(frac));
    put(d, VERTEX_TRANSLATE_X(x - unit * said_x));
    put(d, VERTEX_TRANSLATE_Y(y - unit * said_y));
    put(d, VERTEX2F(said_x, said_y));
    if (draw_mishap(d, 4))
        return;
    put(d, VERTEX_FORMAT(4));
    put(d, VERTEX_TRANSLATE_X(0));
    put(d, VERTEX_TRANSLATE_Y(0));
}

static void put_far_end(draft *d)
{
    uint32_t which = draw_below(3);
    int32_t x = which == 0 ? draw_place(d->aim.width) : draw_far_place(d);
    int32_t y = which == 1 ? draw_place(d->aim.height) : draw_far_place(d);
    put_end_at(d, x, y);
}

/* As far on the other side of the middle, but no further than an end may lie. */
static int32_t opposite(int32_t place, int32_t middle)
{
    int32_t other = 2 * middle - place;
    return other < JV_MIN_END ? JV_MIN_END : other > JV_MAX_END ? JV_MAX_END : other;
}

/* Two ends on either side of a place in the frame, so that a segment from far to far is seen there. */
static void put_crossing_ends(draft *d)
{
    int32_t middle_x = draw_place(d->aim.width), middle_y = draw_place(d->aim.height);
    int32_t x = draw_far_place(d), y = draw_far_place(d);
    put_end_at(d, x, y);
    put_end_at(d, opposite(x, middle_x), opposite(y, middle_y));
}

/* What may come between two ends: other settings for the second, what drops an open end, and what leaves it. */
static void put_between_ends(draft *d, unsigned stretch, uint32_t primitive)
{
    switch (draw_below(24)) {
    case 0:
        put(d, BEGIN(primitive));
        break;
    case 1:
        put(d, END());
        put(d, BEGIN(primitive));
        break;
    case 2:
        put(d, BEGIN(primitive == LINES ? LINE_STRIP : LINES));
        break;
    case 3:
        put(d, SAVE_CONTEXT());
        break;
    case 4:
        put(d, RESTORE_CONTEXT());
        break;
    case 5:
        put_jump(d);
        break;
    case 6:
    case 7:
        put(d, LINE_WIDTH(draw_line_width(d)));
        break;
    case 8:
        if (draw_once_in(4))
            put_call(d, stretch);
        break;
    default:
        maybe_put_setting(d);
        break;
    }
}

static void put_end(draft *d, end_place end)
{
    uint32_t any = draw();
    if (any % 24 == 0)
        put_far_end(d);
    else if (any % 24 == 1)
        put_crossing_ends(d);
    else if (any % 24 <= 5)
        put(d, draw_vertex2ii(d, any >> 8, any >> 13));
    else
        put(d, VERTEX2F(end.x, end.y));
}

static void put_lines(draft *d, unsigned stretch)
{
    uint32_t primitive = draw_once_in(2) ? LINES : LINE_STRIP;
    end_place end = draw_end(d);
    if (!draw_once_in(4))
        put(d, LINE_WIDTH(draw_line_width(d)));
    put(d, BEGIN(primitive));
    for (uint32_t left = draw_once_in(20) ? draw_from(20, 60) : draw_from(1, 8); left > 0; left--) {
        put_end(d, end);
        put_between_ends(d, stretch, primitive);
        end = draw_end_after(d, end);
    }
    if (draw_once_in(2))
        put(d, END());
}

/* ---- Any group ---- */

static void put_group(draft *d, unsigned stretch)
{
    switch (draw_below(18)) {
    case 0:
    case 1:
    case 2:
        put_points_or_rectangles(d);
        break;
    case 3:
    case 4:
    case 5:
        put_bitmaps(d);
        break;
    case 6:
        set_up_bitmap(d);
        break;
    case 7:
    case 8:
        put_contexts(d);
        break;
    case 9:
    case 10:
    case 11:
        put_call(d, stretch);
        break;
    case 12:
        put_jump(d);
        break;
    case 13:
    case 14:
        put_lines(d, stretch);
        break;
    default:
        put_settings(d);
        break;
    }
}

/* ---- Lists ---- */

static void put_clear(draft *d)
{
    put(d, draw_word_of(JV_CLEAR_COLOR_RGB));
    put(d, draw_aimed_word_of(d, JV_CLEAR_COLOR_A));
    put(d, CLEAR_STENCIL(draw_below(4)));
    put(d, draw_word_of(JV_CLEAR));
}

static void put_stretch(draft *d, unsigned stretch, uint32_t groups)
{
    d->start[stretch] = d->count;
    if (stretch == 0 && does_aim(d))
        put_clear(d);
    if (stretch == 0)
        for (uint32_t left = draw_below(4); left > 0; left--)
            set_up_bitmap(d);
    for (; groups > 0; groups--)
        put_group(d, stretch);
    if (draw_once_in(60))
        put_jump_back(d);
    bool ends_the_list = stretch == 0 || draw_once_in(20);
    if (!draw_once_in(60))
        put(d, ends_the_list ? DISPLAY() : RETURN());
}

static void set_call_targets(draft *d)
{
    for (unsigned n = 0; n < d->call_count; n++)
        d->words[d->calls[n].at] = CALL(4 * d->start[d->calls[n].stretch]);
}

/* Stretch 0 comes first, or after the others with a jump to it. There is always at least one word. */
static void write_draft(draft *d, size_t ram_g_length, frame_size aim)
{
    memset(d, 0, sizeof *d);
    d->ram_g_length = ram_g_length;
    d->aim = aim;
    d->stretches = draw_from(1, MOST_STRETCHES);
    bool comes_last = draw_once_in(4);
    uint32_t groups = draw_once_in(100) ? 150 : draw_from(1, does_aim(d) ? 16 : 8);
    if (comes_last)
        put(d, NOP());
    else
        put_stretch(d, 0, groups);
    for (unsigned n = 1; n < d->stretches; n++)
        put_stretch(d, n, draw_from(0, 4));
    if (comes_last) {
        put_stretch(d, 0, groups);
        d->words[0] = JUMP(4 * d->start[0]);
    }
    if (d->count == 0)
        put(d, NOP());
    set_call_targets(d);
}

uint32_t draw_faulty_word(size_t at, size_t count)
{
    static const uint32_t strays[] = { JV_RETURN, JV_END, JV_VERTEX2F, JV_VERTEX2II };
    switch (draw_below(15)) {
    case 0:
        return draw_no_command();
    case 1:
        return draw_no_meaning();
    case 2:
        return draw_not_drawn();
    case 3:
        return draw_once_in(2) ? CALL(4 * at) : CALL(draw());
    case 4:
        return JUMP(draw_once_in(2) ? draw_below(4 * (uint32_t)count) : draw());
    case 5:
        return JUMP(4 * count);
    case 6:
        return RETURN();
    case 7:
        return BITMAP_HANDLE(draw());
    case 8:
        return BITMAP_SOURCE(draw());
    case 9:
    case 10:
    case 11:
        return draw_word_of(draw_once_in(2) ? JV_VERTEX_TRANSLATE_X : JV_VERTEX_TRANSLATE_Y);
    default:
        return draw_word_of(DRAW_ONE_OF(strays));
    }
}

/* Words that each call the next; the last may split a word, and may be one call too many. */
static void put_call_chain(draft *d, size_t at)
{
    size_t last = at + draw_from(2, 4);
    for (; at < last && at + 1 < d->count; at++)
        d->words[at] = CALL(4 * (at + 1));
    d->words[at] = CALL(4 * at + draw_below(8));
}

static void put_fault(draft *d)
{
    size_t at = draw_below((uint32_t)d->count);
    if (draw_once_in(12))
        put_call_chain(d, at);
    else
        d->words[at] = draw_faulty_word(at, d->count);
}

static void spoil_word(draft *d)
{
    size_t at = draw_below((uint32_t)d->count), other = draw_below((uint32_t)d->count);
    uint32_t word = d->words[at];
    switch (draw_below(5)) {
    case 0:
        d->words[at] = word ^ (uint32_t)1 << draw_below(32);
        break;
    case 1:
        d->words[at] = draw_word_of(guide[draw_below(COMMANDS)].command);
        break;
    case 2:
        d->words[at] = d->words[other];
        d->words[other] = word;
        break;
    case 3:
        memmove(&d->words[at], &d->words[at + 1], (d->count - at - 1) * sizeof d->words[0]);
        d->words[d->count - 1] = word;
        break;
    default:
        d->words[at] = NOP();
        break;
    }
}

/* Words of any command with values of any kind, or any bits at all. */
static void write_noise(draft *d)
{
    bool is_of_commands = !draw_once_in(3);
    memset(d, 0, sizeof *d);
    for (uint32_t left = draw_from(1, 40); left > 0; left--)
        put(d, is_of_commands ? draw_word_of(guide[draw_below(COMMANDS)].command) : draw());
}

static void write_kind(draft *d, list_kind kind, size_t ram_g_length, frame_size aim)
{
    if (kind == NOISE) {
        write_noise(d);
        return;
    }
    write_draft(d, ram_g_length, aim);
    if (kind == WITH_A_FAULT)
        put_fault(d);
    for (uint32_t left = kind == SPOILT ? draw_from(1, 6) : 0; left > 0; left--)
        spoil_word(d);
}

/* ---- What goes with a list ---- */

static size_t draw_ram_g_length(void)
{
    switch (draw_below(8)) {
    case 0:
        return 0;
    case 1:
    case 2:
        return draw_from(1, 200);
    case 3:
        return JV_MAX_RAM_G_BYTES;
    case 4:
        return draw_below(JV_MAX_RAM_G_BYTES + 1);
    default:
        return draw_from(200, 20000);
    }
}

static uint32_t draw_side(uint32_t most)
{
    if (draw_once_in(60))
        return draw_once_in(2) ? 0 : most + draw_from(1, 3);
    return draw_once_in(6) ? most : draw_from(1, most);
}

static uint32_t draw_bad_limit(void)
{
    switch (draw_below(3)) {
    case 0:
        return 0;
    case 1:
        return JV_MAX_LIMIT + 1;
    default:
        return draw() | 0x80000000;
    }
}

/* Often next to the number of words that the list fetches before it ends or fails. */
static uint32_t draw_limit(const run_request *r)
{
    run_request long_run = *r;
    long_run.limit = LONG_RUN;
    run_answer ran = run_list(&long_run);
    bool seems_endless = ran.number == JV_LIMIT_REACHED;
    switch (draw_below(8)) {
    case 0:
        return ran.count > 0 ? ran.count : 1;
    case 1:
        return ran.count > 1 ? ran.count - 1 : 1;
    case 2:
        return ran.count + 1;
    case 3:
        return draw_from(1, ran.count + 1);
    default:
        return seems_endless && !draw_once_in(50) ? draw_from(1, LONG_RUN) : JV_MAX_LIMIT;
    }
}

size_t draw_bad_length(size_t length)
{
    switch (draw_below(4)) {
    case 0:
        return 0;
    case 1:
        return JV_MAX_LIST_BYTES + draw_from(1, 16);
    default:
        return length - draw_from(1, 3);
    }
}

/* Every twentieth list or so is refused for a number that it comes with. */
static void spoil_request(run_request *r)
{
    if (draw_once_in(60))
        r->limit = draw_bad_limit();
    if (draw_once_in(60))
        r->list_length = draw_bad_length(r->list_length);
    if (draw_once_in(60))
        r->ram_g_length = JV_MAX_RAM_G_BYTES + 1;
}

static void write_list(made_list *made, list_kind kind, frame_size aim)
{
    static draft d;
    size_t ram_g_length = draw_ram_g_length();
    write_kind(&d, kind, ram_g_length, aim);
    memset(made->bytes, 0, sizeof made->bytes);
    put_words(made->bytes, d.words, d.count);
    made->request = (run_request){ .list = made->bytes, .list_length = 4 * d.count, .ram_g_length = ram_g_length };
}

void make_list(made_list *made, list_kind kind)
{
    write_list(made, kind, (frame_size){ 0, 0 });
    made->request.width = draw_side(JV_MAX_WIDTH);
    made->request.height = draw_side(JV_MAX_HEIGHT);
    made->request.limit = draw_limit(&made->request);
    spoil_request(&made->request);
}

void make_list_for_frame(made_list *made, list_kind kind, frame_size frame)
{
    write_list(made, kind, frame);
    made->request.width = frame.width;
    made->request.height = frame.height;
    made->request.limit = draw_once_in(8) ? draw_limit(&made->request) : LONG_RUN;
    spoil_request(&made->request);
}
