#include "painter.h"

#include <string.h>

#include "jokulvisp.h"

enum { MOST_PIXELS = JV_MAX_WIDTH * JV_MAX_HEIGHT };

/* The low bits of CLEAR and of COLOR_MASK. */
enum { CLEARS_TAG = 1, CLEARS_STENCIL = 2, CLEARS_COLOUR = 4 };
enum { WRITES_ALPHA = 1, WRITES_BLUE = 2, WRITES_GREEN = 4, WRITES_RED = 8 };

/* Pixels from left and top up to but not including right and bottom. */
typedef struct {
    int32_t left, top, right, bottom;
} pixel_box;

/* The rows of a frame that are painted. Each run starts at the first pixel of the first of them. */
typedef struct {
    pixel_box rows;
    uint8_t *picture, *tags, *alpha, *stencil;
    const uint8_t *ram_g;
} canvas;

/* ---- Which pixels ---- */

static int32_t lesser(int32_t v, int32_t w)
{
    return v < w ? v : w;
}

static int32_t greater(int32_t v, int32_t w)
{
    return v < w ? w : v;
}

static pixel_box common_box(pixel_box a, pixel_box b)
{
    return (pixel_box){ greater(a.left, b.left), greater(a.top, b.top), lesser(a.right, b.right),
                        lesser(a.bottom, b.bottom) };
}

static pixel_box box_of_scissor(scissor_box s)
{
    return (pixel_box){ s.x, s.y, s.x + s.width, s.y + s.height };
}

/* Rounded down also below zero, where division in C goes up. */
static int32_t floor_of_16th(int32_t sixteenths)
{
    int32_t quotient = sixteenths / 16;
    return sixteenths % 16 < 0 ? quotient - 1 : quotient;
}

/* The pixels whose samples, at 16 times their numbers, lie in the box from `low` to `high` or as far as `reach` beside
   it. */
static pixel_box box_around(position low, position high, int32_t reach)
{
    return (pixel_box){
        .left = floor_of_16th(low.x - reach + 15),
        .top = floor_of_16th(low.y - reach + 15),
        .right = floor_of_16th(high.x + reach) + 1,
        .bottom = floor_of_16th(high.y + reach) + 1,
    };
}

static pixel_box box_of_segment(const segment_shape *s)
{
    position low = { lesser(s->from.x, s->to.x), lesser(s->from.y, s->to.y) };
    position high = { greater(s->from.x, s->to.x), greater(s->from.y, s->to.y) };
    return box_around(low, high, s->width);
}

/* The smallest box that has every pixel the action covers. */
static pixel_box box_of_action(const run_action *a)
{
    const bitmap_shape *b = &a->bitmap;
    switch (a->kind) {
    case A_POINT:
        return box_around(a->point.centre, a->point.centre, a->point.size);
    case A_RECTANGLE:
        return box_around(a->rectangle.low, a->rectangle.high, a->rectangle.width);
    case A_SEGMENT:
        return box_of_segment(&a->segment);
    case A_BITMAP:
        return (pixel_box){ b->left, b->top, b->left + b->width, b->top + b->height };
    default:
        return box_of_scissor(a->scissor);
    }
}

/* 'Only pixels in both frame and scissor count.' */
static pixel_box reached_box(const run_action *a, pixel_box rows)
{
    return common_box(box_of_action(a), common_box(box_of_scissor(a->scissor), rows));
}

/* Each distance is along one axis and no longer than a size or width of at most 13 bits: the box saw to that. */
static int32_t squared_distance(int32_t dx, int32_t dy)
{
    return dx * dx + dy * dy;
}

/* This and the two below are asked of every pixel: `inline`, lest painting cost more because others ask, too. */
static inline bool is_in_point(const point_shape *p, int32_t x, int32_t y)
{
    return squared_distance(16 * x - p->centre.x, 16 * y - p->centre.y) <= p->size * p->size;
}

/* How far a number lies outside the numbers from low to high. */
static int32_t distance_to(int32_t low, int32_t high, int32_t number)
{
    return number < low ? low - number : number > high ? number - high : 0;
}

static inline bool is_in_rectangle(const rectangle_shape *r, int32_t x, int32_t y)
{
    return squared_distance(distance_to(r->low.x, r->high.x, 16 * x), distance_to(r->low.y, r->high.y, 16 * y)) <=
           r->width * r->width;
}

/* 'Its sample is no further from the closed segment than the line width.' What is nearest to the sample is the first
   end, the second, or a point between them, and there the distance is the cross product divided by the length. Squares
   are compared; that of a cross product, which takes up to 34 bits, is too large for 64. */
static inline bool is_in_segment(const segment_shape *s, int32_t x, int32_t y)
{
    __extension__ typedef __int128 wide;
    int64_t along_x = s->to.x - s->from.x, along_y = s->to.y - s->from.y;
    int64_t from_x = 16 * x - s->from.x, from_y = 16 * y - s->from.y;
    int64_t dot = from_x * along_x + from_y * along_y, length = along_x * along_x + along_y * along_y;
    int64_t width = s->width * s->width;
    if (dot <= 0)
        return from_x * from_x + from_y * from_y <= width;
    if (dot >= length)
        return (from_x - along_x) * (from_x - along_x) + (from_y - along_y) * (from_y - along_y) <= width;
    wide cross = from_x * along_y - from_y * along_x;
    return cross * cross <= (wide)width * length;
}

/* ---- Texels ---- */

static uint32_t two_bytes_at(const uint8_t *byte)
{
    return (uint32_t)byte[1] << 8 | byte[0];
}

/* Wish 3: 'five bits v become v*8 plus v divided by 4 rounded down, six bits become v*4 plus v divided by 16 rounded
   down.' */
static uint8_t five_bits(uint32_t v)
{
    v %= 32;
    return (uint8_t)(v * 8 + v / 4);
}

static uint8_t six_bits(uint32_t v)
{
    v %= 64;
    return (uint8_t)(v * 4 + v / 16);
}

/* 'The one-bit alpha gives 0 or 255, RGB565 alpha is 255.' */
static rgba of_argb1555(uint32_t bits)
{
    return (rgba){ five_bits(bits >> 10), five_bits(bits >> 5), five_bits(bits), bits >> 15 != 0 ? 255 : 0 };
}

static rgba of_rgb565(uint32_t bits)
{
    return (rgba){ five_bits(bits >> 11), six_bits(bits >> 5), five_bits(bits), 255 };
}

/* 'A drawn pixel past stride or layout height reads as (0, 0, 0, 0).' */
static rgba texel(const uint8_t *ram_g, const bitmap_shape *b, uint32_t column, uint32_t line)
{
    uint32_t byte = b->format == JV_FORMAT_L8 ? column : 2 * column;
    if (byte >= b->stride || line >= b->layout_height)
        return (rgba){ 0, 0, 0, 0 };
    const uint8_t *first = ram_g + b->cell_start + line * b->stride + byte;
    if (b->format == JV_FORMAT_L8)
        return (rgba){ 255, 255, 255, *first };
    return b->format == JV_FORMAT_RGB565 ? of_rgb565(two_bytes_at(first)) : of_argb1555(two_bytes_at(first));
}

/* ---- One pixel ---- */

static uint8_t product(uint32_t a, uint32_t b)
{
    return (uint8_t)((a * b + 127) / 255);
}

static rgba colour_product(rgba a, rgba b)
{
    return (rgba){ product(a.red, b.red), product(a.green, b.green), product(a.blue, b.blue),
                   product(a.alpha, b.alpha) };
}

/* `left` is what stands left of the sign: the pixel's alpha, or the masked reference of the stencil test. */
static bool passes(uint8_t func, uint32_t left, uint32_t right)
{
    switch (func) {
    case JV_TEST_NEVER:
        return false;
    case JV_TEST_LESS:
        return left < right;
    case JV_TEST_LEQUAL:
        return left <= right;
    case JV_TEST_GREATER:
        return left > right;
    case JV_TEST_GEQUAL:
        return left >= right;
    case JV_TEST_EQUAL:
        return left == right;
    case JV_TEST_NOTEQUAL:
        return left != right;
    default:
        return true;
    }
}

/* 'INCR and DECR stop at 255 and 0.' */
static uint8_t stencil_after(uint8_t action, uint8_t stored, uint8_t ref)
{
    switch (action) {
    case JV_ACTION_ZERO:
        return 0;
    case JV_ACTION_REPLACE:
        return ref;
    case JV_ACTION_INCR:
        return stored == 255 ? 255 : stored + 1;
    case JV_ACTION_DECR:
        return stored == 0 ? 0 : stored - 1;
    case JV_ACTION_INVERT:
        return (uint8_t)~stored;
    default:
        return stored;
    }
}

/* 'The stencil mask selects the bits written.' */
static void write_stencil(uint8_t *stored, uint8_t value, uint8_t mask)
{
    *stored = (uint8_t)((*stored & ~mask) | (value & mask));
}

static uint32_t factor(uint8_t factor, uint8_t src_alpha, uint8_t dst_alpha)
{
    switch (factor) {
    case JV_FACTOR_ONE:
        return 255;
    case JV_FACTOR_SRC_ALPHA:
        return src_alpha;
    case JV_FACTOR_DST_ALPHA:
        return dst_alpha;
    case JV_FACTOR_ONE_MINUS_SRC_ALPHA:
        return 255u - src_alpha;
    case JV_FACTOR_ONE_MINUS_DST_ALPHA:
        return 255u - dst_alpha;
    default:
        return 0;
    }
}

/* '(S*f + D*g + 127) divided by 255, rounded down, at most 255.' */
static uint8_t blended(uint32_t s, uint32_t f, uint32_t d, uint32_t g)
{
    uint32_t sum = (s * f + d * g + 127) / 255;
    return (uint8_t)(sum < 255 ? sum : 255);
}

/* All four channels take the factors that the alphas before this write give. */
static void write_colour(const canvas *c, const run_action *a, size_t at, rgba s)
{
    uint8_t *pixel = c->picture + 3 * at, *alpha = c->alpha + at;
    uint32_t f = factor(a->blend.src, s.alpha, *alpha), g = factor(a->blend.dst, s.alpha, *alpha);
    if (a->masks.colour & WRITES_RED)
        pixel[0] = blended(s.red, f, pixel[0], g);
    if (a->masks.colour & WRITES_GREEN)
        pixel[1] = blended(s.green, f, pixel[1], g);
    if (a->masks.colour & WRITES_BLUE)
        pixel[2] = blended(s.blue, f, pixel[2], g);
    if (a->masks.colour & WRITES_ALPHA)
        *alpha = blended(s.alpha, f, *alpha, g);
}

/* 'Then alpha test [...], stencil test [...], stencil action, blend, tag. A failed alpha test changes nothing; a failed
   stencil test only the stencil.' */
static void draw_pixel(const canvas *c, const run_action *a, size_t at, rgba colour)
{
    if (!passes(a->alpha_test.func, colour.alpha, a->alpha_test.ref))
        return;
    uint8_t *stencil = c->stencil + at, ref = a->stencil_test.ref, mask = a->stencil_test.mask;
    bool is_passed = passes(a->stencil_test.func, ref & mask, *stencil & mask);
    uint8_t action = is_passed ? a->stencil_actions.spass : a->stencil_actions.sfail;
    write_stencil(stencil, stencil_after(action, *stencil, ref), a->masks.stencil);
    if (!is_passed)
        return;
    write_colour(c, a, at, colour);
    if (a->masks.tag != 0)
        c->tags[at] = a->tag;
}

/* ---- Actions ---- */

/* Where the pixel lies in the runs; the next one of the row lies at the next place. */
static size_t place_of(const canvas *c, int32_t x, int32_t y)
{
    return (size_t)(y - c->rows.top) * (size_t)c->rows.right + (size_t)x;
}

/* 'CLEAR obeys colour, stencil and tag masks', and no test and no blend. */
static void clear_pixel(const canvas *c, const run_action *a, size_t at)
{
    if (a->flags & CLEARS_COLOUR) {
        if (a->masks.colour & WRITES_RED)
            c->picture[3 * at] = a->colour.red;
        if (a->masks.colour & WRITES_GREEN)
            c->picture[3 * at + 1] = a->colour.green;
        if (a->masks.colour & WRITES_BLUE)
            c->picture[3 * at + 2] = a->colour.blue;
        if (a->masks.colour & WRITES_ALPHA)
            c->alpha[at] = a->colour.alpha;
    }
    if (a->flags & CLEARS_STENCIL)
        write_stencil(c->stencil + at, a->clear_stencil, a->masks.stencil);
    if ((a->flags & CLEARS_TAG) && a->masks.tag != 0)
        c->tags[at] = a->tag;
}

static void clear(const canvas *c, const run_action *a, pixel_box box)
{
    for (int32_t y = box.top; y < box.bottom; y++) {
        size_t at = place_of(c, box.left, y);
        for (int32_t x = box.left; x < box.right; x++)
            clear_pixel(c, a, at++);
    }
}

/* The texel of points, rectangles and segments is white, and white times a colour is that colour: (255 * c + 127) / 255
   is c. */
static void draw_point(const canvas *c, const run_action *a, pixel_box box)
{
    for (int32_t y = box.top; y < box.bottom; y++) {
        size_t at = place_of(c, box.left, y);
        for (int32_t x = box.left; x < box.right; x++, at++)
            if (is_in_point(&a->point, x, y))
                draw_pixel(c, a, at, a->colour);
    }
}

static void draw_rectangle(const canvas *c, const run_action *a, pixel_box box)
{
    for (int32_t y = box.top; y < box.bottom; y++) {
        size_t at = place_of(c, box.left, y);
        for (int32_t x = box.left; x < box.right; x++, at++)
            if (is_in_rectangle(&a->rectangle, x, y))
                draw_pixel(c, a, at, a->colour);
    }
}

static void draw_segment(const canvas *c, const run_action *a, pixel_box box)
{
    for (int32_t y = box.top; y < box.bottom; y++) {
        size_t at = place_of(c, box.left, y);
        for (int32_t x = box.left; x < box.right; x++, at++)
            if (is_in_segment(&a->segment, x, y))
                draw_pixel(c, a, at, a->colour);
    }
}

static void draw_bitmap(const canvas *c, const run_action *a, pixel_box box)
{
    const bitmap_shape *b = &a->bitmap;
    for (int32_t y = box.top; y < box.bottom; y++) {
        size_t at = place_of(c, box.left, y);
        for (int32_t x = box.left; x < box.right; x++, at++) {
            rgba read = texel(c->ram_g, b, (uint32_t)(x - b->left), (uint32_t)(y - b->top));
            draw_pixel(c, a, at, colour_product(read, a->colour));
        }
    }
}

static void paint_action(void *taker, const run_action *a)
{
    const canvas *c = taker;
    pixel_box box = reached_box(a, c->rows);
    switch (a->kind) {
    case CLEARING:
        clear(c, a, box);
        break;
    case A_POINT:
        draw_point(c, a, box);
        break;
    case A_RECTANGLE:
        draw_rectangle(c, a, box);
        break;
    case A_SEGMENT:
        draw_segment(c, a, box);
        break;
    case A_BITMAP:
        draw_bitmap(c, a, box);
        break;
    }
}

/* ---- The calls ---- */

/* Alpha and stencil are the program's own. Everything starts at 0, whatever was lent. */
static run_answer paint_rows(const paint_request *r, uint32_t first, uint32_t count)
{
    static uint8_t alpha[MOST_PIXELS], stencil[MOST_PIXELS];
    size_t pixels = (size_t)r->run.width * count;
    canvas c = {
        .rows = { 0, (int32_t)first, (int32_t)r->run.width, (int32_t)(first + count) },
        .picture = r->picture,
        .tags = r->tags,
        .alpha = alpha,
        .stencil = stencil,
        .ram_g = r->ram_g,
    };
    memset(r->picture, 0, 3 * pixels);
    memset(r->tags, 0, pixels);
    memset(alpha, 0, pixels);
    memset(stencil, 0, pixels);
    return run_list_for_actions(&r->run, paint_action, &c);
}

/* A list is run first without painting, so that a fault leaves every byte as lent. Frames that are within limits have
   few enough pixels to multiply. */
static run_answer paint_if_drawable(const paint_request *r, uint32_t first, uint32_t count)
{
    run_answer ran = run_list(&r->run);
    if (ran.number == JV_BAD_FRAME)
        return ran;
    size_t pixels = (size_t)r->run.width * count;
    bool has_rows = first < r->run.height && count <= r->run.height - first;
    if (!has_rows || r->picture_length != 3 * pixels || r->tags_length != pixels)
        return (run_answer){ JV_BAD_FRAME, 0, 0 };
    return ran.number == 0 ? paint_rows(r, first, count) : ran;
}

run_answer paint_frame(const paint_request *request)
{
    return paint_if_drawable(request, 0, request->run.height);
}

run_answer paint_frame_row(const paint_request *request, uint32_t row)
{
    return paint_if_drawable(request, row, 1);
}

run_answer paint_frame_rows(const paint_request *request, uint32_t first, uint32_t count)
{
    return paint_if_drawable(request, first, count);
}

/* ---- What is reached, and how much there is to paint ---- */

typedef struct {
    pixel_box frame;
    uint64_t pixels;
} covered_count;

static bool is_covered(const run_action *a, int32_t x, int32_t y)
{
    switch (a->kind) {
    case A_POINT:
        return is_in_point(&a->point, x, y);
    case A_RECTANGLE:
        return is_in_rectangle(&a->rectangle, x, y);
    case A_SEGMENT:
        return is_in_segment(&a->segment, x, y);
    case A_BITMAP:
        return true;
    default:
        return a->flags != 0;
    }
}

bool does_reach_row(const run_action *a, uint32_t width, uint32_t row)
{
    int32_t y = (int32_t)row;
    pixel_box box = reached_box(a, (pixel_box){ 0, y, (int32_t)width, y + 1 });
    bool has_row = box.top < box.bottom;
    for (int32_t x = box.left; has_row && x < box.right; x++)
        if (is_covered(a, x, y))
            return true;
    return false;
}

static void count_action(void *taker, const run_action *a)
{
    covered_count *counted = taker;
    pixel_box box = reached_box(a, counted->frame);
    for (int32_t y = box.top; y < box.bottom; y++)
        for (int32_t x = box.left; x < box.right; x++)
            counted->pixels += is_covered(a, x, y) ? 1 : 0;
}

uint64_t count_covered_pixels(const run_request *request)
{
    covered_count counted = { .frame = { 0, 0, (int32_t)request->width, (int32_t)request->height }, .pixels = 0 };
    run_list_for_actions(request, count_action, &counted);
    return counted.pixels;
}
