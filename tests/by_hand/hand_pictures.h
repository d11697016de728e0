/* Pictures worked out by hand, drawn in signs, which both the library and the second program have to paint. */
#ifndef HAND_PICTURES_H
#define HAND_PICTURES_H

#include <stdbool.h>
#include <stddef.h>
#include <stdint.h>

#include "../shared/list_words.h"
#include "../shared/paint_check.h"
#include "../shared/tables.h"

/* What a sign stands for. Three signs always stand for the same: '.' for what nothing was drawn on, black with tag 0,
   '#' for what the starting values draw, white with tag 255, and '~' for what stays as it was lent. */
typedef struct {
    char sign;
    shown_pixel pixel;
} legend_entry;

enum { AS_LENT = '~' };

/* A list, all of whose words are fetched once, and what it paints: one string of signs for each row. Or two lists, and
   what a repaint from the old one leaves (hand_repaints.h). */
typedef struct {
    int line;
    const char *name;
    const uint32_t *words;
    size_t count;
    const char *const *rows;
    size_t height;
    const legend_entry *legend;
    size_t legend_count;
    const uint8_t *ram_g;
    size_t ram_g_length;
    const uint32_t *old_words;
    size_t old_count;
} hand_picture;

#define SHOWS(...)                                                                                                     \
    .rows = (const char *const[]){ __VA_ARGS__ }, .height = LENGTH(((const char *const[]){ __VA_ARGS__ }))
#define WHERE(...)                                                                                                     \
    .legend = (const legend_entry[]){ __VA_ARGS__ }, .legend_count = LENGTH(((const legend_entry[]){ __VA_ARGS__ }))
#define OVER_RAM_G(...)                                                                                                \
    .ram_g = (const uint8_t[]){ __VA_ARGS__ }, .ram_g_length = LENGTH(((const uint8_t[]){ __VA_ARGS__ }))
#define OVER_MEMORY(bytes) .ram_g = (bytes), .ram_g_length = sizeof(bytes)

size_t width_of(const hand_picture *picture);

/* Rows of a picture as they came, from row `first` on. */
typedef struct {
    const char *call;
    jv_answer answer;
    const lent_runs *runs;
    size_t first, count;
} came_rows;

bool are_rows_as_wanted(const hand_picture *picture, const came_rows *came);
void print_rows(const hand_picture *picture, const came_rows *came);

/* Whether two runs of this length, either of which may be NULL for 0 bytes, are the same. */
bool are_equal_bytes(const uint8_t *a, const uint8_t *b, size_t length);

/* Has it painted by the frame and row by row, by both programs. `file` is where it stands. */
void check_picture(const char *file, const hand_picture *picture);

#define CHECK_PICTURES(part, table) check_pictures(__FILE__, part, table, LENGTH(table))
void check_pictures(const char *file, const char *part, const hand_picture *table, size_t count);

/* A picture of one pixel. */
#define CHECK_PIXEL(name, wanted, ...)                                                                                 \
    check_picture(__FILE__, &(const hand_picture){ CASE(name), LIST(__VA_ARGS__), SHOWS("x"), WHERE({ 'x', wanted }) })

/* Points that cover every pixel of a frame of at most 300 by 300, from now on one with each EVERYWHERE. */
#define BEGIN_EVERYWHERE BEGIN(POINTS), POINT_SIZE(8191)
#define EVERYWHERE VERTEX2F(0, 0)

/* Handle 0 at the start of RAM_G. */
#define BITMAP(format, stride, layout_height, width, height)                                                           \
    BITMAP_SOURCE(0), BITMAP_LAYOUT(format, stride, layout_height), BITMAP_SIZE(0, 0, 0, width, height), BEGIN(BITMAPS)

/* Greys by letters, and a texel of which only the tag shows. */
#define GREYS                                                                                                          \
    WHERE({ 'a', { 10, 10, 10, 255 } }, { 'b', { 20, 20, 20, 255 } }, { 'c', { 30, 30, 30, 255 } },                    \
          { 'd', { 40, 40, 40, 255 } }, { 'e', { 50, 50, 50, 255 } }, { 'f', { 60, 60, 60, 255 } },                    \
          { '0', { 0, 0, 0, 255 } })

/* The greys a b and c d. */
#define OVER_ABCD OVER_RAM_G(10, 20, 30, 40)
#define TWO_BY_TWO BITMAP(L8, 2, 2, 2, 2)

/* Words after which the picture's red, green and blue are what the stored alpha was; the tags stay. Blending white by
   the stored alpha makes each of them (255 * alpha + 127) / 255. */
#define SHOW_ALPHA                                                                                                     \
    RESTORE_CONTEXT(), TAG_MASK(0), COLOR_MASK(1, 1, 1, 0), BLEND_FUNC(3, 0), BEGIN_EVERYWHERE, EVERYWHERE

/* Words after which red, green and blue are what the stored stencil was; the tags stay. Where a bit of it is set, a
   colour of that bit's worth is added. */
#define SHOW_STENCIL_BIT(bit)                                                                                          \
    STENCIL_FUNC(5, 1 << (bit), 1 << (bit)), COLOR_RGB(1 << (bit), 1 << (bit), 1 << (bit)), EVERYWHERE
#define SHOW_STENCIL                                                                                                   \
    RESTORE_CONTEXT(), TAG_MASK(0), BEGIN_EVERYWHERE, COLOR_RGB(0, 0, 0), BLEND_FUNC(0, 0), EVERYWHERE,                \
        BLEND_FUNC(1, 1), SHOW_STENCIL_BIT(0), SHOW_STENCIL_BIT(1), SHOW_STENCIL_BIT(2), SHOW_STENCIL_BIT(3),          \
        SHOW_STENCIL_BIT(4), SHOW_STENCIL_BIT(5), SHOW_STENCIL_BIT(6), SHOW_STENCIL_BIT(7)

#endif
