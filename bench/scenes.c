#include "scenes.h"

#include <stdbool.h>
#include <string.h>

#include "../tests/shared/list_words.h"

/* A list being written, with its edit. */
typedef struct {
    uint32_t *words;
    size_t count;
    bool is_word_changed, is_action_inserted, are_colours_changed;
} draft;

static void put(draft *d, uint32_t word)
{
    d->words[d->count++] = word;
}

/* In pixels; VERTEX2F counts in sixteenths until VERTEX_FORMAT says otherwise. */
static void put_vertex(draft *d, uint32_t x, uint32_t y)
{
    put(d, VERTEX2F(16 * x, 16 * y));
}

static void put_rectangle(draft *d, uint32_t x, uint32_t y, uint32_t width, uint32_t height)
{
    put_vertex(d, x, y);
    put_vertex(d, x + width, y + height);
}

/* The colours go with n and none is like another nearby. */
static void put_colour(draft *d, uint32_t n)
{
    if (d->are_colours_changed)
        n++;
    put(d, COLOR_RGB(64 + 37 * n % 192, 64 + 59 * n % 192, 64 + 83 * n % 192));
}

/* The edit's other colour, like none that goes with an n. */
static void put_other_colour(draft *d)
{
    put(d, COLOR_RGB(255, 0, 0));
}

static void put_clear(draft *d)
{
    put(d, CLEAR_COLOR_RGB(16, 24, 48));
    put(d, CLEAR(1, 1, 1));
}

/* ---- Shapes ---- */

/* The one in the middle is a rectangle with a line width of 10 pixels. */
enum { LARGE_SHAPES = 20, MIDDLE_SHAPE = 9 };

static void put_large_point(draft *d, uint32_t n)
{
    put(d, BEGIN(POINTS));
    put(d, POINT_SIZE(16 * (60 + 5 * n)));
    put_vertex(d, 60 + 173 * n % 700, 40 + 97 * n % 400);
}

static void put_large_rectangle(draft *d, uint32_t n)
{
    put(d, BEGIN(RECTS));
    put(d, LINE_WIDTH(16 * (1 + n)));
    put_rectangle(d, 20 + 131 * n % 560, 20 + 71 * n % 300, 160 + 4 * n, 100 + 3 * n);
}

/* Every second point and every second rectangle is translucent. */
static void write_shapes(draft *d)
{
    put_clear(d);
    for (uint32_t n = 0; n < LARGE_SHAPES; n++) {
        if (n == MIDDLE_SHAPE && d->is_word_changed)
            put_other_colour(d);
        else
            put_colour(d, n);
        put(d, COLOR_A(n / 2 % 2 == 0 ? 255 : 96 + 8 * n));
        put(d, TAG(n + 1));
        if (n % 2 == 0)
            put_large_point(d, n);
        else
            put_large_rectangle(d, n);
        if (n == MIDDLE_SHAPE && d->is_action_inserted) {
            put(d, BEGIN(RECTS));
            put_rectangle(d, 300, 300, 40, 3);
        }
    }
    put(d, DISPLAY());
}

/* ---- Map ---- */

enum { MAP_COLUMNS = 20, MAP_ROWS = 15, MIDDLE_OF_MAP = 149 };

static void write_map(draft *d)
{
    put_clear(d);
    put(d, BEGIN(RECTS));
    for (uint32_t n = 0; n < MAP_COLUMNS * MAP_ROWS; n++) {
        if (n == MIDDLE_OF_MAP && d->is_word_changed)
            put_other_colour(d);
        else
            put_colour(d, n);
        put(d, TAG(1 + n % 255));
        put_rectangle(d, 6 + 40 * (n % MAP_COLUMNS), 6 + 32 * (n / MAP_COLUMNS), 24 + n % 5, 16 + n % 3);
        if (n == MIDDLE_OF_MAP && d->is_action_inserted) {
            put(d, BEGIN(RECTS));
            put_rectangle(d, 300, 300, 40, 21);
        }
    }
    put(d, DISPLAY());
}

/* ---- Lines ---- */

enum { WAYS = 12, VERTICES_OF_A_WAY = 9, SHORT_COLUMNS = 12, SHORT_ROWS = 8, MIDDLE_LINE = 47 };

/* A strip that goes to and fro across the frame. */
static void put_way(draft *d, uint32_t n)
{
    put_colour(d, n);
    put(d, TAG(n + 1));
    put(d, LINE_WIDTH(8 + 12 * n));
    put(d, BEGIN(LINE_STRIP));
    for (uint32_t v = 0; v < VERTICES_OF_A_WAY; v++)
        put_vertex(d, 20 + (97 * n + 173 * v) % 760, 20 + (61 * n + 89 * v) % 440);
}

/* It leads to the right, downwards or upwards, flat or steep. */
static void put_short_line(draft *d, uint32_t n)
{
    uint32_t x = 10 + 66 * (n % SHORT_COLUMNS), y = 10 + 59 * (n / SHORT_COLUMNS);
    uint32_t right = 7 * n % 50, down = 11 * n % 40;
    put(d, LINE_WIDTH(8 + 16 * (n % 4)));
    put_vertex(d, x, n % 2 == 0 ? y : y + down);
    put_vertex(d, x + right, n % 2 == 0 ? y + down : y);
}

/* What is inserted is 3.5 pixels wide to either side, as the line before it, and so reaches 3 rows beyond its ends. */
static void write_lines(draft *d)
{
    put_clear(d);
    for (uint32_t n = 0; n < WAYS; n++)
        put_way(d, n);
    put(d, BEGIN(LINES));
    for (uint32_t n = 0; n < SHORT_COLUMNS * SHORT_ROWS; n++) {
        if (n == MIDDLE_LINE && d->is_word_changed)
            put_other_colour(d);
        else
            put_colour(d, n);
        put(d, TAG(WAYS + 1 + n));
        put_short_line(d, n);
        if (n == MIDDLE_LINE && d->is_action_inserted) {
            put(d, BEGIN(LINES));
            put_vertex(d, 300, 303);
            put_vertex(d, 340, 320);
        }
    }
    put(d, DISPLAY());
}

/* ---- Icons ---- */

enum { ICON_SIDE = 24, ICON_CELLS = 8, ICON_HANDLES = 3, ICON_COLUMNS = 20, ICON_ROWS = 10, MIDDLE_ICON = 100 };

/* Handle 0 is L8, 1 RGB565, 2 ARGB1555, each with its cells one after the other. */
static void put_icon_handles(draft *d)
{
    static const uint32_t formats[ICON_HANDLES] = { L8, RGB565, ARGB1555 };
    uint32_t source = 0;
    for (uint32_t handle = 0; handle < ICON_HANDLES; handle++) {
        uint32_t stride = formats[handle] == L8 ? ICON_SIDE : 2 * ICON_SIDE;
        put(d, BITMAP_HANDLE(handle));
        put(d, BITMAP_SOURCE(source));
        put(d, BITMAP_LAYOUT(formats[handle], stride, ICON_SIDE));
        put(d, BITMAP_SIZE(0, 0, 0, ICON_SIDE, ICON_SIDE));
        source += ICON_CELLS * stride * ICON_SIDE;
    }
}

/* VERTEX2II names handle and cell in one word but ends at column 511. */
static void put_icon(draft *d, uint32_t x, uint32_t y, uint32_t handle, uint32_t cell)
{
    if (x < 512 && y < 512) {
        put(d, VERTEX2II(x, y, handle, cell));
        return;
    }
    put(d, BITMAP_HANDLE(handle));
    put(d, CELL(cell));
    put_vertex(d, x, y);
}

static void put_inserted_icon(draft *d)
{
    put(d, BEGIN(BITMAPS));
    put_icon(d, 300, 300, 0, 0);
}

/* The icon that is moved goes to the right by a quarter. */
static void write_icons(draft *d)
{
    put_clear(d);
    put_icon_handles(d);
    put(d, BEGIN(BITMAPS));
    for (uint32_t n = 0; n < ICON_COLUMNS * ICON_ROWS; n++) {
        if (n % 4 == 0)
            put_colour(d, n);
        put(d, TAG(n + 1));
        uint32_t further = n == MIDDLE_ICON && d->is_word_changed ? ICON_SIDE / 4 : 0;
        put_icon(d, 8 + 40 * (n % ICON_COLUMNS) + further, 12 + 46 * (n / ICON_COLUMNS), n % ICON_HANDLES,
                 n / 3 % ICON_CELLS);
        if (n == MIDDLE_ICON && d->is_action_inserted)
            put_inserted_icon(d);
    }
    put(d, DISPLAY());
}

/* ---- A full list ---- */

/* Where the stretches that a full list calls start, in bytes. */
typedef struct {
    uint32_t lamp, two_lamps;
} stretches;

static uint32_t place_of_next(const draft *d)
{
    return 4 * (uint32_t)d->count;
}

/* A small lamp at the origin that the caller's translation sets, and two of them, the second calling the first. */
static stretches put_stretches(draft *d)
{
    stretches s;
    s.lamp = place_of_next(d);
    put(d, POINT_SIZE(16 * 6));
    put(d, BEGIN(POINTS));
    put_vertex(d, 8, 8);
    put(d, RETURN());

    s.two_lamps = place_of_next(d);
    put(d, CALL(s.lamp));
    put(d, COLOR_RGB(255, 255, 255));
    put(d, POINT_SIZE(16 * 2));
    put_vertex(d, 24, 8);
    put(d, RETURN());
    return s;
}

enum { MIDDLE_CARD = 43 };

/* One card: a box, a dial cut to its half by a scissor, an icon and lamps, under a translation of its own. */
static void put_card(draft *d, uint32_t n, stretches s)
{
    uint32_t x = 10 + 97 * n % 720, y = 8 + 61 * n % 430;
    put(d, SAVE_CONTEXT());
    put_colour(d, n);
    put(d, COLOR_A(n % 3 == 0 ? 160 : 255));
    put(d, TAG(1 + n % 255));
    put(d, VERTEX_TRANSLATE_X(16 * x));
    put(d, VERTEX_TRANSLATE_Y(16 * y));
    put(d, LINE_WIDTH(16 * (1 + n % 4)));
    put(d, BEGIN(RECTS));
    put_rectangle(d, 0, 0, 60, 30);
    put(d, SCISSOR_XY(x, y));
    put(d, SCISSOR_SIZE(60, 12));
    put(d, BEGIN(POINTS));
    put(d, POINT_SIZE(16 * 12));
    put_vertex(d, 30, 12);
    put(d, SCISSOR_XY(0, 0));
    put(d, SCISSOR_SIZE(JV_MAX_SCISSOR, JV_MAX_SCISSOR));
    put(d, BEGIN(BITMAPS));
    put(d, ALPHA_FUNC(3, 16));
    put_icon(d, n == MIDDLE_CARD && d->is_word_changed ? 10 : 4, 3, n % ICON_HANDLES, n % ICON_CELLS);
    put(d, CALL(n % 2 == 0 ? s.lamp : s.two_lamps));
    put(d, END());
    put(d, RESTORE_CONTEXT());
}

/* NOP fills up what is too short for another card. */
static void write_full(draft *d)
{
    put(d, NOP());
    stretches s = put_stretches(d);
    d->words[0] = JUMP(place_of_next(d));
    put_clear(d);
    put_icon_handles(d);
    size_t before = d->count;
    put_card(d, 0, s);
    size_t words_in_a_card = d->count - before;
    for (uint32_t n = 1; d->count + words_in_a_card < MOST_WORDS; n++) {
        put_card(d, n, s);
        if (n == MIDDLE_CARD && d->is_action_inserted)
            put_inserted_icon(d);
    }
    while (d->count < MOST_WORDS - 1)
        put(d, NOP());
    put(d, DISPLAY());
}

/* ---- */

static const struct {
    const char *name;
    void (*write)(draft *d);
} scenes[] = {
    { "shapes", write_shapes },
    { "map", write_map },
    { "lines", write_lines },
    { "icons", write_icons },
    { "full", write_full },
};

size_t write_scene(const char *name, const char *edit, uint32_t words[MOST_WORDS])
{
    draft d = { words, 0, strcmp(edit, "word") == 0, strcmp(edit, "action") == 0,
                strcmp(edit, "colours") == 0 };
    for (size_t n = 0; n < sizeof scenes / sizeof scenes[0]; n++)
        if (strcmp(scenes[n].name, name) == 0)
            scenes[n].write(&d);
    return d.count;
}

void fill_scene_ram_g(uint8_t ram_g[RAM_G_BYTES])
{
    for (size_t n = 0; n < RAM_G_BYTES; n++)
        ram_g[n] = (uint8_t)(n * 31 + n / 256 * 7);
}
