/* Repaints of lists with so many actions that the library does not keep them all, on either side of that number and on
   both; and of the largest frame. Points of one pixel each go over a frame of 40 by 25, row by row, again and again. */
#include "repaints_by_hand.h"

#include <stdio.h>
#include <string.h>

#include "../shared/check.h"
#include "hand_repaints.h"

enum { WIDTH = 40, HEIGHT = 25, PIXELS = WIDTH * HEIGHT, MOST_LIST_WORDS = JV_MAX_LIST_BYTES / 4 };

/* ---- Lists of points ---- */

typedef struct {
    uint32_t words[MOST_LIST_WORDS];
    size_t count;
} point_list;

static void put(point_list *l, uint32_t word)
{
    l->words[l->count++] = word;
}

/* The point of this number, from 0 on: in the order of the pixels, from the first again after the last. */
static uint32_t point(uint32_t n)
{
    return VERTEX2II(n % PIXELS % WIDTH, n % PIXELS / WIDTH, 0, 0);
}

/* So many points, those from `red_from` on in red. */
static void write_points(point_list *l, uint32_t points, uint32_t red_from)
{
    l->count = 0;
    put(l, POINT_SIZE(0));
    put(l, BEGIN(POINTS));
    for (uint32_t n = 0; n < points; n++) {
        if (n == red_from)
            put(l, COLOR_RGB(255, 0, 0));
        put(l, point(n));
    }
    put(l, DISPLAY());
}

/* ---- What is wanted ---- */

/* The rows of a frame as signs. They start as rows that are kept. */
typedef struct {
    char signs[HEIGHT][WIDTH + 1];
    const char *rows[HEIGHT];
} sign_rows;

static void start_rows(sign_rows *s)
{
    for (uint32_t y = 0; y < HEIGHT; y++) {
        memset(s->signs[y], AS_LENT, WIDTH);
        s->signs[y][WIDTH] = 0;
        s->rows[y] = s->signs[y];
    }
}

/* Where the last of so many points on the pixel stands in the list, or -1. */
static int32_t last_point_on(uint32_t pixel, uint32_t points)
{
    return pixel < points ? (int32_t)((points - 1 - pixel) / PIXELS * PIXELS + pixel) : -1;
}

/* A row with a point from `first` on is marked and shows the points of the whole list. */
static void mark_rows_from(sign_rows *s, uint32_t first, uint32_t past_last, uint32_t points, uint32_t red_from)
{
    for (uint32_t n = first; n < past_last; n++) {
        uint32_t y = n % PIXELS / WIDTH;
        for (uint32_t x = 0; x < WIDTH; x++) {
            int32_t last = last_point_on(y * WIDTH + x, points);
            s->signs[y][x] = last < 0 ? '.' : last >= (int32_t)red_from ? 'r' : '#';
        }
    }
}

/* ---- Repaints ---- */

static void check_lists(const char *name, const point_list *from, const point_list *to, const sign_rows *wanted)
{
    check_repaint(__FILE__, &(const hand_picture){ CASE(name), .words = to->words, .count = to->count,
                                                   .rows = wanted->rows, .height = HEIGHT, .old_words = from->words,
                                                   .old_count = from->count, WHERE({ 'r', { 255, 0, 0, 255 } }) });
}

static point_list from, to;
static sign_rows wanted;

/* The points from `red_from` on become red. */
static void check_recoloured(uint32_t points, uint32_t red_from)
{
    char name[48];
    snprintf(name, sizeof name, "%u points, red from %u on", points, red_from);
    write_points(&from, points, points);
    write_points(&to, points, red_from);
    start_rows(&wanted);
    mark_rows_from(&wanted, red_from, points, points, red_from);
    check_lists(name, &from, &to, &wanted);
}

/* Points are added at the end; the way back, which check_repaint goes too, takes them away. */
static void check_added(uint32_t points, uint32_t more)
{
    char name[48];
    snprintf(name, sizeof name, "%u points and %u more", points, more);
    write_points(&from, points, points);
    write_points(&to, points + more, points + more);
    start_rows(&wanted);
    mark_rows_from(&wanted, points, points + more, points + more, points + more);
    check_lists(name, &from, &to, &wanted);
}

static void check_numbers_of_points(void)
{
    static const uint32_t numbers[] = { 1, 1023, 1024, 1025, 2000 };
    begin_part("repaints of many actions");
    for (size_t n = 0; n < LENGTH(numbers); n++) {
        check_recoloured(numbers[n], numbers[n] - 1);
        check_recoloured(numbers[n], numbers[n] / 2);
        check_added(numbers[n], 0);
        check_added(numbers[n], 1);
    }
    check_added(0, 2000);
}

/* 60 calls of a stretch that draws 100 points, the last of them another one: its row alone is marked, and that of the
   one before. */
static void write_calls(point_list *l, uint32_t last_point)
{
    enum { CALLS = 60, POINTS_IN_A_CALL = 100 };
    l->count = 0;
    put(l, POINT_SIZE(0));
    put(l, BEGIN(POINTS));
    uint32_t stretch = 4 * (2 + CALLS + 1);
    for (uint32_t n = 0; n < CALLS; n++)
        put(l, CALL(stretch));
    put(l, DISPLAY());
    for (uint32_t n = 0; n + 1 < POINTS_IN_A_CALL; n++)
        put(l, point(n));
    put(l, point(last_point));
    put(l, RETURN());
}

static void check_called_points(void)
{
    write_calls(&from, 8 * WIDTH);
    write_calls(&to, 9 * WIDTH + 1);
    start_rows(&wanted);
    memset(wanted.signs[8], '.', WIDTH);
    memset(wanted.signs[9], '.', WIDTH);
    wanted.signs[9][1] = '#';
    check_lists("6,000 points by calls", &from, &to, &wanted);
}

/* ---- The largest frame ---- */

static void check_largest_frame(void)
{
    static char kept[JV_MAX_WIDTH + 1], first[JV_MAX_WIDTH + 1], last[JV_MAX_WIDTH + 1];
    static const char *rows[JV_MAX_HEIGHT];
    begin_part("repaints of the largest frame");
    memset(kept, AS_LENT, JV_MAX_WIDTH);
    memset(first, '.', JV_MAX_WIDTH);
    memset(last, '.', JV_MAX_WIDTH);
    first[0] = '#';
    last[JV_MAX_WIDTH - 1] = '#';
    for (uint32_t y = 0; y < JV_MAX_HEIGHT; y++)
        rows[y] = y == 0 ? first : y == JV_MAX_HEIGHT - 1 ? last : kept;
    check_repaint(__FILE__,
                  &(const hand_picture){
                      CASE("two corners of the largest frame"), .rows = rows, .height = JV_MAX_HEIGHT, FROM(DISPLAY()),
                      TO(POINT_SIZE(0), BEGIN(POINTS), VERTEX2F(0, 0), VERTEX2F(16 * 799, 16 * 599), DISPLAY()) });
}

void check_many_repaints_by_hand(void)
{
    check_numbers_of_points();
    check_called_points();
    check_largest_frame();
}
