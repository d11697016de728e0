/* Lists of so many actions that the library does not keep them all while it paints: on both sides of that number, and
   the most that one list holds. Points of one pixel each go over a small frame again and again, and each adds 1; a
   strip goes to and fro along a row. */
#include "pictures_by_hand.h"

#include <stdio.h>

#include "hand_pictures.h"

enum { WIDTH = 40, HEIGHT = 25, PIXELS = WIDTH * HEIGHT, MOST_LIST_WORDS = JV_MAX_LIST_BYTES / 4 };

/* Points in the order of the pixels, from the first again after the last. */
static size_t write_points(uint32_t words[MOST_LIST_WORDS], uint32_t points)
{
    static const uint32_t before[] = { COLOR_RGB(1, 1, 1), BLEND_FUNC(ONE, ONE), POINT_SIZE(0), BEGIN(POINTS) };
    size_t count = 0;
    while (count < LENGTH(before)) {
        words[count] = before[count];
        count++;
    }
    for (uint32_t n = 0; n < points; n++)
        words[count++] = VERTEX2II(n % PIXELS % WIDTH, n % PIXELS / WIDTH, 0, 0);
    words[count++] = DISPLAY();
    return count;
}

/* How often the points came by, as a sign. */
static char sign_of(uint32_t pixel, uint32_t points)
{
    uint32_t times = points / PIXELS + (pixel < points % PIXELS ? 1 : 0);
    return ".123"[times];
}

static void check_points(uint32_t points)
{
    static uint32_t words[MOST_LIST_WORDS];
    static char signs[HEIGHT][WIDTH + 1];
    const char *rows[HEIGHT];
    char name[32];
    for (uint32_t y = 0; y < HEIGHT; y++) {
        for (uint32_t x = 0; x < WIDTH; x++)
            signs[y][x] = sign_of(y * WIDTH + x, points);
        rows[y] = signs[y];
    }
    snprintf(name, sizeof name, "%u points", points);
    check_picture(__FILE__, &(const hand_picture){ CASE(name), .words = words, .count = write_points(words, points),
                                                   .rows = rows, .height = HEIGHT,
                                                   WHERE({ '1', { 1, 1, 1, 255 } }, { '2', { 2, 2, 2, 255 } },
                                                         { '3', { 3, 3, 3, 255 } }) });
}

/* Along row 0 all the time, but for the last segment, which goes down and is red. */
static void check_strip(uint32_t segments)
{
    static uint32_t words[MOST_LIST_WORDS];
    bool ends_at_right = segments % 2 == 0;
    char name[32];
    size_t count = 0;
    words[count++] = LINE_WIDTH(0);
    words[count++] = BEGIN(LINE_STRIP);
    for (uint32_t n = 0; n < segments; n++)
        words[count++] = VERTEX2II(n % 2 == 0 ? 0 : 3, 0, 0, 0);
    words[count++] = COLOR_RGB(255, 0, 0);
    words[count++] = VERTEX2II(ends_at_right ? 3 : 0, 1, 0, 0);
    words[count++] = DISPLAY();
    snprintf(name, sizeof name, "a strip of %u segments", segments);
    const char *const rows[] = { ends_at_right ? "###r" : "r###", ends_at_right ? "...r" : "r..." };
    check_picture(__FILE__, &(const hand_picture){ CASE(name), .words = words, .count = count, .rows = rows,
                                                   .height = LENGTH(rows), WHERE({ 'r', { 255, 0, 0, 255 } }) });
}

void check_many_by_hand(void)
{
    static const uint32_t numbers[] = { 1, 999, 1000, 1022, 1023, 1024, 1025, 1026, 2000, 2043 };
    for (size_t n = 0; n < LENGTH(numbers); n++)
        check_points(numbers[n]);
    static const uint32_t lengths[] = { 2, 3, 1022, 1023, 1024, 1025, 1026, 2042, 2043 };
    for (size_t n = 0; n < LENGTH(lengths); n++)
        check_strip(lengths[n]);
}
