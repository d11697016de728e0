/* A library that is wrong on purpose, so that what finds mistakes can be tried. It stands between the program and the
   library: the linker's --wrap has each call come here first. JV_WRONG names the one mistake that is made; without it
   every call is passed on. */
#include <stdbool.h>
#include <stdlib.h>
#include <string.h>

#include "guide.h"
#include "jokulvisp.h"
#include "painter.h"
#include "runner.h"

enum { MOST_PIXELS = JV_MAX_WIDTH * JV_MAX_HEIGHT };

static bool is_made(const char *mistake)
{
    const char *named = getenv("JV_WRONG");
    return named != NULL && strcmp(named, mistake) == 0;
}

/* ---- Words ---- */

jv_word __real_jv_read_word(uint32_t bits);
jv_word __wrap_jv_read_word(uint32_t bits);

jv_word __wrap_jv_read_word(uint32_t bits)
{
    jv_word read = __real_jv_read_word(bits);
    if (is_made("a sign is lost in reading") && read.command == JV_VERTEX_TRANSLATE_X)
        read.a &= 0x1FFFF;
    return read;
}

jv_bits __real_jv_write_word(uint32_t command, uint32_t a, uint32_t b, uint32_t c, uint32_t d, uint32_t e);
jv_bits __wrap_jv_write_word(uint32_t command, uint32_t a, uint32_t b, uint32_t c, uint32_t d, uint32_t e);

jv_bits __wrap_jv_write_word(uint32_t command, uint32_t a, uint32_t b, uint32_t c, uint32_t d, uint32_t e)
{
    bool is_one_too_many = command == JV_COLOR_RGB && a <= 255 && b == 256 && c <= 255 && d == 0 && e == 0;
    if (is_made("a field too large is written") && is_one_too_many)
        return (jv_bits){ JV_DONE, command << 24 | a << 16 | c };
    return __real_jv_write_word(command, a, b, c, d, e);
}

/* ---- Lists ---- */

jv_answer __real_jv_check(const uint8_t *list, size_t list_length, const uint8_t *ram_g, size_t ram_g_length,
                          uint32_t width, uint32_t height, uint32_t limit);
jv_answer __wrap_jv_check(const uint8_t *list, size_t list_length, const uint8_t *ram_g, size_t ram_g_length,
                          uint32_t width, uint32_t height, uint32_t limit);

/* Whether the run fetches a RETURN: it does if it stops at one that is no command any more. */
static bool is_return_fetched(const uint8_t *list, size_t list_length, const uint8_t *ram_g, size_t ram_g_length,
                              uint32_t width, uint32_t height, uint32_t limit)
{
    static uint8_t without[JV_MAX_LIST_BYTES];
    if (list_length > sizeof without)
        return false;
    for (size_t n = 0; n < list_length; n++)
        without[n] = n % 4 == 3 && list[n] == JV_RETURN ? 0xFF : list[n];
    jv_answer a = __real_jv_check(without, list_length, ram_g, ram_g_length, width, height, limit);
    return a.number == JV_NO_COMMAND && list[a.place + 3] == JV_RETURN;
}

jv_answer __wrap_jv_check(const uint8_t *list, size_t list_length, const uint8_t *ram_g, size_t ram_g_length,
                          uint32_t width, uint32_t height, uint32_t limit)
{
    jv_answer a = __real_jv_check(list, list_length, ram_g, ram_g_length, width, height, limit);
    if (is_made("a word too many is counted after RETURN") &&
        is_return_fetched(list, list_length, ram_g, ram_g_length, width, height, limit))
        a.count++;
    if (is_made("a list of ten words is written to") && list_length >= 40)
        ((uint8_t *)list)[36] ^= 1;
    if (is_made("a list of ten words is the end") && list_length >= 40)
        abort();
    return a;
}

/* ---- Pictures ---- */

jv_answer __real_jv_paint(const uint8_t *list, size_t list_length, const uint8_t *ram_g, size_t ram_g_length,
                          uint32_t width, uint32_t height, uint32_t limit, uint8_t *picture, size_t picture_length,
                          uint8_t *tags, size_t tags_length);
jv_answer __wrap_jv_paint(const uint8_t *list, size_t list_length, const uint8_t *ram_g, size_t ram_g_length,
                          uint32_t width, uint32_t height, uint32_t limit, uint8_t *picture, size_t picture_length,
                          uint8_t *tags, size_t tags_length);

/* One value of red comes out as the next one, but not in a grey. */
static void round_up(uint8_t *picture, size_t picture_length)
{
    for (size_t n = 0; n + 3 <= picture_length; n += 3)
        if (picture[n] == 77 && picture[n + 1] != 77)
            picture[n]++;
}

jv_answer __wrap_jv_paint(const uint8_t *list, size_t list_length, const uint8_t *ram_g, size_t ram_g_length,
                          uint32_t width, uint32_t height, uint32_t limit, uint8_t *picture, size_t picture_length,
                          uint8_t *tags, size_t tags_length)
{
    jv_answer a = __real_jv_paint(list, list_length, ram_g, ram_g_length, width, height, limit, picture, picture_length,
                                  tags, tags_length);
    if (is_made("one value is rounded up") && a.number == JV_DONE)
        round_up(picture, picture_length);
    if (is_made("a refused picture is written to") && a.number == JV_NO_PRIMITIVE)
        picture[0] ^= 1;
    if (is_made("a byte behind the tags is written") && a.number == JV_DONE && width == 13)
        tags[tags_length] ^= 1;
    return a;
}

jv_answer __real_jv_paint_row(const uint8_t *list, size_t list_length, const uint8_t *ram_g, size_t ram_g_length,
                              uint32_t width, uint32_t height, uint32_t row, uint32_t limit, uint8_t *picture,
                              size_t picture_length, uint8_t *tags, size_t tags_length);
jv_answer __wrap_jv_paint_row(const uint8_t *list, size_t list_length, const uint8_t *ram_g, size_t ram_g_length,
                              uint32_t width, uint32_t height, uint32_t row, uint32_t limit, uint8_t *picture,
                              size_t picture_length, uint8_t *tags, size_t tags_length);

jv_answer __wrap_jv_paint_row(const uint8_t *list, size_t list_length, const uint8_t *ram_g, size_t ram_g_length,
                              uint32_t width, uint32_t height, uint32_t row, uint32_t limit, uint8_t *picture,
                              size_t picture_length, uint8_t *tags, size_t tags_length)
{
    if (is_made("a row below the frame is painted") && row == height && height > 0)
        row--;
    return __real_jv_paint_row(list, list_length, ram_g, ram_g_length, width, height, row, limit, picture,
                               picture_length, tags, tags_length);
}

/* ---- Repaints ---- */

jv_answer __real_jv_repaint(const uint8_t *old_list, size_t old_list_length, const uint8_t *new_list,
                            size_t new_list_length, const uint8_t *ram_g, size_t ram_g_length, uint32_t width,
                            uint32_t height, uint32_t limit, uint8_t *picture, size_t picture_length, uint8_t *tags,
                            size_t tags_length, uint8_t *marks, size_t marks_length);
jv_answer __wrap_jv_repaint(const uint8_t *old_list, size_t old_list_length, const uint8_t *new_list,
                            size_t new_list_length, const uint8_t *ram_g, size_t ram_g_length, uint32_t width,
                            uint32_t height, uint32_t limit, uint8_t *picture, size_t picture_length, uint8_t *tags,
                            size_t tags_length, uint8_t *marks, size_t marks_length);

/* The last row that each point reaches. */
typedef struct {
    uint32_t width, height;
    bool is_last[JV_MAX_HEIGHT];
} last_rows;

static void find_last_row(void *taker, const run_action *action)
{
    last_rows *l = taker;
    uint32_t row = l->height;
    while (row > 0 && !does_reach_row(action, l->width, row - 1))
        row--;
    if (action->kind == A_POINT && row > 0)
        l->is_last[row - 1] = true;
}

static uint8_t picture_before[3 * MOST_PIXELS], tags_before[MOST_PIXELS];

/* The row is as it was lent, and not marked. */
static void forget_row(size_t row, size_t width, uint8_t *picture, uint8_t *tags, uint8_t *marks)
{
    marks[row] = 0;
    memcpy(picture + 3 * width * row, picture_before + 3 * width * row, 3 * width);
    memcpy(tags + width * row, tags_before + width * row, width);
}

/* Gives how many rows were forgotten. */
static uint32_t forget_last_rows(const run_request *new_run, uint8_t *picture, uint8_t *tags, uint8_t *marks)
{
    static last_rows last;
    uint32_t count = 0;
    last = (last_rows){ .width = new_run->width, .height = new_run->height };
    run_list_for_actions(new_run, find_last_row, &last);
    for (size_t row = 0; row < last.height; row++)
        if (marks[row] != 0 && last.is_last[row]) {
            forget_row(row, last.width, picture, tags, marks);
            count++;
        }
    return count;
}

jv_answer __wrap_jv_repaint(const uint8_t *old_list, size_t old_list_length, const uint8_t *new_list,
                            size_t new_list_length, const uint8_t *ram_g, size_t ram_g_length, uint32_t width,
                            uint32_t height, uint32_t limit, uint8_t *picture, size_t picture_length, uint8_t *tags,
                            size_t tags_length, uint8_t *marks, size_t marks_length)
{
    run_request new_run = { new_list, new_list_length, ram_g_length, width, height, limit };
    if (picture_length <= sizeof picture_before && tags_length <= sizeof tags_before) {
        memcpy(picture_before, picture, picture_length);
        memcpy(tags_before, tags, tags_length);
    }
    jv_answer a = __real_jv_repaint(old_list, old_list_length, new_list, new_list_length, ram_g, ram_g_length, width,
                                    height, limit, picture, picture_length, tags, tags_length, marks, marks_length);
    if (is_made("the last row of a point is forgotten") && a.number == JV_DONE)
        a.count -= forget_last_rows(&new_run, picture, tags, marks);
    return a;
}

/* ---- The ring ---- */

jv_ring __real_jv_ring_run(const uint8_t *ring, size_t ring_length, uint8_t *ram_dl, size_t ram_dl_length,
                           uint8_t *shown, size_t shown_length, uint8_t *ram_g, size_t ram_g_length, uint32_t read,
                           uint32_t write, uint32_t offset, uint32_t fault);
jv_ring __wrap_jv_ring_run(const uint8_t *ring, size_t ring_length, uint8_t *ram_dl, size_t ram_dl_length,
                           uint8_t *shown, size_t shown_length, uint8_t *ram_g, size_t ram_g_length, uint32_t read,
                           uint32_t write, uint32_t offset, uint32_t fault);

jv_ring __wrap_jv_ring_run(const uint8_t *ring, size_t ring_length, uint8_t *ram_dl, size_t ram_dl_length,
                           uint8_t *shown, size_t shown_length, uint8_t *ram_g, size_t ram_g_length, uint32_t read,
                           uint32_t write, uint32_t offset, uint32_t fault)
{
    jv_ring a = __real_jv_ring_run(ring, ring_length, ram_dl, ram_dl_length, shown, shown_length, ram_g, ram_g_length,
                                   read, write, offset, fault);
    if (is_made("a command without its parameters is taken") && a.number == JV_RING_WAITING)
        a = (jv_ring){ JV_RING_IDLE, 0, a.count + 1, a.write, a.write, a.write, a.offset, 0 };
    return a;
}

jv_ring __real_jv_ring_write(uint8_t *ring, size_t ring_length, const uint8_t *words, size_t words_length,
                             uint32_t read, uint32_t write, uint32_t offset, uint32_t fault);
jv_ring __wrap_jv_ring_write(uint8_t *ring, size_t ring_length, const uint8_t *words, size_t words_length,
                             uint32_t read, uint32_t write, uint32_t offset, uint32_t fault);

jv_ring __wrap_jv_ring_write(uint8_t *ring, size_t ring_length, const uint8_t *words, size_t words_length,
                             uint32_t read, uint32_t write, uint32_t offset, uint32_t fault)
{
    jv_ring a = __real_jv_ring_write(ring, ring_length, words, words_length, read, write, offset, fault);
    bool is_around_end = a.number == JV_RING_IDLE && write + words_length > JV_RING_BYTES;
    if (is_made("the first byte behind the ring's end is lost") && is_around_end)
        ring[0] ^= 1;
    return a;
}

jv_ring __real_jv_ring_reset(void);
jv_ring __wrap_jv_ring_reset(void);

jv_ring __wrap_jv_ring_reset(void)
{
    jv_ring a = __real_jv_ring_reset();
    if (is_made("a reset leaves the offset"))
        a.offset = 4;
    return a;
}
