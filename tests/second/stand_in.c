/* The calls of jokulvisp.h, answered by the second program. It stands in for the archive where that cannot be linked or
   looked into: on a machine that is not x86-64, and under sanitizers.

   It gives what the library gives, number by number and byte by byte, but it is a program of its own: what passes with
   it says nothing about the library. */
#include <stdatomic.h>

#include "answers.h"
#include "guide.h"
#include "jokulvisp.h"
#include "painter.h"
#include "repainter.h"
#include "ringer.h"
#include "runner.h"

/* The second program works in memory of its own that there is once, and calls may come from several threads: one of
   them goes on, the others wait. */
static atomic_flag is_working = ATOMIC_FLAG_INIT;

static void start_work(void)
{
    while (atomic_flag_test_and_set(&is_working)) {
    }
}

static void end_work(void)
{
    atomic_flag_clear(&is_working);
}

/* ---- Words ---- */

jv_word jv_read_word(uint32_t bits)
{
    return guide_read(bits);
}

jv_bits jv_write_word(uint32_t command, uint32_t a, uint32_t b, uint32_t c, uint32_t d, uint32_t e)
{
    return guide_write(instruct(command, a, b, c, d, e));
}

/* ---- Lists and pictures ---- */

/* No byte of RAM_G decides whether a list draws. */
jv_answer jv_check(const uint8_t *list, size_t list_length, const uint8_t *ram_g, size_t ram_g_length, uint32_t width,
                   uint32_t height, uint32_t limit)
{
    (void)ram_g;
    return as_answer(run_list(&(run_request){ list, list_length, ram_g_length, width, height, limit }));
}

jv_answer jv_paint(const uint8_t *list, size_t list_length, const uint8_t *ram_g, size_t ram_g_length, uint32_t width,
                   uint32_t height, uint32_t limit, uint8_t *picture, size_t picture_length, uint8_t *tags,
                   size_t tags_length)
{
    run_request run = { list, list_length, ram_g_length, width, height, limit };
    paint_request request = { run, ram_g, picture, picture_length, tags, tags_length };
    start_work();
    run_answer answer = paint_frame(&request);
    end_work();
    return as_answer(answer);
}

jv_answer jv_paint_row(const uint8_t *list, size_t list_length, const uint8_t *ram_g, size_t ram_g_length,
                       uint32_t width, uint32_t height, uint32_t row, uint32_t limit, uint8_t *picture,
                       size_t picture_length, uint8_t *tags, size_t tags_length)
{
    run_request run = { list, list_length, ram_g_length, width, height, limit };
    paint_request request = { run, ram_g, picture, picture_length, tags, tags_length };
    start_work();
    run_answer answer = paint_frame_row(&request, row);
    end_work();
    return as_answer(answer);
}

jv_answer jv_repaint(const uint8_t *old_list, size_t old_list_length, const uint8_t *new_list, size_t new_list_length,
                     const uint8_t *ram_g, size_t ram_g_length, uint32_t width, uint32_t height, uint32_t limit,
                     uint8_t *picture, size_t picture_length, uint8_t *tags, size_t tags_length, uint8_t *marks,
                     size_t marks_length)
{
    run_request run = { new_list, new_list_length, ram_g_length, width, height, limit };
    paint_request paint = { run, ram_g, picture, picture_length, tags, tags_length };
    repaint_request request = { old_list, old_list_length, paint, marks, marks_length };
    start_work();
    repaint_answer answer = repaint_frame(&request);
    end_work();
    return as_repaint_answer(answer);
}

/* ---- The ring ---- */

jv_ring jv_ring_run(const uint8_t *ring, size_t ring_length, uint8_t *ram_dl, size_t ram_dl_length, uint8_t *shown,
                    size_t shown_length, uint8_t *ram_g, size_t ram_g_length, uint32_t read, uint32_t write,
                    uint32_t offset, uint32_t fault)
{
    ring_run_request request = {
        ring,          ring_length,  ram_dl,
        ram_dl_length, shown,        shown_length,
        ram_g,         ram_g_length, { read, write, offset, fault },
    };
    start_work();
    ring_answer answer = run_ring(&request);
    end_work();
    return as_ring_answer(answer);
}

jv_ring jv_ring_write(uint8_t *ring, size_t ring_length, const uint8_t *words, size_t words_length, uint32_t read,
                      uint32_t write, uint32_t offset, uint32_t fault)
{
    ring_write_request request = { ring, ring_length, words, words_length, { read, write, offset, fault } };
    return as_ring_answer(write_ring(&request));
}

jv_ring jv_ring_reset(void)
{
    return as_ring_answer(reset_ring());
}
