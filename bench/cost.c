/* cost PROGRAM TASK LIST TIMES [EDIT]: has a list checked or painted, or repainted after an edit of it, so many times
   by one of two programs, the library (ours) or the second program of the tests (theirs). Prints how many words one run
   fetches and, for painting, how many pixels its actions cover; for repainting, how many rows are marked.

   cost PROGRAM ring RING TIMES: the same of a ring, as rings.h says. */
#include <inttypes.h>
#include <stdio.h>
#include <stdlib.h>
#include <string.h>

#include "../tests/second/answers.h"
#include "../tests/second/repainter.h"
#include "jokulvisp.h"
#include "lists.h"
#include "rings.h"
#include "scenes.h"

enum { PIXELS = SCENE_WIDTH * SCENE_HEIGHT };

static uint8_t list[4 * MOST_WORDS], old_list[4 * MOST_WORDS];
static uint8_t ram_g[RAM_G_BYTES];
static uint8_t picture[3 * PIXELS], tags[PIXELS], marks[SCENE_HEIGHT];

typedef jv_answer ask(const repaint_request *request);

static jv_answer have_library_check(const repaint_request *q)
{
    const paint_request *p = &q->paint;
    const run_request *r = &p->run;
    return jv_check(r->list, r->list_length, p->ram_g, r->ram_g_length, r->width, r->height, r->limit);
}

static jv_answer have_library_paint(const repaint_request *q)
{
    const paint_request *p = &q->paint;
    const run_request *r = &p->run;
    return jv_paint(r->list, r->list_length, p->ram_g, r->ram_g_length, r->width, r->height, r->limit, p->picture,
                    p->picture_length, p->tags, p->tags_length);
}

static jv_answer have_library_repaint(const repaint_request *q)
{
    const paint_request *p = &q->paint;
    const run_request *r = &p->run;
    return jv_repaint(q->old_list, q->old_list_length, r->list, r->list_length, p->ram_g, r->ram_g_length, r->width,
                      r->height, r->limit, p->picture, p->picture_length, p->tags, p->tags_length, q->marks,
                      q->marks_length);
}

static jv_answer have_second_program_check(const repaint_request *q)
{
    return as_answer(run_list(&q->paint.run));
}

static jv_answer have_second_program_paint(const repaint_request *q)
{
    return as_answer(paint_frame(&q->paint));
}

static jv_answer have_second_program_repaint(const repaint_request *q)
{
    return as_repaint_answer(repaint_frame(q));
}

static const struct {
    const char *program, *task;
    ask *ask;
} asked[] = {
    { "ours", "check", have_library_check },
    { "ours", "paint", have_library_paint },
    { "ours", "repaint", have_library_repaint },
    { "theirs", "check", have_second_program_check },
    { "theirs", "paint", have_second_program_paint },
    { "theirs", "repaint", have_second_program_repaint },
};

static ask *find_ask(const char *program, const char *task)
{
    for (size_t n = 0; n < sizeof asked / sizeof asked[0]; n++)
        if (strcmp(asked[n].program, program) == 0 && strcmp(asked[n].task, task) == 0)
            return asked[n].ask;
    return NULL;
}

static size_t write_bytes(uint8_t bytes[4 * MOST_WORDS], const char *name, const char *edit)
{
    static uint32_t words[MOST_WORDS];
    size_t count = write_list(name, words);
    if (count == 0)
        count = write_scene(name, edit, words);
    for (size_t n = 0; n < 4 * count; n++)
        bytes[n] = (uint8_t)(words[n / 4] >> 8 * (n % 4));
    return 4 * count;
}

static int tell_usage(void)
{
    fputs("usage: cost ours|theirs check|paint|repaint setters|vertices|calls|shapes|map|lines|icons|full TIMES "
          "[word|action]\n"
          "       cost ours|theirs ring words|small|memset|up|down|append|host TIMES\n",
          stderr);
    return 2;
}

int main(int count, char **arguments)
{
    bool is_whole = count == 5 || count == 6;
    const char *name = is_whole ? arguments[3] : "", *edit = count == 6 ? arguments[5] : "";
    unsigned long times = is_whole ? strtoul(arguments[4], NULL, 10) : 0;
    if (is_whole && strcmp(arguments[2], "ring") == 0) {
        int status = measure_ring(arguments[1], name, times);
        return status == 2 ? tell_usage() : status;
    }
    ask *answer_to = is_whole ? find_ask(arguments[1], arguments[2]) : NULL;
    size_t old_length = write_bytes(old_list, name, ""), length = write_bytes(list, name, edit);
    if (answer_to == NULL || length == 0 || times == 0)
        return tell_usage();
    fill_scene_ram_g(ram_g);
    repaint_request request = { .old_list = old_list,
                                .old_list_length = old_length,
                                .paint = { .run = { list, length, sizeof ram_g, SCENE_WIDTH, SCENE_HEIGHT,
                                                    JV_MAX_LIMIT },
                                           .ram_g = ram_g,
                                           .picture = picture,
                                           .picture_length = sizeof picture,
                                           .tags = tags,
                                           .tags_length = sizeof tags },
                                .marks = marks,
                                .marks_length = sizeof marks };
    jv_answer answer = { 0, 0, 0, 0 };
    for (unsigned long n = 0; n < times && answer.number == JV_DONE; n++)
        answer = answer_to(&request);
    if (answer.number != JV_DONE) {
        fprintf(stderr, "the list does not draw: fault %" PRIu32 " at %" PRIu32 " after %" PRIu32 "\n", answer.number,
                answer.place, answer.count);
        return 1;
    }
    bool is_repaint = strcmp(arguments[2], "repaint") == 0;
    printf("%s %" PRIu32 "\n", is_repaint ? "rows" : "words", answer.count);
    if (strcmp(arguments[2], "paint") == 0)
        printf("pixels %" PRIu64 "\n", count_covered_pixels(&request.paint.run));
    return 0;
}
