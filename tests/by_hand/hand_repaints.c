#include "hand_repaints.h"

#include <stdio.h>
#include <stdlib.h>

#include "../shared/check.h"
#include "../shared/list_check.h"
#include "../shared/repaint_check.h"

/* The two lists and RAM_G, each in memory of exactly its length. */
typedef struct {
    uint8_t *old_list, *new_list, *ram_g;
} hand_memory;

static bool is_marked(const hand_picture *h, size_t row)
{
    return h->rows[row][0] != AS_LENT;
}

static uint32_t count_marked(const hand_picture *h)
{
    uint32_t marked = 0;
    for (size_t row = 0; row < h->height; row++)
        marked += is_marked(h, row) ? 1 : 0;
    return marked;
}

static bool are_marks_as_wanted(const hand_picture *h, const uint8_t *marks)
{
    for (size_t row = 0; row < h->height; row++)
        if (marks[row] != (is_marked(h, row) ? 1 : 0))
            return false;
    return true;
}

static run_request run_of(const hand_picture *h, const uint8_t *list, size_t words)
{
    return (run_request){ list, 4 * words, h->ram_g_length, (uint32_t)width_of(h), (uint32_t)h->height, JV_MAX_LIMIT };
}

static lent_runs lend_frame(const hand_picture *h)
{
    size_t pixels = width_of(h) * h->height;
    return lend_with_marks(3 * pixels, pixels, h->height);
}

/* ---- What is told ---- */

static void print_marks(const hand_picture *h, const uint8_t *marks)
{
    puts("    marks as they came, and as wanted:");
    for (size_t row = 0; row < h->height; row++)
        printf("      %3u   %d\n", marks[row], is_marked(h, row) ? 1 : 0);
}

static void print_repaint(const hand_picture *h, const char *way, const repaint_request *r, const came_rows *came)
{
    printf("%s, by %s%s\n", h->name, came->call, way);
    print_repaint_request(r);
    print_answer("came:  ", came->answer);
    print_answer("wanted:", (jv_answer){ JV_DONE, 0, 0, count_marked(h) });
    if (!is_kept_inside(came->runs))
        puts("    bytes beside the lent runs were written");
    print_marks(h, r->marks);
}

/* ---- The three ways ---- */

/* Answer and marks, and nothing beside what was lent. */
static bool is_marked_as_wanted(const hand_picture *h, const came_rows *came)
{
    return are_equal_answers(came->answer, (jv_answer){ JV_DONE, 0, 0, count_marked(h) }) &&
           are_marks_as_wanted(h, came->runs->marks) && is_kept_inside(came->runs);
}

static void check_over_other_bytes(const char *file, const hand_picture *h, const hand_memory *m,
                                   const repaint_program *p)
{
    run_request run = run_of(h, m->new_list, h->count);
    lent_runs runs = lend_frame(h);
    repaint_request request = lending_for_repaint(m->old_list, 4 * h->old_count, &run, m->ram_g, &runs);
    came_rows came = { p->call, p->repaint(&request), &runs, 0, h->height };
    if (is_to_be_told(file, h->line, is_marked_as_wanted(h, &came) && are_rows_as_wanted(h, &came))) {
        print_repaint(h, "", &request, &came);
        print_rows(h, &came);
    }
    take_back(&runs);
}

static void check_other_way_round(const char *file, const hand_picture *h, const hand_memory *m,
                                  const repaint_program *p)
{
    run_request run = run_of(h, m->old_list, h->old_count);
    lent_runs runs = lend_frame(h);
    repaint_request request = lending_for_repaint(m->new_list, 4 * h->count, &run, m->ram_g, &runs);
    came_rows came = { p->call, p->repaint(&request), &runs, 0, h->height };
    if (is_to_be_told(file, h->line, is_marked_as_wanted(h, &came)))
        print_repaint(h, ", the other way round", &request, &came);
    take_back(&runs);
}

static bool are_equal_frames(const lent_runs *a, const lent_runs *b)
{
    return are_equal_bytes(a->picture, b->picture, a->picture_length) &&
           are_equal_bytes(a->tags, b->tags, a->tags_length);
}

static void check_over_old_picture(const char *file, const hand_picture *h, const hand_memory *m,
                                   const repaint_program *p)
{
    run_request old_run = run_of(h, m->old_list, h->old_count), run = run_of(h, m->new_list, h->count);
    lent_runs runs = lend_frame(h), wanted = lend_frame(h);
    paint_request old_picture = lending(&old_run, m->ram_g, &runs), new_picture = lending(&run, m->ram_g, &wanted);
    second_program.paint(&old_picture);
    second_program.paint(&new_picture);
    repaint_request request = lending_for_repaint(m->old_list, 4 * h->old_count, &run, m->ram_g, &runs);
    came_rows came = { p->call, p->repaint(&request), &runs, 0, h->height };
    if (is_to_be_told(file, h->line, is_marked_as_wanted(h, &came) && are_equal_frames(&runs, &wanted)))
        print_repaint(h, " over the old list's picture, which should become the new list's", &request, &came);
    take_back(&runs);
    take_back(&wanted);
}

/* ---- */

static uint8_t *list_of(const uint32_t *words, size_t count)
{
    uint8_t *list = allocated(4 * count);
    put_words(list, words, count);
    return list;
}

static bool is_list_of(const uint8_t *list, const uint32_t *words, size_t count)
{
    uint8_t *wanted = list_of(words, count);
    bool is_same = are_equal_bytes(list, wanted, 4 * count);
    free(wanted);
    return is_same;
}

void check_repaint(const char *file, const hand_picture *h)
{
    hand_memory m = { list_of(h->old_words, h->old_count), list_of(h->words, h->count),
                      copied(h->ram_g, h->ram_g_length) };
    const repaint_program *const programs[] = { &repainting_library, &repainting_second_program };
    for (size_t n = 0; n < LENGTH(programs); n++) {
        check_over_other_bytes(file, h, &m, programs[n]);
        check_other_way_round(file, h, &m, programs[n]);
        check_over_old_picture(file, h, &m, programs[n]);
    }
    bool is_read_only = is_list_of(m.old_list, h->old_words, h->old_count) &&
                        is_list_of(m.new_list, h->words, h->count) &&
                        are_equal_bytes(m.ram_g, h->ram_g, h->ram_g_length);
    check_holds(file, h->line, is_read_only, "lists and RAM_G are as they were");
    free(m.old_list);
    free(m.new_list);
    free(m.ram_g);
}

void check_repaints(const char *file, const char *part, const hand_picture *table, size_t count)
{
    begin_part(part);
    for (const hand_picture *h = table; h < table + count; h++)
        check_repaint(file, h);
}
