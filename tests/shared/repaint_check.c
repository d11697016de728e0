#include "repaint_check.h"

#include <stdio.h>

#include "../second/answers.h"
#include "list_check.h"

static jv_answer repaint_by_library(const repaint_request *r)
{
    const paint_request *p = &r->paint;
    return jv_repaint(r->old_list, r->old_list_length, p->run.list, p->run.list_length, p->ram_g, p->run.ram_g_length,
                      p->run.width, p->run.height, p->run.limit, p->picture, p->picture_length, p->tags, p->tags_length,
                      r->marks, r->marks_length);
}

static jv_answer repaint_by_second_program(const repaint_request *r)
{
    return as_repaint_answer(repaint_frame(r));
}

const repaint_program repainting_library = { "jv_repaint", repaint_by_library };
const repaint_program repainting_second_program = { "the second program's repaint", repaint_by_second_program };

repaint_request lending_for_repaint(const uint8_t *old_list, size_t old_list_length, const run_request *run,
                                    const uint8_t *ram_g, const lent_runs *lent)
{
    return (repaint_request){ old_list, old_list_length, lending(run, ram_g, lent), lent->marks, lent->marks_length };
}

void print_repaint_request(const repaint_request *r)
{
    run_request old_run = old_run_of(r);
    puts("    the old list:");
    print_request(&old_run);
    puts("    the new list:");
    print_request(&r->paint.run);
    printf("    lent: a picture of %zu bytes, tags of %zu and marks of %zu\n", r->paint.picture_length,
           r->paint.tags_length, r->marks_length);
}
