#include "repaint.h"

#include <inttypes.h>

#include "answer.h"
#include "frame.h"
#include "message.h"
#include "usage.h"

/* The exit status of --exit-code for lists that draw, as that of other tools that compare. */
enum { ROWS_DIFFER = 1 };

/* Whatever is wrong with the old list, jv_repaint says too, and which of the two lists it is. It is one call, however
   long it takes. */
static jv_answer repaint_frame(frame *f, const order *o, const run_input *input)
{
    const display_list *old_list = &input->lists[0], *new_list = &input->lists[1];
    paint_list(f, o, input, PAINTING_OLD_LIST);
    begin_stage(REPAINTING, 0);
    return jv_repaint(old_list->bytes, held_bytes(old_list), new_list->bytes, held_bytes(new_list), input->ram_g,
                      held_ram_g(input), o->width, o->height, o->limit, f->picture, 3 * pixels_of(o), f->tags,
                      pixels_of(o), f->marks, o->height);
}

static uint32_t end_of_stretch(const frame *f, uint32_t height, uint32_t row)
{
    while (row < height && f->marks[row] != 0)
        row++;
    return row;
}

/* Prints the marked rows in stretches, as in '10-20, 30'. */
static void print_rows(FILE *out, const frame *f, uint32_t height)
{
    const char *before = ": ";
    for (uint32_t row = 0; row < height; row++) {
        uint32_t end = end_of_stretch(f, height, row);
        if (end == row)
            continue;
        fprintf(out, "%s%" PRIu32, before, row);
        if (end - row > 1)
            fprintf(out, "-%" PRIu32, end - 1);
        before = ", ";
        row = end;
    }
}

static void tell_rows(FILE *out, const frame *f, const order *o, jv_answer answer)
{
    print_number(out, answer);
    if (answer.count == 0) {
        fputs("\nNo row was repainted: both lists draw the same in every row.\n", out);
        return;
    }
    fprintf(out, "\n%" PRIu32 " of %" PRIu32 " %s %s repainted", answer.count, o->height,
            plural(o->height, "row", "rows"), plural(answer.count, "was", "were"));
    print_rows(out, f, o->height);
    fputs(".\n", out);
}

/* A list that is something else may draw all the same. */
static void tell_hints(FILE *out, const run_input *input)
{
    print_hint(out, "Hint for the old list: ", &input->lists[0]);
    print_hint(out, "Hint for the new list: ", &input->lists[1]);
}

static int tell_repainted(const frame *f, const order *o, const run_input *input, jv_answer answer)
{
    if (!o->is_quiet) {
        tell_rows(stream_for_answers(o), f, o, answer);
        tell_hints(stream_for_answers(o), input);
    }
    return o->wants_exit_code && answer.count > 0 ? ROWS_DIFFER : SUCCEEDED;
}

/* With --exit-code a status of 1 says that both lists draw, and rows differ. */
static int tell_fault(const finished_run *run)
{
    int status = tell_answer(stream_for_answers(run->order), run);
    return run->order->wants_exit_code ? GAVE_UP : status;
}

int run_repaint(const order *o)
{
    static frame painted;
    start_clock(o);
    const run_input *input = read_input(o);
    if (input == NULL)
        return GAVE_UP;
    jv_answer answer = repaint_frame(&painted, o, input);
    end_stage();
    finished_run run = { o, input, &input->lists[answer.list == 2 ? 1 : 0], answer };
    bool is_written = answer.number == JV_DONE && write_frame(&painted, o);
    stop_clock();
    if (answer.number != JV_DONE)
        return tell_fault(&run);
    return is_written ? tell_repainted(&painted, o, input, answer) : GAVE_UP;
}
