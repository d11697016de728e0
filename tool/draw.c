#include "draw.h"

#include "answer.h"
#include "frame.h"
#include "usage.h"

int run_draw(const order *o)
{
    static frame painted;
    start_clock(o);
    const run_input *input = read_input(o);
    if (input == NULL)
        return GAVE_UP;
    finished_run run = { o, input, &input->lists[0], paint_list(&painted, o, input, PAINTING) };
    end_stage();
    bool is_done = run.answer.number == JV_DONE;
    bool is_written = is_done && write_frame(&painted, o);
    stop_clock();
    return is_done && !is_written ? GAVE_UP : tell_answer(stream_for_answers(o), &run);
}
