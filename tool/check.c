#include "check.h"

#include "answer.h"
#include "input.h"
#include "jokulvisp.h"
#include "usage.h"

finished_run check_list(const order *o, const run_input *input)
{
    const display_list *list = &input->lists[0];
    jv_answer answer =
        jv_check(list->bytes, held_bytes(list), input->ram_g, held_ram_g(input), o->width, o->height, o->limit);
    return (finished_run){ o, input, list, answer };
}

int run_check(const order *o)
{
    const run_input *input = read_input(o);
    if (input == NULL)
        return GAVE_UP;
    finished_run run = check_list(o, input);
    return tell_answer(stream_for_answers(o), &run);
}
