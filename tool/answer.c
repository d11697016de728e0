#include "answer.h"

#include <inttypes.h>

#include "file.h"
#include "kind.h"
#include "message.h"
#include "usage.h"
#include "word.h"

/* Of two lists the answer names the one that it is about. */
static void print_list_name(FILE *out, const finished_run *run)
{
    static const char *const which[] = { "", " (the old list)", " (the new list)" };
    uint32_t list = run->answer.list;
    print_name(out, spoken_name(run->order->files[list == 2 ? 1 : 0]));
    fputs(which[list], out);
}

/* Prints which file the reason is about and, if there is one, which word of it. */
static void print_subject(FILE *out, const finished_run *run)
{
    if (run->answer.number == JV_BAD_RAM_G)
        print_name(out, spoken_name(run->order->ram_g));
    else
        print_list_name(out, run);
    if (has_word_at_fault(run->answer.number))
        fprintf(out, ", offset %" PRIu32, run->answer.place);
    fputs(": ", out);
}

void print_hint(FILE *out, const char *before, const display_list *list)
{
    const char *hint = find_hint(list);
    if (hint != NULL)
        fprintf(out, "%s%s\n", before, hint);
}

static void print_answer(FILE *out, const finished_run *run)
{
    uint32_t number = run->answer.number;
    print_number(out, run->answer);
    fputc('\n', out);
    if (number != JV_DONE)
        print_subject(out, run);
    print_reason(out, run);
    fputc('\n', out);
    if (number != JV_DONE && !is_refusal(number) && run->answer.place < run->list->length)
        print_word(out, run->list, run->answer.place);
    if (number != JV_BAD_RAM_G)
        print_hint(out, "Hint: ", run->list);
}

int tell_answer(FILE *out, const finished_run *run)
{
    if (!run->order->is_quiet)
        print_answer(out, run);
    return run->answer.number == JV_DONE ? SUCCEEDED : LIST_AT_FAULT;
}
