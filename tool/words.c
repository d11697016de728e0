#include "words.h"

#include "answer.h"
#include "check.h"
#include "usage.h"
#include "word.h"

static void print_comment(const finished_run *run)
{
    fputs("# ", stdout);
    print_number(stdout, run->answer);
    fputs(": ", stdout);
    print_reason(stdout, run);
    putchar('\n');
}

static void find_targets(const display_list *list, bool is_target[MOST_LIST_WORDS])
{
    for (size_t offset = 0; offset < list->length; offset += 4) {
        size_t target = 0;
        if (leads_within(list, offset, &target))
            is_target[target / 4] = true;
    }
}

/* The offset of the word before which the comment stands, or the list's length for behind all of them. */
static size_t place_of_comment(const finished_run *run)
{
    uint32_t number = run->answer.number;
    if (has_word_at_fault(number))
        return run->answer.place + 4;
    return number == JV_LIMIT_REACHED && run->answer.place < run->list->length ? run->answer.place : run->list->length;
}

static void print_words(const finished_run *run)
{
    bool is_target[MOST_LIST_WORDS] = { false };
    find_targets(run->list, is_target);
    for (size_t offset = 0; offset < run->list->length; offset += 4) {
        if (offset == place_of_comment(run))
            print_comment(run);
        if (is_target[offset / 4])
            printf("at_%zu:\n", offset);
        print_word(stdout, run->list, offset);
    }
    if (place_of_comment(run) == run->list->length)
        print_comment(run);
    print_hint(stdout, "# Hint: ", run->list);
}

int run_words(const order *o)
{
    const run_input *input = read_input(o);
    if (input == NULL)
        return GAVE_UP;
    finished_run run = check_list(o, input);
    if (!has_list_length(run.list->length))
        return tell_answer(stdout, &run);
    print_words(&run);
    return run.answer.number != JV_DONE && o->wants_exit_code ? LIST_AT_FAULT : SUCCEEDED;
}
