/* Lists that are checked, and the second program's answer with and without actions. */
#include <stdio.h>

#include "../shared/draw.h"
#include "../shared/list_check.h"
#include "answers.h"
#include "jokulvisp.h"
#include "kind.h"
#include "list_case.h"
#include "made_lists.h"
#include "runner.h"

enum { LEAST_MET = 100 };

typedef struct {
    unsigned long number[NUMBERS];
    unsigned long words, actions[ACTION_KINDS];
} list_tally;

static list_tally met;

static void start(void)
{
    fill_ram_g();
    met = (list_tally){ { 0 }, 0, { 0 } };
}

static list_kind draw_kind(void)
{
    static const list_kind kinds[] = { WHOLE,        WHOLE,        WHOLE,  WHOLE,  WITH_A_FAULT,
                                       WITH_A_FAULT, WITH_A_FAULT, SPOILT, SPOILT, NOISE };
    return kinds[draw_below(sizeof kinds / sizeof kinds[0])];
}

static void make(test_case *c)
{
    static made_list made;
    static uint32_t words[MOST_RUN_WORDS];
    make_list(&made, draw_kind());
    start_list_case(c, made.request.width, made.request.height, made.request.limit);
    c->number[LIST_CUT].value = add_list(c, "list", words, &made);
    add_ram_g(c, made.request.ram_g_length);
}

static void count_action(void *taker, const run_action *action)
{
    list_tally *t = taker;
    t->actions[action->kind]++;
}

/* The actions are counted by the way. */
static bool does_answer_with_actions(const run_request *r, run_answer ran, manner how)
{
    list_tally thrown_away = { .words = 0 };
    run_answer with_actions = run_list_for_actions(r, count_action, how == COUNTING ? &met : &thrown_away);
    return are_equal_answers(as_answer(with_actions), as_answer(ran));
}

static bool do_agree(const test_case *c, manner how)
{
    lent_case lent = lend_case(c);
    jv_answer ours = check_by_library(&lent);
    run_answer theirs = run_list(&lent.request);
    bool agree = true;
    if (how == TELLING) {
        puts("  jv_check");
        print_answer("the library:       ", ours);
        print_answer("the second program:", as_answer(theirs));
    }
    expect(&agree, are_equal_answers(ours, as_answer(theirs)), how, "the answers differ");
    expect(&agree, does_answer_with_actions(&lent.request, theirs, how), how,
           "the second program answers differently when it is asked for actions");
    expect(&agree, take_case_back(&lent), how, "the list or RAM_G was written");
    if (how == COUNTING) {
        met.number[theirs.number]++;
        met.words += theirs.count;
    }
    return agree;
}

static void print_tally(void)
{
    print_numbers_met("lists", met.number);
    print_actions_met(met.actions);
    printf("%lu words fetched\n", met.words);
}

static bool is_enough_met(void)
{
    bool is_enough = are_numbers_met(met.number, LEAST_MET);
    for (unsigned kind = 0; kind < ACTION_KINDS; kind++)
        is_enough = is_met("a kind of action", met.actions[kind], LEAST_MET) && is_enough;
    return is_enough;
}

const case_kind lists_kind = {
    .name = "lists",
    .cases = 120000,
    .told_every = 40000,
    .start = start,
    .make = make,
    .agree = do_agree,
    .print_tally = print_tally,
    .is_enough_met = is_enough_met,
    .is_all_as_lent = is_ram_g_as_filled,
};
