/* Lists that are painted: the frame, and one of its rows alone. Both programs have to agree on the answers and on every
   byte of pictures and tags, the row has to be the frame's, and jv_check has to answer as painting does. */
#include <inttypes.h>
#include <stdio.h>
#include <string.h>

#include "../shared/draw.h"
#include "../shared/list_check.h"
#include "../shared/paint_check.h"
#include "frames.h"
#include "jokulvisp.h"
#include "kind.h"
#include "list_case.h"
#include "made_lists.h"
#include "painter.h"
#include "segments_met.h"

enum { LEAST_DRAWN = 20000, LEAST_SEGMENTS = 1000, LEAST_MET = 20 };

enum { ROW = LIST_NUMBERS, PICTURE_BESIDE, TAGS_BESIDE, ROW_PICTURE_BESIDE, ROW_TAGS_BESIDE, PICTURE_NUMBERS };

typedef struct {
    unsigned long number[NUMBERS];
    unsigned long actions[ACTION_KINDS], segments[SEGMENT_SORTS], shown, rows;
    uint64_t covered;
} picture_tally;

static picture_tally met;

/* ---- What is made ---- */

static void start(void)
{
    fill_ram_g();
    memset(&met, 0, sizeof met);
}

static list_kind draw_kind(void)
{
    static const list_kind faulty[] = { WITH_A_FAULT, WITH_A_FAULT, SPOILT, SPOILT, NOISE };
    return draw_once_in(4) ? faulty[draw_below(sizeof faulty / sizeof faulty[0])] : WHOLE;
}

static uint32_t draw_row(uint32_t height)
{
    return draw_once_in(60) ? height + draw_below(2) : draw_below(height > 0 ? height : 1);
}

static void make(test_case *c)
{
    static const frame_manner frames = { { 20, 20 }, 120, 40, 2000 };
    static made_list made;
    static uint32_t words[MOST_RUN_WORDS];
    frame_size frame = draw_frame(&frames);
    make_list_for_frame(&made, draw_kind(), frame);
    start_list_case(c, made.request.width, made.request.height, made.request.limit);
    c->number[LIST_CUT].value = add_list(c, "list", words, &made);
    add_ram_g(c, made.request.ram_g_length);
    c->number[ROW] = (case_number){ "row", AMOUNT, draw_row(frame.height), 0 };
    c->number[PICTURE_BESIDE] = draw_beside("picture a byte longer (1) or shorter (2):", 120);
    c->number[TAGS_BESIDE] = draw_beside("tags a byte longer (1) or shorter (2):", 120);
    c->number[ROW_PICTURE_BESIDE] = draw_beside("row's picture a byte longer (1) or shorter (2):", 120);
    c->number[ROW_TAGS_BESIDE] = draw_beside("row's tags a byte longer (1) or shorter (2):", 120);
    c->numbers = PICTURE_NUMBERS;
}

/* ---- What comes ---- */

typedef struct {
    lent_runs runs;
    jv_answer answer;
} painted;

/* A frame that is out of bounds has lent what its numbers say, for nobody is to take that for a reason to paint it. */
static painted paint_frame_by(const painter *p, const lent_case *a)
{
    size_t pixels = (size_t)a->request.width * a->request.height;
    painted done = { .runs = lend(length_beside(3 * pixels, a->c->number[PICTURE_BESIDE]),
                                  length_beside(pixels, a->c->number[TAGS_BESIDE])) };
    paint_request request = lending(&a->request, a->ram_g.bytes, &done.runs);
    done.answer = p->paint(&request);
    return done;
}

static painted paint_row_by(const painter *p, const lent_case *a)
{
    size_t pixels = a->request.width;
    painted done = { .runs = lend(length_beside(3 * pixels, a->c->number[ROW_PICTURE_BESIDE]),
                                  length_beside(pixels, a->c->number[ROW_TAGS_BESIDE])) };
    paint_request request = lending(&a->request, a->ram_g.bytes, &done.runs);
    done.answer = p->paint_row(&request, a->c->number[ROW].value);
    return done;
}

static void print_both(const char *call, const painted *ours, const painted *theirs)
{
    printf("  %s, lent a picture of %zu bytes and tags of %zu\n", call, ours->runs.picture_length,
           ours->runs.tags_length);
    print_answer("the library:       ", ours->answer);
    print_answer("the second program:", theirs->answer);
}

static bool are_equal_runs(const lent_runs *a, const lent_runs *b)
{
    return memcmp(a->picture, b->picture, a->picture_length) == 0 && memcmp(a->tags, b->tags, a->tags_length) == 0;
}

/* On a refusal, no lent byte may be written. */
static void compare_refused(bool *agree, const painted *ours, const painted *theirs, manner how)
{
    expect(agree, is_as_lent(&ours->runs), how, "the library wrote lent bytes, and refused");
    expect(agree, is_as_lent(&theirs->runs), how, "the second program wrote lent bytes, and refused");
}

static void compare_painted(bool *agree, const painted *ours, const painted *theirs, size_t width, manner how)
{
    bool are_equal = are_equal_runs(&ours->runs, &theirs->runs);
    expect(agree, are_equal, how, "the bytes differ");
    if (!are_equal && how == TELLING)
        print_first_pixel(&ours->runs, &theirs->runs, width);
}

static void compare(bool *agree, const char *call, const painted *ours, const painted *theirs, size_t width, manner how)
{
    if (how == TELLING)
        print_both(call, ours, theirs);
    bool is_same_answer = are_equal_answers(ours->answer, theirs->answer);
    expect(agree, is_same_answer, how, "the answers differ");
    expect(agree, is_kept_inside(&ours->runs), how, "the library wrote bytes beside the lent runs");
    if (!is_same_answer)
        return;
    if (ours->answer.number == JV_DONE)
        compare_painted(agree, ours, theirs, width, how);
    else
        compare_refused(agree, ours, theirs, how);
}

/* A row is the frame's row of that number, wherever both are painted. */
static bool is_row_of(const painted *row, uint32_t number, const painted *frame)
{
    if (row->answer.number != JV_DONE || frame->answer.number != JV_DONE)
        return true;
    return memcmp(row->runs.picture, frame->runs.picture + number * row->runs.picture_length,
                  row->runs.picture_length) == 0 &&
           memcmp(row->runs.tags, frame->runs.tags + number * row->runs.tags_length, row->runs.tags_length) == 0;
}

/* jv_check gives what painting gives, unless that is refused for what is lent or for its row. */
static bool is_checked_alike(jv_answer checked, jv_answer answer)
{
    return are_equal_answers(checked, answer) || are_equal_answers(answer, (jv_answer){ JV_BAD_FRAME, 0, 0, 0 });
}

/* ---- What was met ---- */

static bool has_colour(const painted *p)
{
    for (size_t n = 0; n < p->runs.picture_length; n++)
        if (p->runs.picture[n] != 0)
            return true;
    return false;
}

/* The run whose actions are counted. */
typedef struct {
    const run_request *request;
} counted_run;

static void count_action(void *taker, const run_action *action)
{
    const counted_run *run = taker;
    met.actions[action->kind]++;
    count_segment(met.segments, run->request, action);
}

static void count_case(const run_request *r, const painted *frame, const painted *row)
{
    met.number[frame->answer.number]++;
    met.rows += row->answer.number == JV_DONE ? 1 : 0;
    if (frame->answer.number != JV_DONE)
        return;
    run_list_for_actions(r, count_action, &(counted_run){ r });
    met.covered += count_covered_pixels(r);
    met.shown += has_colour(frame) ? 1 : 0;
}

/* ---- One case ---- */

static bool agree_on(const lent_case *a, manner how)
{
    painted frame = paint_frame_by(&library, a), their_frame = paint_frame_by(&second_program, a);
    painted row = paint_row_by(&library, a), their_row = paint_row_by(&second_program, a);
    jv_answer checked = check_by_library(a);
    bool agree = true;
    compare(&agree, "jv_paint", &frame, &their_frame, a->request.width, how);
    compare(&agree, "jv_paint_row", &row, &their_row, a->request.width, how);
    expect(&agree, is_row_of(&row, a->c->number[ROW].value, &frame), how, "the row is not that of the frame");
    expect(&agree, is_checked_alike(checked, frame.answer) && is_checked_alike(checked, row.answer), how,
           "jv_check does not give what painting gives");
    if (how == COUNTING)
        count_case(&a->request, &their_frame, &their_row);
    take_back(&frame.runs);
    take_back(&their_frame.runs);
    take_back(&row.runs);
    take_back(&their_row.runs);
    return agree;
}

static bool do_agree(const test_case *c, manner how)
{
    lent_case lent = lend_case(c);
    bool agree = agree_on(&lent, how);
    expect(&agree, take_case_back(&lent), how, "the list or RAM_G was written");
    return agree;
}

/* ---- The whole ---- */

static void print_tally(void)
{
    print_numbers_met("lists", met.number);
    print_actions_met(met.actions);
    print_segments_met(met.segments);
    printf("%" PRIu64 " pixels covered; %lu frames are not all black; %lu rows painted alone\n", met.covered, met.shown,
           met.rows);
}

static bool is_enough_met(void)
{
    bool is_enough = are_numbers_met(met.number, LEAST_MET);
    is_enough = are_segments_met(met.segments, LEAST_SEGMENTS) && is_enough;
    is_enough = is_met("a list that draws", met.number[JV_DONE], LEAST_DRAWN) && is_enough;
    return is_met("a frame with something that is seen", met.shown, LEAST_DRAWN / 2) && is_enough;
}

const case_kind pictures_kind = {
    .name = "pictures",
    .cases = 36000,
    .told_every = 6000,
    .start = start,
    .make = make,
    .agree = do_agree,
    .print_tally = print_tally,
    .is_enough_met = is_enough_met,
    .is_all_as_lent = is_ram_g_as_filled,
};
