/* Pairs of lists, most of them a list and an edit of it, that a frame is repainted with. Both programs have to agree on
   the answer and on every byte of picture, tags and marks. The frames are full of drawn bytes. Where both lists draw,
   what they paint is held against the marks: a frame of the old list's picture has to become the new list's. */
#include <stdio.h>
#include <string.h>

#include "../shared/draw.h"
#include "../shared/list_check.h"
#include "../shared/paint_check.h"
#include "../shared/repaint_check.h"
#include "frames.h"
#include "jokulvisp.h"
#include "kind.h"
#include "list_case.h"
#include "made_edits.h"
#include "made_lists.h"
#include "painter.h"

enum { LEAST_DRAWN = 14000, LEAST_COMMON = 2000, LEAST_MET = 20 };

/* LIST_CUT is the old list's. */
enum { NEW_LIST_CUT = LIST_NUMBERS, PICTURE_BESIDE, TAGS_BESIDE, MARKS_BESIDE, REPAINT_NUMBERS };
enum { THE_OLD_LIST, THE_NEW_LIST, THE_MEMORY, THE_PICTURE, THE_TAGS, THE_MARKS, REPAINT_RUNS };

typedef struct {
    unsigned long number[NEW_LIST + 1][NUMBERS]; /* by the list that is named */
    unsigned long none, some, all;
    unsigned long pairs_kept_though_reached, pairs_marked_though_equal;
    unsigned long rows_marked, rows_kept, rows_kept_though_reached, rows_marked_though_equal;
    unsigned long actions[ACTION_KINDS];
} repaint_tally;

static repaint_tally met;

/* ---- What is made ---- */

static void start(void)
{
    fill_ram_g();
    memset(&met, 0, sizeof met);
}

static bool does_draw(const run_request *r)
{
    return run_list(r).number == JV_DONE;
}

/* Those that do not draw are mostly given up for another one; the numbers of a few are met nevertheless. */
enum { TRIES = 6 };

static void make_old_list(made_list *made, frame_size frame)
{
    list_kind kind = draw_once_in(10) ? (list_kind)draw_from(WITH_A_FAULT, NOISE) : WHOLE;
    uint32_t tries = kind == WHOLE ? TRIES : 1;
    do
        make_list_for_frame(made, kind, frame);
    while (--tries > 0 && !does_draw(&made->request));
}

static void make_new_list(made_list *made, const made_list *old_list, frame_size frame)
{
    bool is_unrelated = draw_once_in(20);
    uint32_t tries = TRIES;
    do
        if (is_unrelated)
            make_list_for_frame(made, WHOLE, frame);
        else
            edit_list(made, old_list);
    while (--tries > 0 && !does_draw(&made->request));
    if (draw_once_in(10))
        put_fault_into(made);
}

/* Now and then just enough for the old list, or out of bounds. */
static uint32_t draw_limit(const run_request *o)
{
    uint32_t fetched = run_list(o).count;
    if (draw_once_in(200))
        return draw_once_in(2) ? 0 : JV_MAX_LIMIT + 1;
    return draw_once_in(30) && fetched > 0 ? fetched : o->limit;
}

/* What goes with both: what one of them needs of RAM_G, the other has, too. Now and then a length is out of bounds. */
static void share_numbers(run_request *o, run_request *n)
{
    n->ram_g_length = o->ram_g_length > n->ram_g_length ? o->ram_g_length : n->ram_g_length;
    if (draw_once_in(400))
        n->ram_g_length = JV_MAX_RAM_G_BYTES + 1;
    o->ram_g_length = n->ram_g_length;
    o->limit = draw_limit(o);
    n->limit = o->limit;
    if (draw_once_in(150))
        o->list_length = draw_bad_length(o->list_length);
    if (draw_once_in(150))
        n->list_length = draw_bad_length(n->list_length);
}

/* Bytes that the frame is full of, one more than its length, which may be lent as well. */
static void add_frame_run(test_case *c, const char *name, uint8_t *bytes, size_t length)
{
    fill_drawn(bytes, length + 1);
    c->run[c->runs++] = (case_run){ .name = name, .form = A_FRAME, .bytes = bytes, .count = (uint32_t)length + 1 };
}

static void add_frame(test_case *c, frame_size frame)
{
    static uint8_t picture[3 * WIDEST * HIGHEST + 1], tags[WIDEST * HIGHEST + 1], marks[HIGHEST + 1];
    size_t pixels = (size_t)frame.width * frame.height;
    add_frame_run(c, "picture before", picture, 3 * pixels);
    add_frame_run(c, "tags before", tags, pixels);
    add_frame_run(c, "marks before", marks, frame.height);
}

static void make(test_case *c)
{
    static const frame_manner frames = { { 20, 28 }, 200, 80, 4000 };
    static made_list old_list, new_list;
    static uint32_t old_words[MOST_RUN_WORDS], new_words[MOST_RUN_WORDS];
    frame_size frame = draw_frame(&frames);
    make_old_list(&old_list, frame);
    make_new_list(&new_list, &old_list, frame);
    share_numbers(&old_list.request, &new_list.request);
    start_list_case(c, frame.width, frame.height, new_list.request.limit);
    uint32_t old_cut = add_list(c, "old list", old_words, &old_list);
    c->number[LIST_CUT] = (case_number){ "bytes cut off the old list", ODDITY, old_cut, 0 };
    uint32_t new_cut = add_list(c, "new list", new_words, &new_list);
    c->number[NEW_LIST_CUT] = (case_number){ "bytes cut off the new list", ODDITY, new_cut, 0 };
    add_ram_g(c, new_list.request.ram_g_length);
    c->number[PICTURE_BESIDE] = draw_beside("picture a byte longer (1) or shorter (2):", 200);
    c->number[TAGS_BESIDE] = draw_beside("tags a byte longer (1) or shorter (2):", 200);
    c->number[MARKS_BESIDE] = draw_beside("marks a byte longer (1) or shorter (2):", 200);
    c->numbers = REPAINT_NUMBERS;
    add_frame(c, frame);
}

/* ---- What comes ---- */

/* What is lent to both programs to be read. */
typedef struct {
    const test_case *c;
    lent_copy old_list, new_list, ram_g;
    run_request old_run, new_run;
} asked;

typedef struct {
    lent_runs runs;
    jv_answer answer;
} repainted;

/* Where the frame has become larger than it was made, there are zeros. */
static void put_frame_run(uint8_t *lent, size_t length, const case_run *run)
{
    size_t kept = length < run->count ? length : run->count;
    memcpy(lent, run->bytes, kept);
    memset(lent + kept, 0, length - kept);
}

/* A frame that is out of bounds has lent what its numbers say, for nobody is to take that for a reason to paint it. */
static lent_runs lend_frame(const asked *a)
{
    const case_number *number = a->c->number;
    const case_run *run = a->c->run;
    size_t height = a->new_run.height, pixels = a->new_run.width * height;
    lent_runs runs =
        lend_with_marks(length_beside(3 * pixels, number[PICTURE_BESIDE]), length_beside(pixels, number[TAGS_BESIDE]),
                        length_beside(height, number[MARKS_BESIDE]));
    put_frame_run(runs.picture, runs.picture_length, &run[THE_PICTURE]);
    put_frame_run(runs.tags, runs.tags_length, &run[THE_TAGS]);
    put_frame_run(runs.marks, runs.marks_length, &run[THE_MARKS]);
    return runs;
}

static repainted repaint_by(const repaint_program *by, const asked *a)
{
    repainted done = { .runs = lend_frame(a) };
    repaint_request request =
        lending_for_repaint(a->old_list.bytes, a->old_list.length, &a->new_run, a->ram_g.bytes, &done.runs);
    done.answer = by->repaint(&request);
    return done;
}

static bool are_equal_runs(const lent_runs *a, const lent_runs *b)
{
    return memcmp(a->picture, b->picture, a->picture_length) == 0 && memcmp(a->tags, b->tags, a->tags_length) == 0 &&
           memcmp(a->marks, b->marks, a->marks_length) == 0;
}

static bool is_frame_as_lent(const asked *a, const lent_runs *runs)
{
    lent_runs before = lend_frame(a);
    bool is_same = are_equal_runs(runs, &before);
    take_back(&before);
    return is_same;
}

static void print_first_mark(const lent_runs *ours, const lent_runs *theirs)
{
    size_t row = 0;
    while (row < ours->marks_length && ours->marks[row] == theirs->marks[row])
        row++;
    if (row < ours->marks_length)
        printf("    the first mark that differs: row %zu, the library's %u, the second program's %u\n", row,
               ours->marks[row], theirs->marks[row]);
}

static void print_both(const repainted *ours, const repainted *theirs)
{
    printf("  jv_repaint, lent a picture of %zu bytes, tags of %zu and marks of %zu\n", ours->runs.picture_length,
           ours->runs.tags_length, ours->runs.marks_length);
    print_answer("the library:       ", ours->answer);
    print_answer("the second program:", theirs->answer);
}

static void compare(bool *agree, const asked *a, const repainted *ours, const repainted *theirs, manner how)
{
    bool is_refused = ours->answer.number != JV_DONE, are_equal = are_equal_runs(&ours->runs, &theirs->runs);
    if (how == TELLING)
        print_both(ours, theirs);
    expect(agree, are_equal_answers(ours->answer, theirs->answer), how, "the answers differ");
    expect(agree, is_kept_inside(&ours->runs), how, "the library wrote bytes beside the lent runs");
    expect(agree, !is_refused || is_frame_as_lent(a, &ours->runs), how, "the library wrote lent bytes, and refused");
    expect(agree, are_equal, how, "the bytes differ");
    if (how == TELLING && !are_equal) {
        print_first_mark(&ours->runs, &theirs->runs);
        print_first_pixel(&ours->runs, &theirs->runs, a->new_run.width);
    }
}

/* ---- What was met ---- */

/* Which rows something reaches. */
typedef struct {
    const run_request *run;
    bool is_reached[JV_MAX_HEIGHT];
} reached_rows;

static void count_action(void *taker, const run_action *action)
{
    reached_rows *r = taker;
    met.actions[action->kind]++;
    for (uint32_t row = 0; row < r->run->height; row++)
        r->is_reached[row] = r->is_reached[row] || does_reach_row(action, r->run->width, row);
}

static bool are_equal_rows(const lent_runs *a, const lent_runs *b, size_t width, size_t row)
{
    return memcmp(a->picture + 3 * width * row, b->picture + 3 * width * row, 3 * width) == 0 &&
           memcmp(a->tags + width * row, b->tags + width * row, width) == 0;
}

/* `done` is a repaint; `before` and `after` are what the two lists paint. */
static void count_rows(const run_request *r, const lent_runs *done, const lent_runs *before, const lent_runs *after)
{
    const uint8_t *marks = done->marks;
    static reached_rows reached;
    unsigned long marked = 0, kept_though_reached = 0, marked_though_equal = 0;
    reached = (reached_rows){ .run = r };
    run_list_for_actions(r, count_action, &reached);
    for (size_t row = 0; row < r->height; row++) {
        marked += marks[row];
        if (marks[row] == 0 && reached.is_reached[row])
            kept_though_reached++;
        if (marks[row] != 0 && are_equal_rows(before, after, r->width, row))
            marked_though_equal++;
    }
    met.rows_marked += marked;
    met.rows_kept += r->height - marked;
    met.rows_kept_though_reached += kept_though_reached;
    met.rows_marked_though_equal += marked_though_equal;
    met.pairs_kept_though_reached += kept_though_reached > 0 ? 1 : 0;
    met.pairs_marked_though_equal += marked_though_equal > 0 ? 1 : 0;
    met.none += marked == 0 ? 1 : 0;
    met.some += 0 < marked && marked < r->height ? 1 : 0;
    met.all += marked == r->height ? 1 : 0;
}

/* ---- One case ---- */

static lent_runs painted(const asked *a, const run_request *r)
{
    size_t pixels = (size_t)r->width * r->height;
    lent_runs runs = lend(3 * pixels, pixels);
    paint_request request = lending(r, a->ram_g.bytes, &runs);
    second_program.paint(&request);
    return runs;
}

/* A marked row is the new list's, and a row that is not marked is the same in what both lists paint. */
static bool is_mended(const run_request *r, const lent_runs *done, const lent_runs *before, const lent_runs *after)
{
    for (size_t row = 0; row < r->height; row++)
        if (!are_equal_rows(done->marks[row] != 0 ? done : before, after, r->width, row))
            return false;
    return true;
}

static void compare_with_pictures(bool *agree, const asked *a, const lent_runs *done, manner how)
{
    lent_runs before = painted(a, &a->old_run), after = painted(a, &a->new_run);
    expect(agree, is_mended(&a->new_run, done, &before, &after), how,
           "the old list's picture does not become the new list's");
    if (how == COUNTING)
        count_rows(&a->new_run, done, &before, &after);
    take_back(&before);
    take_back(&after);
}

static bool agree_on(const asked *a, manner how)
{
    repainted ours = repaint_by(&repainting_library, a), theirs = repaint_by(&repainting_second_program, a);
    bool agree = true;
    compare(&agree, a, &ours, &theirs, how);
    if (how == COUNTING)
        met.number[theirs.answer.list][theirs.answer.number]++;
    if (agree && theirs.answer.number == JV_DONE)
        compare_with_pictures(&agree, a, &ours.runs, how);
    take_back(&ours.runs);
    take_back(&theirs.runs);
    return agree;
}

/* Whether what was lent to be read is as it was. */
static bool is_kept(const asked *a)
{
    return is_list_kept(&a->old_list, &a->c->run[THE_OLD_LIST]) &&
           is_list_kept(&a->new_list, &a->c->run[THE_NEW_LIST]) && are_bytes_kept(&a->ram_g, &a->c->run[THE_MEMORY]);
}

static bool do_agree(const test_case *c, manner how)
{
    asked a = {
        .c = c,
        .old_list = lend_list(&c->run[THE_OLD_LIST], c->number[LIST_CUT].value),
        .new_list = lend_list(&c->run[THE_NEW_LIST], c->number[NEW_LIST_CUT].value),
        .ram_g = lend_bytes(&c->run[THE_MEMORY]),
    };
    a.old_run = request_of(c, &a.old_list, a.ram_g.length);
    a.new_run = request_of(c, &a.new_list, a.ram_g.length);
    bool agree = agree_on(&a, how);
    expect(&agree, is_kept(&a), how, "a list or RAM_G was written");
    take_copy_back(&a.old_list);
    take_copy_back(&a.new_list);
    take_copy_back(&a.ram_g);
    return agree;
}

/* ---- The whole ---- */

static void print_tally(void)
{
    print_numbers_met("pairs, no list named,", met.number[0]);
    print_numbers_met("pairs, by the old list,", met.number[OLD_LIST]);
    print_numbers_met("pairs, by the new list,", met.number[NEW_LIST]);
    printf("of the new lists ");
    print_actions_met(met.actions);
    printf("%lu pairs drew: %lu marked no row, %lu some, %lu all\n", met.number[0][JV_DONE], met.none, met.some,
           met.all);
    printf("%lu rows were marked, %lu of them painted as before, in %lu pairs\n", met.rows_marked,
           met.rows_marked_though_equal, met.pairs_marked_though_equal);
    printf("%lu rows were kept, %lu of them reached by something, in %lu pairs\n", met.rows_kept,
           met.rows_kept_though_reached, met.pairs_kept_though_reached);
}

static bool names_a_list(uint32_t number)
{
    return number == JV_BAD_LIST || number >= JV_PAST_END;
}

static bool are_all_numbers_met(void)
{
    bool are_met = true;
    for (uint32_t number = 1; number < NUMBERS; number++) {
        if (!is_number(number))
            continue;
        if (names_a_list(number))
            are_met = is_number_met(" by the old list", number, met.number[OLD_LIST][number], LEAST_MET) &&
                      is_number_met(" by the new list", number, met.number[NEW_LIST][number], LEAST_MET) && are_met;
        else
            are_met = is_number_met("", number, met.number[0][number], LEAST_MET) && are_met;
    }
    return are_met;
}

static bool is_enough_met(void)
{
    const struct {
        const char *what;
        unsigned long times, least;
    } wanted[] = {
        { "a pair that draws", met.number[0][JV_DONE], LEAST_DRAWN },
        { "a pair that marks no row", met.none, LEAST_COMMON },
        { "a pair that marks some rows", met.some, LEAST_COMMON },
        { "a pair that marks all rows", met.all, LEAST_COMMON },
        { "a row kept that something reaches", met.pairs_kept_though_reached, LEAST_COMMON },
        { "a row marked that is painted as before", met.pairs_marked_though_equal, LEAST_COMMON },
        { "a segment in a new list", met.actions[A_SEGMENT], LEAST_COMMON },
    };
    bool is_enough = are_all_numbers_met();
    for (size_t n = 0; n < sizeof wanted / sizeof wanted[0]; n++)
        is_enough = is_met(wanted[n].what, wanted[n].times, wanted[n].least) && is_enough;
    return is_enough;
}

const case_kind repaints_kind = {
    .name = "repaints",
    .cases = 20000,
    .told_every = 4000,
    .start = start,
    .make = make,
    .agree = do_agree,
    .print_tally = print_tally,
    .is_enough_met = is_enough_met,
    .is_all_as_lent = is_ram_g_as_filled,
};
