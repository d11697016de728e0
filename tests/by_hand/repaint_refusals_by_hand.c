/* Requests to repaint that are refused: the number each has to give, with its list, place and count, and that not a
   byte of what was lent is written. The frame is 4 by 3 unless a case says otherwise, and the repaint would mark all of
   it. */
#include "repaints_by_hand.h"

#include <inttypes.h>
#include <stdio.h>

#include "../shared/check.h"
#include "../shared/list_check.h"
#include "../shared/repaint_check.h"
#include "faulty_lists.h"
#include "hand_repaints.h"

enum { WIDTH = 4, HEIGHT = 3, NUMBERS = JV_FAR_END + 1 };

static const repaint_program *const programs[] = { &repainting_library, &repainting_second_program };

static uint8_t ram_g[JV_MAX_RAM_G_BYTES + 1];

/* How many cases gave each number, for each of the lists that it names. */
static unsigned met[NUMBERS][NEW_LIST + 1];

/* ---- What is asked ---- */

/* `run` is the new list's. */
typedef struct {
    int line;
    const char *name;
    const uint8_t *old_list;
    size_t old_list_length;
    run_request run;
    size_t picture_length, tags_length, marks_length;
    jv_answer wanted;
} refused_repaint;

static void print_refusal(const refused_repaint *q, const char *call, const repaint_request *r, const lent_runs *lent,
                          jv_answer came)
{
    printf("%s, by %s\n", q->name, call);
    print_repaint_request(r);
    print_answer("came:  ", came);
    print_answer("wanted:", q->wanted);
    if (!is_as_lent(lent))
        puts("    bytes that were lent are not as they were");
}

static void check_refusal(const char *file, const refused_repaint *q)
{
    for (size_t n = 0; n < LENGTH(programs); n++) {
        lent_runs lent = lend_with_marks(q->picture_length, q->tags_length, q->marks_length);
        repaint_request request = lending_for_repaint(q->old_list, q->old_list_length, &q->run, ram_g, &lent);
        jv_answer came = programs[n]->repaint(&request);
        if (is_to_be_told(file, q->line, are_equal_answers(came, q->wanted) && is_as_lent(&lent)))
            print_refusal(q, programs[n]->call, &request, &lent, came);
        take_back(&lent);
    }
    met[q->wanted.number][q->wanted.list]++;
}

/* A list of 24 bytes that paints everything, and DISPLAY again and again after it; and one that paints nothing. */
static const uint8_t *good_list(void)
{
    static uint8_t list[JV_MAX_LIST_BYTES + 4];
    static const uint32_t words[] = { PAINT_ALL, DISPLAY() };
    put_words(list, words, LENGTH(words));
    return list;
}

static const uint8_t *empty_list(void)
{
    static uint8_t list[JV_MAX_LIST_BYTES + 4];
    return list;
}

enum { GOOD_LENGTH = 4 * (PAINT_ALL_WORDS + 1) };

/* ---- Numbers 1 to 4 ---- */

typedef struct {
    int line;
    const char *name;
    uint32_t width, height;
    size_t old_length, new_length, ram_g_length;
    uint32_t limit, number, list;
} measure;

static const measure measures[] = {
    { CASE("width 0"), 0, 3, 24, 24, 0, 9, 1, 0 },
    { CASE("a width too large by one"), JV_MAX_WIDTH + 1, 3, 24, 24, 0, 9, 1, 0 },
    { CASE("width 2^31 + 4"), 0x80000004, 3, 24, 24, 0, 9, 1, 0 },
    { CASE("height 0"), 4, 0, 24, 24, 0, 9, 1, 0 },
    { CASE("a height too large by one"), 4, JV_MAX_HEIGHT + 1, 24, 24, 0, 9, 1, 0 },
    { CASE("height 2^32 - 1"), 4, 0xFFFFFFFF, 24, 24, 0, 9, 1, 0 },
    { CASE("the largest frame turned by a quarter"), JV_MAX_HEIGHT, JV_MAX_WIDTH, 24, 24, 0, 9, 1, 0 },

    { CASE("an empty old list"), 4, 3, 0, 24, 0, 9, 2, OLD_LIST },
    { CASE("an old list of 3 bytes"), 4, 3, 3, 24, 0, 9, 2, OLD_LIST },
    { CASE("an old list of 23 bytes"), 4, 3, 23, 24, 0, 9, 2, OLD_LIST },
    { CASE("an old list too long by a byte"), 4, 3, JV_MAX_LIST_BYTES + 1, 24, 0, 9, 2, OLD_LIST },
    { CASE("an old list too long by a word"), 4, 3, JV_MAX_LIST_BYTES + 4, 24, 0, 9, 2, OLD_LIST },
    { CASE("an empty new list"), 4, 3, 24, 0, 0, 9, 2, NEW_LIST },
    { CASE("a new list of 3 bytes"), 4, 3, 24, 3, 0, 9, 2, NEW_LIST },
    { CASE("a new list of 23 bytes"), 4, 3, 24, 23, 0, 9, 2, NEW_LIST },
    { CASE("a new list too long by a byte"), 4, 3, 24, JV_MAX_LIST_BYTES + 1, 0, 9, 2, NEW_LIST },
    { CASE("a new list too long by a word"), 4, 3, 24, JV_MAX_LIST_BYTES + 4, 0, 9, 2, NEW_LIST },
    { CASE("two empty lists"), 4, 3, 0, 0, 0, 9, 2, OLD_LIST },
    { CASE("two lists too long"), 4, 3, JV_MAX_LIST_BYTES + 4, JV_MAX_LIST_BYTES + 4, 0, 9, 2, OLD_LIST },

    { CASE("RAM_G too long by a byte"), 4, 3, 24, 24, JV_MAX_RAM_G_BYTES + 1, 9, 3, 0 },

    { CASE("limit 0"), 4, 3, 24, 24, 0, 0, 4, 0 },
    { CASE("a limit too large by one"), 4, 3, 24, 24, 0, JV_MAX_LIMIT + 1, 4, 0 },
    { CASE("limit 2^32 - 1"), 4, 3, 24, 24, 0, 0xFFFFFFFF, 4, 0 },

    { CASE("1 before 2, 3 and 4"), 0, JV_MAX_HEIGHT + 1, 5, 5, JV_MAX_RAM_G_BYTES + 1, 0, 1, 0 },
    { CASE("2 of the old list before 2 of the new, 3 and 4"), 4, 3, 5, 5, JV_MAX_RAM_G_BYTES + 1, 0, 2, OLD_LIST },
    { CASE("2 of the old list before 3"), 4, 3, 5, 24, JV_MAX_RAM_G_BYTES + 1, 9, 2, OLD_LIST },
    { CASE("2 of the old list before 4"), 4, 3, 5, 24, 0, 0, 2, OLD_LIST },
    { CASE("2 of the new list before 3 and 4"), 4, 3, 24, 5, JV_MAX_RAM_G_BYTES + 1, 0, 2, NEW_LIST },
    { CASE("2 of the new list before 3"), 4, 3, 24, 5, JV_MAX_RAM_G_BYTES + 1, 9, 2, NEW_LIST },
    { CASE("2 of the new list before 4"), 4, 3, 24, 5, 0, JV_MAX_LIMIT + 1, 2, NEW_LIST },
    { CASE("3 before 4"), 4, 3, 24, 24, JV_MAX_RAM_G_BYTES + 1, 0, 3, 0 },
};

/* With runs of the lengths that the frame has, where it has any. */
static void check_measures(void)
{
    begin_part("repaints refused by measure");
    for (const measure *m = measures; m < measures + LENGTH(measures); m++) {
        size_t width = m->width <= JV_MAX_WIDTH ? m->width : 1, height = m->height <= JV_MAX_HEIGHT ? m->height : 1;
        run_request run = { good_list(), m->new_length, m->ram_g_length, m->width, m->height, m->limit };
        jv_answer wanted = { m->number, m->list, 0, 0 };
        refused_repaint q = { m->line,        m->name, empty_list(), m->old_length, run, 3 * width * height,
                              width * height, height,  wanted };
        check_refusal(__FILE__, &q);
    }
}

/* ---- What is lent ---- */

static run_request good_run(void)
{
    return (run_request){ good_list(), GOOD_LENGTH, 0, WIDTH, HEIGHT, 9 };
}

typedef struct {
    int line;
    const char *name;
    size_t picture_length, tags_length, marks_length;
} lent_lengths;

/* The runs are 36, 12 and 3 bytes. */
static const lent_lengths wrong_lengths[] = {
    { CASE("a picture of one byte less"), 35, 12, 3 },
    { CASE("a picture of one byte more"), 37, 12, 3 },
    { CASE("no picture"), 0, 12, 3 },
    { CASE("tags of one byte less"), 36, 11, 3 },
    { CASE("tags of one byte more"), 36, 13, 3 },
    { CASE("no tags"), 36, 0, 3 },
    { CASE("marks of one byte less"), 36, 12, 2 },
    { CASE("marks of one byte more"), 36, 12, 4 },
    { CASE("no marks"), 36, 12, 0 },
    { CASE("a mark for each pixel"), 36, 12, 12 },
    { CASE("nothing lent"), 0, 0, 0 },
    { CASE("one row's runs for a frame"), 12, 4, 1 },
    { CASE("picture and tags of each other's length"), 12, 36, 3 },
    { CASE("tags and marks of each other's length"), 36, 3, 12 },
};

static void check_wrong_lengths(void)
{
    begin_part("repaints refused by what is lent");
    for (const lent_lengths *l = wrong_lengths; l < wrong_lengths + LENGTH(wrong_lengths); l++) {
        refused_repaint q = { l->line,        l->name,         empty_list(),  4, good_run(), l->picture_length,
                              l->tags_length, l->marks_length, { 1, 0, 0, 0 } };
        check_refusal(__FILE__, &q);
    }
}

/* Number 1 for marks is told before the others. */
static void check_lengths_first(void)
{
    static const uint8_t faulty[] = { 0xFF, 0xFF, 0xFF, 0xFF, 0xFF };
    run_request run = { faulty, 4, 0, WIDTH, HEIGHT, 9 }, short_run = run, bad_ram_g = run, bad_limit = run;
    short_run.list_length = 5;
    bad_ram_g.ram_g_length = JV_MAX_RAM_G_BYTES + 1;
    bad_limit.limit = 0;
    const refused_repaint table[] = {
        { CASE("the old list's length"), faulty, 5, run, 36, 12, 2, { 1, 0, 0, 0 } },
        { CASE("the new list's length"), faulty, 4, short_run, 36, 12, 2, { 1, 0, 0, 0 } },
        { CASE("RAM_G length"), faulty, 4, bad_ram_g, 36, 12, 4, { 1, 0, 0, 0 } },
        { CASE("a limit"), faulty, 4, bad_limit, 36, 12, 4, { 1, 0, 0, 0 } },
        { CASE("a fault"), faulty, 4, run, 36, 12, 0, { 1, 0, 0, 0 } },
        { CASE("none of these"), faulty, 4, run, 36, 12, 3, { 11, OLD_LIST, 0, 1 } },
        { CASE("2 of the new list before a fault of the old"), faulty, 4, short_run, 36, 12, 3, { 2, NEW_LIST, 0, 0 } },
        { CASE("3 before a fault of the old list"), faulty, 4, bad_ram_g, 36, 12, 3, { 3, 0, 0, 0 } },
        { CASE("4 before a fault of the old list"), faulty, 4, bad_limit, 36, 12, 3, { 4, 0, 0, 0 } },
    };
    begin_part("repaints: number 1 before the others, and 1 to 4 before a fault");
    for (const refused_repaint *q = table; q < table + LENGTH(table); q++)
        check_refusal(__FILE__, q);
}

/* Lengths that 32 bits would cut to the right ones. Nothing is lent that is so long: it is refused before it is read or
   written. */
static void check_vast_lengths(void)
{
    const size_t vast = (size_t)1 << 32;
    begin_part("repaints: lengths above 32 bits");
    for (size_t n = 0; n < LENGTH(programs); n++) {
        run_request run = good_run();
        lent_runs lent = lend_with_marks(36, 12, 3);
        repaint_request request = lending_for_repaint(empty_list(), 4, &run, ram_g, &lent);
        repaint_request long_picture = request, long_tags = request, long_marks = request, long_old = request;
        repaint_request long_new = request;
        long_picture.paint.picture_length += vast;
        long_tags.paint.tags_length += vast;
        long_marks.marks_length += vast;
        long_old.old_list_length += vast;
        long_new.paint.run.list_length += vast;
        CHECK_HOLDS(are_equal_answers(programs[n]->repaint(&long_picture), (jv_answer){ 1, 0, 0, 0 }),
                    "a picture of 2^32 + 36 bytes gives 1");
        CHECK_HOLDS(are_equal_answers(programs[n]->repaint(&long_tags), (jv_answer){ 1, 0, 0, 0 }),
                    "tags of 2^32 + 12 bytes give 1");
        CHECK_HOLDS(are_equal_answers(programs[n]->repaint(&long_marks), (jv_answer){ 1, 0, 0, 0 }),
                    "marks of 2^32 + 3 bytes give 1");
        CHECK_HOLDS(are_equal_answers(programs[n]->repaint(&long_old), (jv_answer){ 2, OLD_LIST, 0, 0 }),
                    "an old list of 2^32 + 4 bytes gives 2");
        CHECK_HOLDS(are_equal_answers(programs[n]->repaint(&long_new), (jv_answer){ 2, NEW_LIST, 0, 0 }),
                    "a new list of 2^32 + 24 bytes gives 2");
        CHECK_HOLDS(is_as_lent(&lent), "not a byte is written");
        take_back(&lent);
    }
}

/* ---- Fault numbers ---- */

static jv_answer told_of(uint32_t list, run_answer a)
{
    return (jv_answer){ a.number, list, a.place, a.count };
}

/* The good list ends within each of the limits. */
static void check_faulty(const faulty_list *f, const uint8_t *old_list, size_t old_length, const uint8_t *new_list,
                         size_t new_length, uint32_t named)
{
    run_request run = { new_list, new_length, f->ram_g_length, WIDTH, HEIGHT, f->limit };
    check_refusal(faulty_lists_file, &(refused_repaint){ f->line, f->name, old_list, old_length, run, 36, 12, 3,
                                                         told_of(named, f->answer) });
}

static void check_faulty_lists(void)
{
    static const uint8_t no_command[] = { 0xFF, 0xFF, 0xFF, 0xFF };
    static uint8_t list[JV_MAX_LIST_BYTES];
    begin_part("repaints refused by a fault");
    for (const faulty_list *f = faulty_lists; f < faulty_lists + faulty_list_count; f++) {
        size_t length = 4 * f->count;
        put_words(list, f->words, f->count);
        check_faulty(f, list, length, good_list(), GOOD_LENGTH, OLD_LIST);
        check_faulty(f, good_list(), GOOD_LENGTH, list, length, NEW_LIST);
        check_faulty(f, list, length, list, length, OLD_LIST);
        check_faulty(f, list, length, no_command, sizeof no_command, OLD_LIST);
    }
}

/* The two lists that 2 and the fault numbers can name, each of them. */
static void check_each_met(void)
{
    begin_part("each number refused");
    printf("repaints refused by hand:");
    for (uint32_t number = 1; number < NUMBERS; number++) {
        if (4 < number && number < 10)
            continue;
        bool names_a_list = number == 2 || number >= 10;
        printf("  %u of %" PRIu32, met[number][0] + met[number][OLD_LIST] + met[number][NEW_LIST], number);
        CHECK_HOLDS(names_a_list ? met[number][OLD_LIST] > 0 && met[number][NEW_LIST] > 0 : met[number][0] > 0,
                    "for each list that it names");
    }
    putchar('\n');
}

/* What an error left behind would show in the repaint after it. */
static void check_repainting_after(void)
{
    begin_part("repainting after a refusal");
    check_repaint(__FILE__, &(const hand_picture){ CASE("all of a small frame"), FROM(DISPLAY()),
                                                   TO(PAINT_ALL, DISPLAY()), SHOWS("####", "####", "####") });
}

void check_repaint_refusals_by_hand(void)
{
    check_measures();
    check_wrong_lengths();
    check_lengths_first();
    check_vast_lengths();
    check_faulty_lists();
    check_each_met();
    check_repainting_after();
}
