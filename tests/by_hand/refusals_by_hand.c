/* Requests to paint that are refused: the number each has to give, with its place and count, and that not a byte of
   what was lent is written. The frame is 4 by 3 unless a case says otherwise, and its list would paint all of it. */
#include "pictures_by_hand.h"

#include <inttypes.h>
#include <stdio.h>

#include "../second/answers.h"
#include "../shared/check.h"
#include "../shared/list_check.h"
#include "faulty_lists.h"
#include "hand_pictures.h"

enum { WIDTH = 4, HEIGHT = 3, NUMBERS = JV_FAR_END + 1 };

static uint8_t ram_g[JV_MAX_RAM_G_BYTES + 1];

/* How many cases gave each number, by the frame and by the row. */
static unsigned met[NUMBERS];

static void print_refusal(const char *name, const char *call, const paint_request *r, const lent_runs *lent,
                          jv_answer came, jv_answer wanted)
{
    printf("%s, by %s\n", name, call);
    print_request(&r->run);
    printf("    lent: a picture of %zu bytes and tags of %zu\n", r->picture_length, r->tags_length);
    print_answer("came:  ", came);
    print_answer("wanted:", wanted);
    if (!is_as_lent(lent))
        puts("    bytes that were lent are not as they were");
}

/* What is asked, by the frame or by the row, and what has to come of it. */
typedef struct {
    int line;
    const char *name;
    run_request run;
    bool is_row;
    uint32_t row;
    size_t picture_length, tags_length;
    jv_answer wanted;
} refused_request;

static void check_refusal_in(const char *file, const refused_request *q)
{
    const painter *const painters[] = { &library, &second_program };
    for (size_t n = 0; n < LENGTH(painters); n++) {
        lent_runs lent = lend(q->picture_length, q->tags_length);
        paint_request request = lending(&q->run, ram_g, &lent);
        const char *call = q->is_row ? painters[n]->row_call : painters[n]->frame_call;
        jv_answer came = q->is_row ? painters[n]->paint_row(&request, q->row) : painters[n]->paint(&request);
        if (is_to_be_told(file, q->line, are_equal_answers(came, q->wanted) && is_as_lent(&lent)))
            print_refusal(q->name, call, &request, &lent, came, q->wanted);
        take_back(&lent);
    }
    met[q->wanted.number]++;
}

static void check_refusal(const refused_request *q)
{
    check_refusal_in(__FILE__, q);
}

/* By the frame, and by its first and its last row, with runs of the right lengths. */
static void check_refused_run(const char *file, int line, const char *name, const run_request *run, run_answer wanted)
{
    size_t width = run->width <= JV_MAX_WIDTH ? run->width : 1, height = run->height <= JV_MAX_HEIGHT ? run->height : 1;
    refused_request q = { .line = line, .name = name, .run = *run, .wanted = as_answer(wanted) };
    q.picture_length = 3 * width * height;
    q.tags_length = width * height;
    check_refusal_in(file, &q);
    q.is_row = true;
    q.picture_length = 3 * width;
    q.tags_length = width;
    check_refusal_in(file, &q);
    q.row = run->height > 0 ? run->height - 1 : 0;
    check_refusal_in(file, &q);
}

/* ---- Numbers 1 to 4 ---- */

typedef struct {
    int line;
    const char *name;
    uint32_t width, height;
    size_t list_length, ram_g_length;
    uint32_t limit, number;
} measure;

static const measure measures[] = {
    { CASE("width 0"), 0, 3, 24, 0, 9, 1 },
    { CASE("a width too large by one"), JV_MAX_WIDTH + 1, 3, 24, 0, 9, 1 },
    { CASE("width 2^32 - 1"), 0xFFFFFFFF, 3, 24, 0, 9, 1 },
    { CASE("width 2^31 + 4"), 0x80000004, 3, 24, 0, 9, 1 },
    { CASE("height 0"), 4, 0, 24, 0, 9, 1 },
    { CASE("a height too large by one"), 4, JV_MAX_HEIGHT + 1, 24, 0, 9, 1 },
    { CASE("height 2^32 - 1"), 4, 0xFFFFFFFF, 24, 0, 9, 1 },
    { CASE("the largest frame turned by a quarter"), JV_MAX_HEIGHT, JV_MAX_WIDTH, 24, 0, 9, 1 },

    { CASE("an empty list"), 4, 3, 0, 0, 9, 2 },
    { CASE("a list of 3 bytes"), 4, 3, 3, 0, 9, 2 },
    { CASE("a list of 23 bytes"), 4, 3, 23, 0, 9, 2 },
    { CASE("a list too long by a byte"), 4, 3, JV_MAX_LIST_BYTES + 1, 0, 9, 2 },
    { CASE("a list too long by a word"), 4, 3, JV_MAX_LIST_BYTES + 4, 0, 9, 2 },

    { CASE("RAM_G too long by a byte"), 4, 3, 24, JV_MAX_RAM_G_BYTES + 1, 9, 3 },

    { CASE("limit 0"), 4, 3, 24, 0, 0, 4 },
    { CASE("a limit too large by one"), 4, 3, 24, 0, JV_MAX_LIMIT + 1, 4 },
    { CASE("limit 2^32 - 1"), 4, 3, 24, 0, 0xFFFFFFFF, 4 },

    { CASE("1 before 2, 3 and 4"), 0, JV_MAX_HEIGHT + 1, 5, JV_MAX_RAM_G_BYTES + 1, 0, 1 },
    { CASE("2 before 3 and 4"), 4, 3, 5, JV_MAX_RAM_G_BYTES + 1, 0, 2 },
    { CASE("3 before 4"), 4, 3, 24, JV_MAX_RAM_G_BYTES + 1, 0, 3 },
};

/* A list of 24 bytes that paints everything, and DISPLAY again and again after it. */
static const uint8_t *long_list(void)
{
    static uint8_t list[JV_MAX_LIST_BYTES + 4];
    static const uint32_t words[] = { PAINT_ALL, DISPLAY() };
    put_words(list, words, LENGTH(words));
    return list;
}

static void check_measures(void)
{
    begin_part("refused by measure");
    for (const measure *m = measures; m < measures + LENGTH(measures); m++) {
        run_request run = { long_list(), m->list_length, m->ram_g_length, m->width, m->height, m->limit };
        check_refused_run(__FILE__, m->line, m->name, &run, (run_answer){ m->number, 0, 0 });
    }
}

/* ---- What is lent, and which row ---- */

static run_request good_run(void)
{
    return (run_request){ long_list(), 24, 0, WIDTH, HEIGHT, 9 };
}

typedef struct {
    int line;
    const char *name;
    bool is_row;
    uint32_t row;
    size_t picture_length, tags_length;
} lent_lengths;

enum { IS_FRAME = 0, IS_ROW = 1 };

/* A frame's runs are 36 and 12 bytes, a row's 12 and 4. */
static const lent_lengths wrong_lengths[] = {
    { CASE("a picture of one byte less"), IS_FRAME, 0, 35, 12 },
    { CASE("a picture of one byte more"), IS_FRAME, 0, 37, 12 },
    { CASE("no picture"), IS_FRAME, 0, 0, 12 },
    { CASE("tags of one byte less"), IS_FRAME, 0, 36, 11 },
    { CASE("tags of one byte more"), IS_FRAME, 0, 36, 13 },
    { CASE("no tags"), IS_FRAME, 0, 36, 0 },
    { CASE("nothing lent"), IS_FRAME, 0, 0, 0 },
    { CASE("one row's runs for a frame"), IS_FRAME, 0, 12, 4 },
    { CASE("picture and tags of each other's length"), IS_FRAME, 0, 12, 36 },

    { CASE("a row's picture of one byte less"), IS_ROW, 1, 11, 4 },
    { CASE("a row's picture of one byte more"), IS_ROW, 1, 13, 4 },
    { CASE("no picture for a row"), IS_ROW, 1, 0, 4 },
    { CASE("a row's tags of one byte less"), IS_ROW, 1, 12, 3 },
    { CASE("a row's tags of one byte more"), IS_ROW, 1, 12, 5 },
    { CASE("no tags for a row"), IS_ROW, 1, 12, 0 },
    { CASE("nothing lent for a row"), IS_ROW, 1, 0, 0 },
    { CASE("the frame's runs for a row"), IS_ROW, 1, 36, 12 },

    { CASE("the row after the last"), IS_ROW, 3, 12, 4 },
    { CASE("a row far past the frame"), IS_ROW, JV_MAX_HEIGHT, 12, 4 },
    { CASE("row 2^32 - 1"), IS_ROW, 0xFFFFFFFF, 12, 4 },
    { CASE("row 2^31"), IS_ROW, 0x80000000, 12, 4 },
};

static void check_wrong_lengths(void)
{
    begin_part("refused by what is lent");
    for (const lent_lengths *l = wrong_lengths; l < wrong_lengths + LENGTH(wrong_lengths); l++)
        check_refusal(&(refused_request){ l->line, l->name, good_run(), l->is_row, l->row, l->picture_length,
                                          l->tags_length, { 1, 0, 0, 0 } });
}

/* Number 1 is told before the others, whatever it is for. */
static void check_lengths_first(void)
{
    static const uint8_t faulty[] = { 0xFF, 0xFF, 0xFF, 0xFF, 0xFF };
    run_request bad_list = { faulty, 5, 0, WIDTH, HEIGHT, 9 },
                bad_ram_g = { faulty, 4, JV_MAX_RAM_G_BYTES + 1, WIDTH, HEIGHT, 9 };
    run_request bad_limit = { faulty, 4, 0, WIDTH, HEIGHT, 0 }, bad_word = { faulty, 4, 0, WIDTH, HEIGHT, 9 };
    begin_part("number 1 before the others");
    check_refusal(&(refused_request){ CASE("a list length"), bad_list, IS_FRAME, 0, 35, 12, { 1, 0, 0, 0 } });
    check_refusal(&(refused_request){ CASE("a list length, by tags"), bad_list, IS_FRAME, 0, 36, 0, { 1, 0, 0, 0 } });
    check_refusal(&(refused_request){ CASE("a list length, by the row"), bad_list, IS_ROW, 3, 12, 4, { 1, 0, 0, 0 } });
    check_refusal(&(refused_request){ CASE("RAM_G length"), bad_ram_g, IS_FRAME, 0, 37, 12, { 1, 0, 0, 0 } });
    check_refusal(&(refused_request){ CASE("RAM_G length, by the row"), bad_ram_g, IS_ROW, 3, 12, 4, { 1, 0, 0, 0 } });
    check_refusal(&(refused_request){ CASE("a limit"), bad_limit, IS_FRAME, 0, 36, 13, { 1, 0, 0, 0 } });
    check_refusal(&(refused_request){ CASE("a limit, by the row"), bad_limit, IS_ROW, 1, 12, 5, { 1, 0, 0, 0 } });
    check_refusal(&(refused_request){ CASE("a fault"), bad_word, IS_FRAME, 0, 0, 0, { 1, 0, 0, 0 } });
    check_refusal(&(refused_request){ CASE("a fault, by the row"), bad_word, IS_ROW, 4, 12, 4, { 1, 0, 0, 0 } });
    check_refusal(&(refused_request){ CASE("none of these"), bad_word, IS_FRAME, 0, 36, 12, { 11, 0, 0, 1 } });
    check_refusal(&(refused_request){ CASE("none of these, by the row"), bad_word, IS_ROW, 2, 12, 4, { 11, 0, 0, 1 } });
}

/* Lengths that 32 bits would cut to the right ones. Nothing is lent that is so long: it is refused before it is read or
   written. */
static void check_vast_lengths(void)
{
    const size_t vast = (size_t)1 << 32;
    const painter *const painters[] = { &library, &second_program };
    const jv_answer wanted = { 1, 0, 0, 0 };
    begin_part("lengths above 32 bits");
    for (size_t n = 0; n < LENGTH(painters); n++) {
        run_request run = good_run();
        lent_runs lent = lend(36, 12);
        paint_request long_picture = lending(&run, ram_g, &lent), long_tags = long_picture;
        long_picture.picture_length += vast;
        long_tags.tags_length += vast;
        CHECK_HOLDS(are_equal_answers(painters[n]->paint(&long_picture), wanted),
                    "a picture of 2^32 + 36 bytes gives 1");
        CHECK_HOLDS(are_equal_answers(painters[n]->paint(&long_tags), wanted), "tags of 2^32 + 12 bytes give 1");
        long_picture.picture_length = vast + 12;
        long_picture.tags_length = 4;
        CHECK_HOLDS(are_equal_answers(painters[n]->paint_row(&long_picture, 0), wanted),
                    "a row's picture of 2^32 + 12 bytes gives 1");
        CHECK_HOLDS(is_as_lent(&lent), "not a byte is written");
        take_back(&lent);
    }
}

/* ---- Fault numbers ---- */

static void check_faulty_lists(void)
{
    static uint8_t list[JV_MAX_LIST_BYTES];
    begin_part("refused by a fault");
    for (const faulty_list *f = faulty_lists; f < faulty_lists + faulty_list_count; f++) {
        put_words(list, f->words, f->count);
        run_request run = { list, 4 * f->count, f->ram_g_length, WIDTH, HEIGHT, f->limit };
        check_refused_run(faulty_lists_file, f->line, f->name, &run, f->answer);
    }
}

static void check_each_met(void)
{
    begin_part("each number refused");
    printf("refused by hand:");
    for (uint32_t number = 1; number < NUMBERS; number++) {
        if (4 < number && number < 10)
            continue;
        printf("  %u of %" PRIu32, met[number], number);
        CHECK_HOLDS(met[number] >= 3, "by the frame and by two rows at least");
    }
    putchar('\n');
}

/* What an error left behind would show in the picture after it. */
static void check_painting_after(void)
{
    begin_part("painting after a refusal");
    check_picture(__FILE__, &(const hand_picture){ CASE("all of a small frame"), LIST(PAINT_ALL, DISPLAY()),
                                                   SHOWS("####", "####", "####") });
}

void check_refusals_by_hand(void)
{
    check_measures();
    check_wrong_lengths();
    check_lengths_first();
    check_vast_lengths();
    check_faulty_lists();
    check_each_met();
    check_painting_after();
}
