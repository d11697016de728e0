/* What the shrinker leaves of cases that were made by hand, for questions of which it is known. */
#include <string.h>

#include "../shared/check.h"
#include "../shared/list_words.h"
#include "../shared/tables.h"
#include "case.h"
#include "shrink.h"

enum { MOST_BYTES = 30000 };

static uint32_t words[2][MOST_RUN_WORDS];
static uint8_t bytes[MOST_BYTES];

/* ---- Cases ---- */

static test_case case_of_numbers(number_form form, uint32_t first, uint32_t second, uint32_t rest)
{
    return (test_case){ .number = { { "first", form, first, rest }, { "second", form, second, rest } }, .numbers = 2 };
}

static void add_words(test_case *c, run_form form, const uint32_t *from, size_t count)
{
    uint32_t *to = words[c->runs];
    memcpy(to, from, count * sizeof from[0]);
    c->run[c->runs++] = (case_run){ .name = "words", .form = form, .words = to, .count = (uint32_t)count };
}

#define ADD_LIST(c, ...)                                                                                               \
    add_words(c, A_LIST, (const uint32_t[]){ __VA_ARGS__ }, LENGTH(((const uint32_t[]){ __VA_ARGS__ })))

/* The same byte everywhere. */
static test_case case_of_bytes(run_form form, uint32_t count, uint32_t rest)
{
    memset(bytes, 0xAA, sizeof bytes);
    return (test_case){ .run = { { "bytes", form, NULL, bytes, count, rest, false } }, .runs = 1 };
}

static bool has_word(const case_run *run, uint32_t word)
{
    for (uint32_t n = 0; n < run->count; n++)
        if (run->words[n] == word)
            return true;
    return false;
}

static bool is_list(const case_run *run, const uint32_t *wanted, size_t count)
{
    return run->count == count && memcmp(run->words, wanted, count * sizeof wanted[0]) == 0;
}

#define IS_LIST(run, ...) is_list(run, (const uint32_t[]){ __VA_ARGS__ }, LENGTH(((const uint32_t[]){ __VA_ARGS__ })))

/* ---- Numbers ---- */

static bool is_37_or_more(const void *asker, const test_case *c)
{
    (void)asker;
    return c->number[0].value >= 37;
}

static bool is_100_or_less(const void *asker, const test_case *c)
{
    (void)asker;
    return c->number[0].value <= 100;
}

static bool are_alike(const void *asker, const test_case *c)
{
    (void)asker;
    return c->number[0].value == c->number[1].value;
}

static bool has_two_bits(const void *asker, const test_case *c)
{
    (void)asker;
    return (c->number[0].value & 0x80010) == 0x80010;
}

static void check_numbers(void)
{
    begin_part("numbers");
    test_case c = case_of_numbers(AMOUNT, 1000, 5, 1);
    shrink(&c, is_37_or_more, NULL);
    CHECK_HOLDS(c.number[0].value == 37 && c.number[1].value == 1, "an amount goes as far down as it can");
    c = case_of_numbers(AMOUNT, 3, 4096, 4096);
    shrink(&c, is_100_or_less, NULL);
    CHECK_HOLDS(c.number[0].value == 100, "an amount below its rest goes up");
    c = case_of_numbers(AMOUNT, 4000, 4000, 0);
    shrink(&c, are_alike, NULL);
    CHECK_HOLDS(c.number[0].value == 0 && c.number[1].value == 0, "amounts that have to be alike go down together");
    c = case_of_numbers(PATTERN, 0xFFFFFFFF, 0xFFFFFFFF, 0);
    shrink(&c, has_two_bits, NULL);
    CHECK_HOLDS(c.number[0].value == 0x80010 && c.number[1].value == 0, "of a pattern the bits that matter stay");
}

/* ---- Words ---- */

static bool has_both_words(const void *asker, const test_case *c)
{
    (void)asker;
    return has_word(&c->run[0], TAG(7)) && has_word(&c->run[0], COLOR_RGB(1, 2, 3));
}

static void check_stretches(void)
{
    uint32_t many[500];
    for (size_t n = 0; n < LENGTH(many); n++)
        many[n] = CELL(n);
    many[123] = TAG(7);
    many[401] = COLOR_RGB(1, 2, 3);
    test_case c = { .runs = 0 };
    add_words(&c, A_LIST, many, LENGTH(many));
    shrunk s = shrink(&c, has_both_words, NULL);
    CHECK_HOLDS(IS_LIST(&c.run[0], TAG(7), COLOR_RGB(1, 2, 3)), "two words of five hundred stay");
    CHECK_HOLDS(!s.is_spent && s.tries < 200, "that takes few tries");
}

/* The first word is a jump to a TAG of 7. */
static bool jumps_to_tag(const void *asker, const test_case *c)
{
    (void)asker;
    const case_run *run = &c->run[0];
    uint32_t to = (run->words[0] & 0xFFFF) / 4;
    return run->count > 0 && run->words[0] >> 24 == 0x1E && to < run->count && run->words[to] == TAG(7);
}

/* The last word is a TAG of 7, or calls one. */
static bool ends_with_tag(const void *asker, const test_case *c)
{
    (void)asker;
    const case_run *run = &c->run[0];
    if (run->count == 0)
        return false;
    uint32_t last = run->words[run->count - 1], to = (last & 0xFFFF) / 4;
    return last == TAG(7) || (last >> 24 == 0x1D && to < run->count && run->words[to] == TAG(7));
}

static void check_targets(void)
{
    test_case c = { .runs = 0 };
    ADD_LIST(&c, JUMP(16), CELL(1), CELL(2), CELL(3), TAG(7), DISPLAY());
    shrink(&c, jumps_to_tag, NULL);
    CHECK_HOLDS(IS_LIST(&c.run[0], JUMP(4), TAG(7)), "a jump is moved along with what it leads to");
    c.runs = 0;
    ADD_LIST(&c, CELL(1), TAG(7), RETURN(), CALL(4));
    shrink(&c, ends_with_tag, NULL);
    CHECK_HOLDS(IS_LIST(&c.run[0], TAG(7)), "a call becomes the word that it leads to");
}

static bool has_five_words(const void *asker, const test_case *c)
{
    (void)asker;
    return c->run[0].count >= 5 && c->run[0].words[2] >> 24 == 0x03;
}

/* A TAG of 7, and then the end of a stretch. */
static bool is_tag_at_end(const void *asker, const test_case *c)
{
    (void)asker;
    const case_run *run = &c->run[0];
    return run->count == 2 && run->words[0] == TAG(7) && (run->words[1] == RETURN() || run->words[1] == DISPLAY());
}

static void check_blanks(void)
{
    test_case c = { .runs = 0 };
    ADD_LIST(&c, CELL(1), CELL(2), TAG(7), CELL(4), CELL(5), CELL(6), CELL(7));
    shrink(&c, has_five_words, NULL);
    CHECK_HOLDS(IS_LIST(&c.run[0], NOP(), NOP(), TAG(0), NOP(), NOP()), "NOP stands for words that cannot go");
    c.runs = 0;
    ADD_LIST(&c, TAG(7), RETURN());
    shrink(&c, is_tag_at_end, NULL);
    CHECK_HOLDS(IS_LIST(&c.run[0], TAG(7), DISPLAY()), "DISPLAY stands for another end");
}

/* Both lists have the tag, and as many words as the other. */
static bool are_equally_long(const void *asker, const test_case *c)
{
    (void)asker;
    return c->run[0].count == c->run[1].count && has_word(&c->run[0], TAG(7)) && has_word(&c->run[1], TAG(7));
}

static bool are_both_at_one_place(const void *asker, const test_case *c)
{
    (void)asker;
    const case_run *run = &c->run[0];
    return run->count == 2 && run->words[0] == run->words[1] && run->words[0] >> 30 == 1;
}

static void check_words_alike(void)
{
    test_case c = { .runs = 0 };
    ADD_LIST(&c, CELL(1), CELL(2), TAG(7), CELL(3));
    ADD_LIST(&c, CELL(1), CELL(2), TAG(7), CELL(3));
    shrink(&c, are_equally_long, NULL);
    CHECK_HOLDS(IS_LIST(&c.run[0], TAG(7)) && IS_LIST(&c.run[1], TAG(7)), "what is the same in two lists goes in both");
    c.runs = 0;
    ADD_LIST(&c, VERTEX2F(-3, 144), VERTEX2F(-3, 144));
    shrink(&c, are_both_at_one_place, NULL);
    CHECK_HOLDS(IS_LIST(&c.run[0], VERTEX2F(0, 0), VERTEX2F(0, 0)), "what is at one place moves together");
}

/* ---- Calls ---- */

static bool are_two_calls_made(const void *asker, const test_case *c)
{
    (void)asker;
    return !c->run[1].is_gone && !c->run[3].is_gone;
}

/* The call is made with two words or more, which end at place 300. */
static bool do_words_end_at_300(const void *asker, const test_case *c)
{
    (void)asker;
    uint32_t count = c->run[0].count - CALL_HEAD;
    return !c->run[0].is_gone && count >= 2 && c->number[0].value + 4 * count == 300;
}

static void check_calls(void)
{
    begin_part("calls");
    static uint32_t head[CALL_HEAD];
    test_case c = { .runs = 5 };
    for (unsigned n = 0; n < c.runs; n++)
        c.run[n] = (case_run){ .form = A_CALL, .words = head, .count = CALL_HEAD };
    shrink(&c, are_two_calls_made, NULL);
    CHECK_HOLDS(c.run[0].is_gone && c.run[2].is_gone && c.run[4].is_gone, "calls go that are not needed");
    CHECK_HOLDS(!c.run[1].is_gone && !c.run[3].is_gone, "the others stay");

    static const uint32_t host[CALL_HEAD + 50] = { 1 };
    c = case_of_numbers(PLACE, 100, 7, 0);
    add_words(&c, A_CALL, host, LENGTH(host));
    shrink(&c, do_words_end_at_300, NULL);
    CHECK_HOLDS(c.run[0].count == CALL_HEAD + 2 && c.number[0].value == 292,
                "a place moves along with the host's words");
    CHECK_HOLDS(c.run[0].words[CALL_KIND] == 0, "a call's own words become 0");
}

/* ---- Bytes ---- */

static bool are_two_bytes_set(const void *asker, const test_case *c)
{
    (void)asker;
    return c->run[0].count > 700 && bytes[500] != 0 && bytes[700] != 0;
}

static bool are_all_bytes_set(const void *asker, const test_case *c)
{
    (void)asker;
    return c->run[0].count == MOST_BYTES && memchr(bytes, 0, MOST_BYTES) == NULL;
}

static void check_bytes(void)
{
    begin_part("bytes");
    test_case c = case_of_bytes(MEMORY, 1000, 0);
    shrink(&c, are_two_bytes_set, NULL);
    case_size size = size_of_case(&c);
    CHECK_HOLDS(c.run[0].count == 701 && size.bytes == 2,
                "memory ends behind the last byte that matters, the rest is 0");
    c = case_of_bytes(A_FRAME, 1000, 0);
    shrink(&c, are_two_bytes_set, NULL);
    size = size_of_case(&c);
    CHECK_HOLDS(c.run[0].count == 1000 && size.bytes == 2, "a frame keeps its length");
    c = case_of_bytes(MEMORY, MOST_BYTES, 0);
    shrunk s = shrink(&c, are_all_bytes_set, NULL);
    CHECK_HOLDS(s.is_spent && s.tries == MOST_TRIES, "it stops when there have been too many tries");
    CHECK_HOLDS(are_all_bytes_set(NULL, &c), "and what it has then is what was sought");
}

int main(void)
{
    check_numbers();
    begin_part("words");
    check_stretches();
    check_targets();
    check_blanks();
    check_words_alike();
    check_calls();
    check_bytes();
    return end_checks();
}
