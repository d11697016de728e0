#include "shrink.h"

#include <stddef.h>
#include <string.h>

#include "../shared/list_words.h"
#include "targets.h"

/* The longest run of bytes is the picture of a frame just out of bounds. */
enum { MOST_RUN_BYTES = 3 * (JV_MAX_WIDTH + 3) * (JV_MAX_HEIGHT + 3) + 1, NO_RUN = MOST_RUNS };

/* A stretch of up to so many words is tried at every place, a longer one at every multiple of its length. A command of
   the ring is no longer. */
enum { SHORT_STRETCH = 4 };

/* A change is tried at a time. Before it all runs of words are kept as they are, and one of bytes if it changes. */
typedef struct {
    test_case *now;
    is_sought *is_still;
    const void *asker;
    unsigned long tries;
    unsigned long kept; /* changes, so far */
    test_case before;
    unsigned changed_bytes; /* the run, or NO_RUN */
} work;

static uint32_t words_before[MOST_RUNS][MOST_RUN_WORDS];
static uint8_t bytes_before[MOST_RUN_BYTES];

/* ---- A change ---- */

static void begin_change(work *w)
{
    w->before = *w->now;
    w->changed_bytes = NO_RUN;
    for (unsigned r = 0; r < w->now->runs; r++)
        if (has_words(&w->now->run[r]))
            memcpy(words_before[r], w->now->run[r].words, w->now->run[r].count * sizeof words_before[r][0]);
}

static void begin_change_of_bytes(work *w, unsigned r)
{
    begin_change(w);
    w->changed_bytes = r;
    memcpy(bytes_before, w->now->run[r].bytes, w->now->run[r].count);
}

static void undo_change(work *w)
{
    *w->now = w->before;
    for (unsigned r = 0; r < w->now->runs; r++)
        if (has_words(&w->now->run[r]))
            memcpy(w->now->run[r].words, words_before[r], w->now->run[r].count * sizeof words_before[r][0]);
    if (w->changed_bytes != NO_RUN)
        memcpy(w->now->run[w->changed_bytes].bytes, bytes_before, w->now->run[w->changed_bytes].count);
}

static bool is_spent(const work *w)
{
    return w->tries == MOST_TRIES;
}

/* Keeps the change if the answer is still yes, and says whether it did. */
static bool end_change(work *w)
{
    bool is_kept = !is_spent(w) && w->is_still(w->asker, w->now);
    w->tries += is_spent(w) ? 0 : 1;
    w->kept += is_kept ? 1 : 0;
    if (!is_kept)
        undo_change(w);
    return is_kept;
}

/* ---- Amounts ---- */

static uint32_t halfway(uint32_t from, uint32_t to)
{
    return from < to ? from + (to - from) / 2 : from - (from - to) / 2;
}

/* Has the amount with this number be `value`, and says whether that was kept. */
typedef bool set_amount(work *w, unsigned n, uint32_t value);

/* Brings the amount as near to its rest as it goes: next to a value that does not do. */
static void bring_near(work *w, const uint32_t *amount, uint32_t rest, set_amount *set, unsigned n)
{
    uint32_t too_near = rest;
    if (*amount == rest || set(w, n, rest))
        return;
    while (halfway(too_near, *amount) != too_near)
        if (!set(w, n, halfway(too_near, *amount)))
            too_near = halfway(too_near, *amount);
}

/* ---- Numbers ---- */

static bool set_number(work *w, unsigned n, uint32_t value)
{
    begin_change(w);
    w->now->number[n].value = value;
    return end_change(w);
}

/* Numbers that are alike may have to stay alike. */
static void rest_all_like(work *w, unsigned n)
{
    uint32_t value = w->now->number[n].value;
    unsigned count = 0;
    begin_change(w);
    for (unsigned m = 0; m < w->now->numbers; m++)
        if (w->now->number[m].value == value) {
            w->now->number[m].value = w->now->number[m].rest;
            count++;
        }
    if (count > 1)
        end_change(w);
    else
        undo_change(w);
}

static void shrink_amount(work *w, unsigned n)
{
    const case_number *number = &w->now->number[n];
    if (number->value != number->rest)
        rest_all_like(w, n);
    bring_near(w, &number->value, number->rest, set_number, n);
}

static void shrink_pattern(work *w, unsigned n)
{
    const uint32_t *value = &w->now->number[n].value;
    if (*value == 0 || set_number(w, n, 0))
        return;
    for (uint32_t bit = 0x80000000; bit != 0; bit >>= 1)
        if (*value & bit)
            set_number(w, n, *value & ~bit);
}

static void shrink_numbers(work *w)
{
    for (unsigned n = 0; n < w->now->numbers; n++)
        if (w->now->number[n].form == PATTERN)
            shrink_pattern(w, n);
        else
            shrink_amount(w, n);
}

/* ---- Calls ---- */

/* The calls of these `count` runs from `first` on. */
static bool take_calls_away(work *w, unsigned first, unsigned count)
{
    begin_change(w);
    for (unsigned n = first; n < first + count; n++)
        w->now->run[n].is_gone = w->now->run[n].form == A_CALL;
    return end_change(w);
}

static bool is_call_there(const test_case *c, unsigned first, unsigned count)
{
    for (unsigned n = first; n < first + count; n++)
        if (c->run[n].form == A_CALL && !c->run[n].is_gone)
            return true;
    return false;
}

/* At every place, for there are few. */
static void take_calls_of(work *w, unsigned count)
{
    for (unsigned first = 0; first + count <= w->now->runs; first++)
        if (is_call_there(w->now, first, count))
            take_calls_away(w, first, count);
}

static void take_calls(work *w)
{
    for (unsigned count = w->now->runs; count > 0; count /= 2)
        take_calls_of(w, count);
}

/* ---- Words that go ---- */

static void cut_out(case_run *run, uint32_t at, uint32_t count)
{
    memmove(&run->words[at], &run->words[at + count], (run->count - at - count) * sizeof run->words[0]);
    run->count -= count;
}

/* Calls and jumps lead to the same words as before, or if that does not do, to the same places. */
static bool take_list_words(work *w, unsigned r, uint32_t at, uint32_t count)
{
    case_run *run = &w->now->run[r];
    begin_change(w);
    cut_out(run, at, count);
    bool has_moved = move_targets(run->words, run->count, at, count, 0);
    if (end_change(w))
        return true;
    if (!has_moved)
        return false;
    begin_change(w);
    cut_out(run, at, count);
    return end_change(w);
}

static void move_place(case_number *number, uint32_t words)
{
    number->value += number->form == PLACE ? 4 * words : 0;
}

/* The places that a call is given. */
static void move_given_places(case_run *run, uint32_t words)
{
    for (unsigned n = CALL_READ; run->form == A_CALL && n <= CALL_OFFSET; n++)
        run->words[n] += 4 * words;
}

static bool take_call_words(work *w, unsigned r, uint32_t at, uint32_t count)
{
    begin_change(w);
    cut_out(&w->now->run[r], at, count);
    return end_change(w);
}

static bool take_call_words_and_move(work *w, unsigned r, uint32_t at, uint32_t count, unsigned n)
{
    begin_change(w);
    cut_out(&w->now->run[r], at, count);
    move_place(&w->now->number[n], count);
    return end_change(w);
}

static bool take_call_words_and_move_all(work *w, unsigned r, uint32_t at, uint32_t count)
{
    begin_change(w);
    cut_out(&w->now->run[r], at, count);
    for (unsigned n = 0; n < w->now->numbers; n++)
        move_place(&w->now->number[n], count);
    for (unsigned n = 0; n < w->now->runs; n++)
        move_given_places(&w->now->run[n], count);
    return end_change(w);
}

/* With no place moved along, one of them, or all. */
static bool take_words(work *w, unsigned r, uint32_t at, uint32_t count)
{
    if (w->now->run[r].form == A_LIST)
        return take_list_words(w, r, at, count);
    if (take_call_words(w, r, at, count))
        return true;
    for (unsigned n = 0; n < w->now->numbers; n++)
        if (w->now->number[n].form == PLACE && take_call_words_and_move(w, r, at, count, n))
            return true;
    return take_call_words_and_move_all(w, r, at, count);
}

/* Whether the run has the same words, so many from its start; it is not asked of itself. */
static bool has_same_words(const case_run *run, const case_run *other, uint32_t at, uint32_t count)
{
    return run != other && run->form == A_LIST && other->form == A_LIST && at + count <= other->count &&
           memcmp(&run->words[at], &other->words[at], count * sizeof run->words[0]) == 0;
}

/* A list that was edited is mostly like what it was before, and what is taken from one may have to go in both. */
static bool take_words_from_all(work *w, unsigned r, uint32_t at, uint32_t count)
{
    bool is_alone = true;
    begin_change(w);
    for (unsigned n = 0; n < w->now->runs; n++) {
        case_run *run = &w->now->run[n];
        if (!has_same_words(&w->now->run[r], run, at, count))
            continue;
        is_alone = false;
        cut_out(run, at, count);
        move_targets(run->words, run->count, at, count, 0);
    }
    if (is_alone)
        return false;
    cut_out(&w->now->run[r], at, count);
    move_targets(w->now->run[r].words, w->now->run[r].count, at, count, 0);
    return end_change(w);
}

/* From the run's end on, for what is taken there leaves the places before it as they are. */
static void take_stretches(work *w, unsigned r, uint32_t length)
{
    uint32_t step = length > SHORT_STRETCH ? length : 1, head = head_of(&w->now->run[r]);
    for (uint32_t end = w->now->run[r].count; end >= head + length && !is_spent(w); end -= step)
        if (end <= w->now->run[r].count && !take_words(w, r, end - length, length))
            take_words_from_all(w, r, end - length, length);
}

static uint32_t next_length(uint32_t length)
{
    return length > 2 * SHORT_STRETCH ? length / 2 : length > SHORT_STRETCH ? SHORT_STRETCH : length - 1;
}

static void take_words_of_run(work *w, unsigned r)
{
    for (uint32_t length = w->now->run[r].count - head_of(&w->now->run[r]); length > 0; length = next_length(length))
        take_stretches(w, r, length);
}

/* ---- Words that stay ---- */

static bool set_word(work *w, unsigned r, uint32_t n, uint32_t word)
{
    begin_change(w);
    w->now->run[r].words[n] = word;
    return end_change(w);
}

/* The bits of a list's word that say which command it is. */
static uint32_t command_bits(uint32_t word)
{
    bool is_vertex = word >> 30 == 1 || word >> 30 == 2;
    return is_vertex ? 0xC0000000 : 0xFF000000;
}

/* In the words of the list that have this word's command. */
static void clear_bit_of_run(case_run *run, uint32_t word, uint32_t bit)
{
    for (uint32_t n = 0; run->form == A_LIST && n < run->count; n++)
        if (((run->words[n] ^ word) & command_bits(word)) == 0)
            run->words[n] &= ~bit;
}

/* In all lists: what lies at one place may have to stay at one place. */
static bool clear_bit_in_all_like(work *w, uint32_t word, uint32_t bit)
{
    begin_change(w);
    for (unsigned r = 0; r < w->now->runs; r++)
        clear_bit_of_run(&w->now->run[r], word, bit);
    return end_change(w);
}

/* All bits at once, or one after the other. */
static void clear_bits(work *w, unsigned r, uint32_t n)
{
    const uint32_t *word = &w->now->run[r].words[n];
    bool is_of_list = w->now->run[r].form == A_LIST;
    uint32_t bits = is_of_list ? *word & ~command_bits(*word) : *word;
    if (bits == 0 || set_word(w, r, n, *word & ~bits))
        return;
    for (uint32_t bit = 0x80000000; bit != 0; bit >>= 1)
        if ((*word & bits & bit) && !set_word(w, r, n, *word & ~bit) && is_of_list)
            clear_bit_in_all_like(w, *word, bit);
}

/* A CALL or JUMP may do as the word that it leads to, and then nothing has to lie there. */
static bool put_target(work *w, unsigned r, uint32_t n)
{
    const case_run *run = &w->now->run[r];
    uint32_t target = (run->words[n] & 0xFFFF) / 4;
    bool is_worth_it = leads_on(run->words[n]) && target < run->count && !leads_on(run->words[target]);
    return is_worth_it && set_word(w, r, n, run->words[target]);
}

/* Has a word of a list end it, which a RETURN may do as well. */
static bool put_end(work *w, unsigned r, uint32_t n)
{
    return w->now->run[r].words[n] != DISPLAY() && set_word(w, r, n, DISPLAY());
}

static void clear_word(work *w, unsigned r, uint32_t n)
{
    bool is_of_list = w->now->run[r].form == A_LIST;
    uint32_t blank = is_of_list ? NOP() : 0;
    if (w->now->run[r].words[n] == blank || set_word(w, r, n, blank))
        return;
    if (is_of_list && (put_end(w, r, n) || put_target(w, r, n)))
        return;
    clear_bits(w, r, n);
}

static void clear_words_of_run(work *w, unsigned r)
{
    for (uint32_t n = 0; n < w->now->run[r].count && !is_spent(w); n++)
        clear_word(w, r, n);
}

/* ---- Bytes ---- */

static bool set_count(work *w, unsigned r, uint32_t count)
{
    begin_change(w);
    w->now->run[r].count = count;
    return end_change(w);
}

static bool is_all_zero(const uint8_t *bytes, uint32_t count)
{
    for (uint32_t n = 0; n < count; n++)
        if (bytes[n] != 0)
            return false;
    return true;
}

static void zero_stretches(work *w, unsigned r, uint32_t length)
{
    const case_run *run = &w->now->run[r];
    for (uint32_t at = 0; at < run->count && !is_spent(w); at += length) {
        uint32_t count = length < run->count - at ? length : run->count - at;
        if (is_all_zero(run->bytes + at, count))
            continue;
        begin_change_of_bytes(w, r);
        memset(run->bytes + at, 0, count);
        end_change(w);
    }
}

static void shrink_bytes_of_run(work *w, unsigned r)
{
    if (w->now->run[r].form == MEMORY)
        bring_near(w, &w->now->run[r].count, w->now->run[r].rest, set_count, r);
    for (uint32_t length = w->now->run[r].count; length > 0; length /= 2)
        zero_stretches(w, r, length);
}

/* ---- All of it ---- */

static void shrink_run(work *w, unsigned r)
{
    if (w->now->run[r].is_gone)
        return;
    if (!has_words(&w->now->run[r])) {
        shrink_bytes_of_run(w, r);
        return;
    }
    take_words_of_run(w, r);
    clear_words_of_run(w, r);
}

/* Numbers first: a small frame is soon painted. */
static void shrink_once(work *w)
{
    shrink_numbers(w);
    take_calls(w);
    for (unsigned r = 0; r < w->now->runs; r++)
        shrink_run(w, r);
}

shrunk shrink(test_case *c, is_sought *is_still, const void *asker)
{
    static work w;
    unsigned long kept;
    w = (work){ .now = c, .is_still = is_still, .asker = asker };
    do {
        kept = w.kept;
        shrink_once(&w);
    } while (w.kept != kept && !is_spent(&w));
    return (shrunk){ w.tries, is_spent(&w) };
}
