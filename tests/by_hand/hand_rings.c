#include "hand_rings.h"

#include <stdio.h>
#include <stdlib.h>
#include <string.h>

#include "../shared/check.h"
#include "../shared/list_check.h"

static const ring_program *const programs[] = { &ring_library, &ring_second_program };

static unsigned met[RING_CALLS][RING_NUMBERS];

/* ---- What is lent ---- */

static size_t changed_length(size_t length, int more)
{
    return length + (size_t)more;
}

static lent_ring lend_for(const hand_ring *h)
{
    const size_t length[RING_RUNS] = { changed_length(JV_RING_BYTES, h->ring_more),
                                       changed_length(JV_RAM_DL_BYTES, h->ram_dl_more),
                                       changed_length(JV_RAM_DL_BYTES, h->shown_more), h->ram_g_length };
    lent_ring lent = lend_ring(length);
    if (h->ram_g != NULL)
        memcpy(lent.bytes[RAM_G], h->ram_g, h->ram_g_length);
    return lent;
}

/* From the read mark on, past the ring's end from its start again; from the word's start where the mark lies in one. */
static void lay_waiting_words(const hand_ring *h, lent_ring *lent)
{
    for (size_t n = 0; n < h->count; n++) {
        size_t place = ((size_t)h->marks.read / 4 + n) * 4 % JV_RING_BYTES;
        if (place + 4 <= lent->length[THE_RING])
            put_words(lent->bytes[THE_RING] + place, &h->words[n], 1);
    }
}

/* ---- What is wanted ---- */

static void apply(const ring_change *c, lent_ring *wanted)
{
    uint8_t *bytes = wanted->bytes[c->run] + c->at;
    if (c->words != NULL)
        put_words(bytes, c->words, c->count / 4);
    else if (c->has_source)
        memmove(bytes, wanted->bytes[c->source] + c->from, c->count);
    else
        memset(bytes, c->value, c->count);
}

static void apply_all(const hand_ring *h, lent_ring *wanted)
{
    for (size_t n = 0; n < h->change_count; n++)
        apply(&h->changes[n], wanted);
    if (h->ram_g_left != NULL)
        memcpy(wanted->bytes[RAM_G], h->ram_g_left, wanted->length[RAM_G]);
}

static bool is_as_wanted(const lent_ring *came, const lent_ring *wanted)
{
    for (ring_run run = 0; run < RING_RUNS; run++)
        if (!are_equal_ring_runs(came, wanted, run))
            return false;
    return is_ring_kept_inside(came);
}

/* ---- The calls ---- */

/* Writes on a copy of the words, and says whether that is as it was. */
static jv_ring write_words(const hand_ring *h, const ring_program *p, const lent_ring *lent, bool *are_words_kept)
{
    size_t length = changed_length(4 * h->count, h->words_more);
    uint8_t *all_words = allocated(4 * h->count + 4);
    put_words(all_words, h->words, h->count);
    memset(all_words + 4 * h->count, 0, 4);
    uint8_t *words = copied(all_words, length);
    ring_write_request request = lending_for_write(lent, words, length, h->marks);
    jv_ring came = p->write(&request);
    *are_words_kept = length == 0 || memcmp(words, all_words, length) == 0;
    free(words);
    free(all_words);
    return came;
}

static jv_ring call(const hand_ring *h, const ring_program *p, const lent_ring *lent, bool *are_words_kept)
{
    ring_run_request request = lending_for_run(lent, h->marks);
    *are_words_kept = true;
    switch (h->call) {
    case RUN_RING:
        return p->run(&request);
    case WRITE_RING:
        return write_words(h, p, lent, are_words_kept);
    default:
        return p->reset();
    }
}

/* What waits is printed as it should lie in the ring after the call, for no call changes it. */
static void print_case(const hand_ring *h, const ring_program *p, const lent_ring *wanted, jv_ring came)
{
    printf("%s, by %s %s\n", h->name, p->name, ring_call_names[h->call]);
    if (h->call != RESET_RING)
        print_ring(wanted, h->marks);
    if (h->call == WRITE_RING)
        printf("    the host's words: %zu bytes\n", changed_length(4 * h->count, h->words_more));
    print_ring_answer("came:  ", came);
    print_ring_answer("wanted:", h->wanted);
}

/* `wanted` holds the bytes before the call, and then those that are wanted after it. */
static void check_call(const char *file, const hand_ring *h, const ring_program *p, const lent_ring *lent,
                       lent_ring *wanted)
{
    bool are_words_kept;
    jv_ring came = call(h, p, lent, &are_words_kept);
    bool is_answered = are_equal_ring_answers(came, h->wanted);
    apply_all(h, wanted);
    if (is_to_be_told(file, h->line, is_answered && is_as_wanted(lent, wanted) && are_words_kept)) {
        print_case(h, p, wanted, came);
        print_ring_differences(lent, wanted);
        if (!are_words_kept)
            puts("    the host's words were written");
    }
}

static void check_in_turn(const char *file, const hand_ring *table, size_t count, const ring_program *p)
{
    lent_ring lent = lend_for(table), wanted = lend_for(table);
    if (table->call == RUN_RING) {
        lay_waiting_words(table, &lent);
        lay_waiting_words(table, &wanted);
    }
    for (size_t n = 0; n < count; n++)
        check_call(file, &table[n], p, &lent, &wanted);
    take_ring_back(&lent);
    take_ring_back(&wanted);
}

void check_rings_in_turn(const char *file, const char *part, const hand_ring *table, size_t count)
{
    begin_part(part);
    for (size_t n = 0; n < LENGTH(programs); n++)
        check_in_turn(file, table, count, programs[n]);
    for (size_t n = 0; n < count; n++)
        met[table[n].call][table[n].wanted.number]++;
}

void check_ring(const char *file, const hand_ring *h)
{
    for (size_t n = 0; n < LENGTH(programs); n++)
        check_in_turn(file, h, 1, programs[n]);
    met[h->call][h->wanted.number]++;
}

void check_rings(const char *file, const char *part, const hand_ring *table, size_t count)
{
    begin_part(part);
    for (const hand_ring *h = table; h < table + count; h++)
        check_ring(file, h);
}

unsigned count_met(ring_call call, uint32_t number)
{
    return met[call][number];
}
