#include "ring_check.h"

#include <inttypes.h>
#include <stdio.h>
#include <stdlib.h>
#include <string.h>

#include "../second/answers.h"
#include "lent.h"
#include "list_check.h"
#include "tables.h"

/* ---- The two programs ---- */

static jv_ring run_by_library(const ring_run_request *r)
{
    return jv_ring_run(r->ring, r->ring_length, r->ram_dl, r->ram_dl_length, r->shown, r->shown_length, r->ram_g,
                       r->ram_g_length, r->marks.read, r->marks.write, r->marks.offset, r->marks.fault);
}

static jv_ring write_by_library(const ring_write_request *r)
{
    return jv_ring_write(r->ring, r->ring_length, r->words, r->words_length, r->marks.read, r->marks.write,
                         r->marks.offset, r->marks.fault);
}

static jv_ring run_by_second_program(const ring_run_request *r)
{
    return as_ring_answer(run_ring(r));
}

static jv_ring write_by_second_program(const ring_write_request *r)
{
    return as_ring_answer(write_ring(r));
}

static jv_ring reset_by_second_program(void)
{
    return as_ring_answer(reset_ring());
}

const ring_program ring_library = { "jv_ring", run_by_library, write_by_library, jv_ring_reset };
const ring_program ring_second_program = { "the second program's", run_by_second_program, write_by_second_program,
                                           reset_by_second_program };

const char *const ring_call_names[RING_CALLS] = { "run", "write", "reset" };

bool are_equal_ring_answers(jv_ring a, jv_ring b)
{
    return a.number == b.number && a.place == b.place && a.count == b.count && a.reported == b.reported &&
           a.read == b.read && a.write == b.write && a.offset == b.offset && a.fault == b.fault;
}

ring_marks marks_of(jv_ring a)
{
    return (ring_marks){ a.read, a.write, a.offset, a.fault };
}

/* ---- What is lent ---- */

/* No two runs have the same byte at one place, nor has one run at two places of the same 256. */
static uint8_t lent_byte(ring_run run, size_t n)
{
    return (uint8_t)(n * 89 + n / 256 * 7 + (size_t)run * 53 + 17);
}

lent_ring lend_ring(const size_t length[RING_RUNS])
{
    lent_ring lent;
    for (ring_run run = 0; run < RING_RUNS; run++) {
        lent.length[run] = length[run];
        lent.block[run] = patterned_block(length[run]);
        lent.bytes[run] = length[run] > 0 ? lent.block[run] + AROUND : NULL;
        for (size_t n = 0; n < length[run]; n++)
            lent.bytes[run][n] = lent_byte(run, n);
    }
    return lent;
}

void take_ring_back(lent_ring *lent)
{
    for (ring_run run = 0; run < RING_RUNS; run++)
        free(lent->block[run]);
    *lent = (lent_ring){ .bytes = { NULL } };
}

bool is_ring_kept_inside(const lent_ring *lent)
{
    for (ring_run run = 0; run < RING_RUNS; run++)
        if (!is_kept_around(lent->block[run], lent->length[run]))
            return false;
    return true;
}

bool are_equal_ring_runs(const lent_ring *a, const lent_ring *b, ring_run run)
{
    return a->length[run] == 0 || memcmp(a->bytes[run], b->bytes[run], a->length[run]) == 0;
}

ring_run_request lending_for_run(const lent_ring *lent, ring_marks marks)
{
    return (ring_run_request){ lent->bytes[THE_RING], lent->length[THE_RING], lent->bytes[RAM_DL],
                               lent->length[RAM_DL],  lent->bytes[SHOWN],     lent->length[SHOWN],
                               lent->bytes[RAM_G],    lent->length[RAM_G],    marks };
}

ring_write_request lending_for_write(const lent_ring *lent, const uint8_t *words, size_t words_length, ring_marks marks)
{
    return (ring_write_request){ lent->bytes[THE_RING], lent->length[THE_RING], words, words_length, marks };
}

/* ---- Commands ---- */

static const struct {
    const char *name;
    uint32_t word, words;
} commands[RING_COMMANDS] = {
    [PLAIN_WORD] = { "a word for RAM_DL", 0, 1 }, [A_DLSTART] = { "DLSTART", 0xFFFFFF00, 1 },
    [A_SWAP] = { "SWAP", 0xFFFFFF01, 1 },         [A_COLDSTART] = { "COLDSTART", 0xFFFFFF32, 1 },
    [A_MEMSET] = { "MEMSET", 0xFFFFFF1B, 4 },     [A_MEMZERO] = { "MEMZERO", 0xFFFFFF1C, 3 },
    [A_MEMCPY] = { "MEMCPY", 0xFFFFFF1D, 4 },     [AN_APPEND] = { "APPEND", 0xFFFFFF1E, 3 },
    [NO_COMMAND] = { "no command", 0, 1 },
};

ring_command ring_command_of(uint32_t word)
{
    if (word >> 24 != 0xFF)
        return PLAIN_WORD;
    for (ring_command c = A_DLSTART; c <= AN_APPEND; c++)
        if (word == commands[c].word)
            return c;
    return NO_COMMAND;
}

const char *name_of_ring_command(ring_command command)
{
    return commands[command].name;
}

uint32_t words_of_ring_command(ring_command command)
{
    return commands[command].words;
}

/* ---- What is told ---- */

void print_ring_answer(const char *before, jv_ring a)
{
    printf("    %s number %" PRIu32 ", place %" PRIu32 ", count %" PRIu32 ", reported %" PRIu32 "; read %" PRIu32
           ", write %" PRIu32 ", offset %" PRIu32 ", fault %" PRIu32 "\n",
           before, a.number, a.place, a.count, a.reported, a.read, a.write, a.offset, a.fault);
}

static bool are_good_marks(ring_marks m)
{
    return m.read % 4 == 0 && m.read < JV_RING_BYTES && m.write % 4 == 0 && m.write < JV_RING_BYTES;
}

/* Words for RAM_DL are left out where they stand in a row, but for the first of them. */
static void print_waiting(const uint8_t *ring, ring_marks m)
{
    ring_command last = NO_COMMAND;
    for (uint32_t at = m.read; at != m.write;) {
        ring_command command = ring_command_of(word_at(ring + at));
        uint32_t left = words_of_ring_command(command);
        bool is_shown = command != PLAIN_WORD || last != PLAIN_WORD;
        last = command;
        if (is_shown)
            printf("    %5" PRIu32 "  %-17s", at, name_of_ring_command(command));
        for (; left > 0 && at != m.write; left--, at = (at + 4) % JV_RING_BYTES)
            if (is_shown)
                printf("  %08" PRIX32, word_at(ring + at));
        if (is_shown)
            puts(left > 0 ? "  and no more" : "");
    }
}

void print_ring(const lent_ring *lent, ring_marks m)
{
    printf("    read %" PRIu32 ", write %" PRIu32 ", offset %" PRIu32 ", fault %" PRIu32 "\n", m.read, m.write,
           m.offset, m.fault);
    printf("    lent: a ring of %zu bytes, RAM_DL of %zu, shown of %zu, RAM_G of %zu\n", lent->length[THE_RING],
           lent->length[RAM_DL], lent->length[SHOWN], lent->length[RAM_G]);
    if (lent->length[THE_RING] == JV_RING_BYTES && are_good_marks(m))
        print_waiting(lent->bytes[THE_RING], m);
}

void print_ring_differences(const lent_ring *came, const lent_ring *wanted)
{
    static const char *const names[RING_RUNS] = { "the ring", "RAM_DL", "shown", "RAM_G" };
    for (ring_run run = 0; run < RING_RUNS; run++)
        for (size_t n = 0; n < came->length[run]; n++)
            if (came->bytes[run][n] != wanted->bytes[run][n]) {
                printf("    %s, first at %zu: came 0x%02X, wanted 0x%02X\n", names[run], n, came->bytes[run][n],
                       wanted->bytes[run][n]);
                break;
            }
    if (!is_ring_kept_inside(came))
        puts("    bytes beside the lent runs were written");
}
