/* Rings with a few calls one after the other. Both programs have to agree on every answer and, after every call, on
   every byte of the four runs, which are full of drawn bytes. */
#include <inttypes.h>
#include <stdio.h>
#include <string.h>

#include "../shared/draw.h"
#include "../shared/lent.h"
#include "../shared/list_check.h"
#include "../shared/ring_check.h"
#include "../shared/tables.h"
#include "kind.h"
#include "list_case.h"
#include "made_rings.h"

#define BYTES_SEED UINT64_C(0x72696E67)

enum { LEAST_MET = 100 };

/* The marks at the start. A call is handed those that the one before it left, but for those that it is given. */
enum { READ_MARK, WRITE_MARK, OFFSET_MARK, FAULT_MARK, RING_CASE_NUMBERS };

/* The runs of ring_run come first, then the calls. */
enum { FIRST_CALL = RING_RUNS, MOST_CALLS = MOST_RUNS - FIRST_CALL };

/* Longer than each run may be; a run that is not as long as its case would have it gets zeros. */
static const size_t longest[RING_RUNS] = { JV_RING_BYTES + 4, JV_RAM_DL_BYTES + 4, JV_RAM_DL_BYTES + 4,
                                           JV_MAX_RAM_G_BYTES + 1 };

/* What the runs' bytes are taken from. */
static uint8_t drawn_bytes[STARTS_BELOW + JV_MAX_RAM_G_BYTES + 1];

/* What is lent to the library and to the second program, and what a case is made on. It is lent again and again. */
static lent_ring ours, theirs, maker;

typedef struct {
    unsigned long number[RING_CALLS][RING_NUMBERS];
    unsigned long taken[RING_COMMANDS];
    unsigned long stopped[RING_NUMBERS][RING_COMMANDS]; /* by which command a run stopped */
    unsigned long calls, wrapped, full, idle_after_many;
} ring_tally;

static ring_tally met;

static void start(void)
{
    start_drawing(BYTES_SEED);
    fill_drawn(drawn_bytes, sizeof drawn_bytes);
    lent_ring *const lent[] = { &ours, &theirs, &maker };
    for (size_t n = 0; n < LENGTH(lent); n++) {
        take_ring_back(lent[n]);
        *lent[n] = lend_ring(longest);
    }
    memset(&met, 0, sizeof met);
}

/* ---- A call ---- */

static case_run host_words(const case_run *call)
{
    return (case_run){ .form = A_LIST, .words = call->words + CALL_HEAD, .count = call->count - CALL_HEAD };
}

static ring_marks handed_marks(const case_run *call, ring_marks now)
{
    const uint32_t *word = call->words;
    return (ring_marks){
        word[CALL_GIVEN] & 1 ? word[CALL_READ] : now.read,
        word[CALL_GIVEN] & 2 ? word[CALL_WRITE] : now.write,
        word[CALL_GIVEN] & 4 ? word[CALL_OFFSET] : now.offset,
        word[CALL_GIVEN] & 8 ? word[CALL_FAULT] : now.fault,
    };
}

static jv_ring make_call_by(const ring_program *p, const case_run *call, const lent_copy *words, ring_marks marks,
                            const lent_ring *lent)
{
    ring_run_request run = lending_for_run(lent, marks);
    ring_write_request write = lending_for_write(lent, words->bytes, words->length, marks);
    switch (call->words[CALL_KIND]) {
    case RUN_RING:
        return p->run(&run);
    case WRITE_RING:
        return p->write(&write);
    default:
        return p->reset();
    }
}

static bool is_refusal(uint32_t number)
{
    return number == JV_RING_BAD_MARK || number == JV_RING_FAULTY || number == JV_RING_BAD_RUN ||
           number == JV_RING_NO_ROOM;
}

/* A refusal is no reason for the host to take other marks. */
static ring_marks marks_after(jv_ring came, ring_marks now)
{
    return is_refusal(came.number) ? now : marks_of(came);
}

/* ---- What is made ---- */

static void lend_again(lent_ring *lent, const test_case *c)
{
    for (ring_run run = 0; run < RING_RUNS; run++) {
        size_t length = c->run[run].count;
        lent->length[run] = length;
        lent->bytes[run] = length > 0 ? lent->block[run] + AROUND : NULL;
        if (length > 0)
            memcpy(lent->bytes[run], c->run[run].bytes, length);
        put_pattern(lent->block[run], AROUND + length, AROUND + length + AROUND);
    }
}

static ring_marks first_marks(const test_case *c)
{
    return (ring_marks){ c->number[READ_MARK].value, c->number[WRITE_MARK].value, c->number[OFFSET_MARK].value,
                         c->number[FAULT_MARK].value };
}

static void put_marks(test_case *c, ring_marks m)
{
    c->number[READ_MARK] = (case_number){ "read", PLACE, m.read, 0 };
    c->number[WRITE_MARK] = (case_number){ "write", PLACE, m.write, 0 };
    c->number[OFFSET_MARK] = (case_number){ "offset", PLACE, m.offset, 0 };
    c->number[FAULT_MARK] = (case_number){ "fault", AMOUNT, m.fault, 0 };
}

/* What lies behind a run that may become longer is zeros. */
static void put_runs(test_case *c, const made_ring *made)
{
    static const char *const names[RING_RUNS] = { "ring", "RAM_DL", "shown", "RAM_G" };
    static uint8_t ring[JV_RING_BYTES + 4], ram_dl[JV_RAM_DL_BYTES + 4], shown[JV_RAM_DL_BYTES + 4];
    static uint8_t ram_g[JV_MAX_RAM_G_BYTES + 1];
    static const uint32_t rest[RING_RUNS] = { JV_RING_BYTES, JV_RAM_DL_BYTES, JV_RAM_DL_BYTES, 0 };
    uint8_t *const bytes[RING_RUNS] = { ring, ram_dl, shown, ram_g };
    for (ring_run run = 0; run < RING_RUNS; run++) {
        size_t length = made->length[run];
        memcpy(bytes[run], drawn_bytes + made->start[run], length);
        if (length < rest[run])
            memset(bytes[run] + length, 0, rest[run] - length);
        c->run[run] = (case_run){ names[run], MEMORY, NULL, bytes[run], (uint32_t)length, rest[run], false };
    }
}

static uint32_t given_marks(ring_marks handed, ring_marks now)
{
    return (handed.read != now.read ? 1u : 0) | (handed.write != now.write ? 2u : 0) |
           (handed.offset != now.offset ? 4u : 0) | (handed.fault != now.fault ? 8u : 0);
}

static void put_call(case_run *run, const made_call *call, ring_marks now)
{
    size_t count = (call->words_length + 3) / 4;
    const uint32_t head[CALL_HEAD] = {
        call->call,
        given_marks(call->marks, now),
        call->marks.read,
        call->marks.write,
        call->marks.offset,
        call->marks.fault,
        (uint32_t)(4 * count - call->words_length),
    };
    memcpy(run->words, head, sizeof head);
    for (size_t n = 0; n < count; n++)
        run->words[CALL_HEAD + n] = word_at(call->words + 4 * n);
    run->count = (uint32_t)(CALL_HEAD + count);
}

/* Makes the call, and has the second program answer it, for the next one goes on from there. */
static ring_marks add_call(test_case *c, made_ring *made, ring_marks now)
{
    static const char *const names[MOST_CALLS] = { "call 1", "call 2", "call 3", "call 4",
                                                   "call 5", "call 6", "call 7", "call 8" };
    static uint32_t words[MOST_CALLS][CALL_HEAD + MOST_MADE_WORDS];
    static made_call call;
    unsigned n = c->runs - FIRST_CALL;
    case_run *run = &c->run[c->runs++];
    *run = (case_run){ .name = names[n], .form = A_CALL, .words = words[n] };
    make_ring_call(&call, made, now);
    put_call(run, &call, now);
    case_run host = host_words(run);
    lent_copy lent = lend_list(&host, run->words[CALL_CUT]);
    jv_ring came = make_call_by(&ring_second_program, run, &lent, call.marks, &maker);
    take_copy_back(&lent);
    return marks_after(came, now);
}

static void make(test_case *c)
{
    static made_ring made;
    make_ring(&made);
    *c = (test_case){ .numbers = RING_CASE_NUMBERS, .runs = RING_RUNS };
    put_marks(c, made.marks);
    put_runs(c, &made);
    lend_again(&maker, c);
    ring_marks now = made.marks;
    for (uint32_t call = 0; call < made.calls; call++)
        now = add_call(c, &made, now);
}

/* ---- What comes ---- */

static bool are_equal_rings(const lent_ring *a, const lent_ring *b)
{
    for (ring_run run = 0; run < RING_RUNS; run++)
        if (!are_equal_ring_runs(a, b, run))
            return false;
    return true;
}

/* Whether what the library was lent to be read only, and on a refusal all of it, is as it was: as the second program
   still has it, which has not been called yet. */
static bool is_kept_as_owed(const case_run *call, jv_ring came)
{
    if (call->words[CALL_KIND] != WRITE_RING && !are_equal_ring_runs(&ours, &theirs, THE_RING))
        return false;
    bool is_to_keep_all = is_refusal(came.number) || call->words[CALL_KIND] == RESET_RING;
    return !is_to_keep_all || are_equal_rings(&ours, &theirs);
}

/* ---- What was met ---- */

/* The commands from the read mark before up to the one after. */
static void count_taken(const uint8_t *ring, uint32_t from, uint32_t to)
{
    met.wrapped += from > to ? 1 : 0;
    for (uint32_t at = from; at != to;) {
        ring_command command = ring_command_of(word_at(ring + at));
        met.taken[command]++;
        at = (at + 4 * words_of_ring_command(command)) % JV_RING_BYTES;
    }
}

static void count_call(const case_run *call, ring_marks handed, jv_ring came)
{
    met.calls++;
    met.number[call->words[CALL_KIND]][came.number]++;
    if (call->words[CALL_KIND] != RUN_RING || is_refusal(came.number))
        return;
    const uint8_t *ring = theirs.bytes[THE_RING];
    count_taken(ring, handed.read, came.read);
    met.full += (came.write - handed.read) % JV_RING_BYTES == JV_MAX_WAITING ? 1 : 0;
    met.idle_after_many += came.number == JV_RING_IDLE && came.count >= 20 ? 1 : 0;
    if (came.number != JV_RING_IDLE && came.number != JV_RING_SWAPPED)
        met.stopped[came.number][ring_command_of(word_at(ring + came.read))]++;
}

/* ---- One case ---- */

static void compare(bool *agree, jv_ring our_answer, jv_ring their_answer, manner how)
{
    bool are_equal = are_equal_rings(&ours, &theirs);
    if (how == TELLING) {
        print_ring_answer("the library:       ", our_answer);
        print_ring_answer("the second program:", their_answer);
    }
    expect(agree, are_equal_ring_answers(our_answer, their_answer), how, "the answers differ");
    expect(agree, are_equal, how, "the bytes differ");
    if (how == TELLING && !are_equal)
        print_ring_differences(&ours, &theirs);
}

static void tell_call(const case_run *call, ring_marks handed)
{
    printf("  %s: %s\n", call->name, ring_call_names[call->words[CALL_KIND]]);
    print_ring(&theirs, handed);
}

static void compare_call(bool *agree, const case_run *call, ring_marks *now, manner how)
{
    case_run host = host_words(call);
    lent_copy words = lend_list(&host, call->words[CALL_CUT]);
    ring_marks handed = handed_marks(call, *now);
    if (how == TELLING)
        tell_call(call, handed);
    jv_ring our_answer = make_call_by(&ring_library, call, &words, handed, &ours);
    bool is_kept = is_kept_as_owed(call, our_answer) && is_list_kept(&words, &host);
    jv_ring their_answer = make_call_by(&ring_second_program, call, &words, handed, &theirs);
    compare(agree, our_answer, their_answer, how);
    expect(agree, is_kept, how, "the library wrote what it must not");
    if (how == COUNTING)
        count_call(call, handed, their_answer);
    take_copy_back(&words);
    *now = marks_after(their_answer, *now);
}

static bool do_agree(const test_case *c, manner how)
{
    ring_marks now = first_marks(c);
    bool agree = true;
    lend_again(&ours, c);
    lend_again(&theirs, c);
    for (unsigned n = FIRST_CALL; n < c->runs && agree; n++)
        if (!c->run[n].is_gone)
            compare_call(&agree, &c->run[n], &now, how);
    expect(&agree, is_ring_kept_inside(&ours), how, "the library wrote bytes beside the lent runs");
    return agree;
}

/* ---- The whole ---- */

/* Which number each call can give, and which commands can stop a run with it. */
static const uint32_t by_run[] = { 0, 30, 31, 32, 33, 34, 35, 36, 37 }, by_write[] = { 0, 33, 36, 37, 38 };
static const struct {
    uint32_t number;
    ring_command command;
} stops[] = {
    { 30, A_MEMSET },  { 30, A_MEMZERO }, { 30, A_MEMCPY },  { 30, AN_APPEND }, { 32, NO_COMMAND }, { 34, PLAIN_WORD },
    { 34, AN_APPEND }, { 35, A_MEMSET },  { 35, A_MEMZERO }, { 35, A_MEMCPY },  { 35, AN_APPEND },
};

static void print_numbers(ring_call call, const uint32_t *numbers, size_t count)
{
    printf("by %s:", ring_call_names[call]);
    for (size_t n = 0; n < count; n++)
        printf("  %lu of %" PRIu32, met.number[call][numbers[n]], numbers[n]);
    putchar('\n');
}

static void print_tally(void)
{
    printf("%lu calls, %lu of them resets\n", met.calls, met.number[RESET_RING][0]);
    print_numbers(RUN_RING, by_run, LENGTH(by_run));
    print_numbers(WRITE_RING, by_write, LENGTH(by_write));
    printf("commands taken:");
    for (ring_command c = PLAIN_WORD; c < NO_COMMAND; c++)
        printf("%s %lu times %s", c == PLAIN_WORD ? "" : ",", met.taken[c], name_of_ring_command(c));
    printf("\nruns stopped:");
    for (size_t n = 0; n < LENGTH(stops); n++)
        printf("%s %lu times with %" PRIu32 " by %s", n == 0 ? "" : ",", met.stopped[stops[n].number][stops[n].command],
               stops[n].number, name_of_ring_command(stops[n].command));
    printf(
        "\n%lu runs went past the ring's end, %lu started with a full ring, %lu took twenty commands or more and all "
        "that waited\n",
        met.wrapped, met.full, met.idle_after_many);
}

static bool are_call_numbers_met(ring_call call, const uint32_t *numbers, size_t count)
{
    char by[16];
    bool are_met = true;
    snprintf(by, sizeof by, " by %s", ring_call_names[call]);
    for (size_t n = 0; n < count; n++)
        are_met = is_number_met(by, numbers[n], met.number[call][numbers[n]], LEAST_MET) && are_met;
    return are_met;
}

static bool are_commands_met(void)
{
    bool are_met = true;
    for (ring_command c = PLAIN_WORD; c < NO_COMMAND; c++)
        are_met = is_met(name_of_ring_command(c), met.taken[c], LEAST_MET) && are_met;
    for (size_t n = 0; n < LENGTH(stops); n++)
        are_met = is_number_met(" by a command that stops a run", stops[n].number,
                                met.stopped[stops[n].number][stops[n].command], LEAST_MET) &&
                  are_met;
    return are_met;
}

static bool is_enough_met(void)
{
    bool is_enough = are_call_numbers_met(RUN_RING, by_run, LENGTH(by_run));
    is_enough = are_call_numbers_met(WRITE_RING, by_write, LENGTH(by_write)) && is_enough;
    is_enough = are_commands_met() && is_enough;
    is_enough = is_met("a reset", met.number[RESET_RING][0], LEAST_MET) && is_enough;
    is_enough = is_met("a run past the ring's end", met.wrapped, LEAST_MET) && is_enough;
    is_enough = is_met("a run of a full ring", met.full, LEAST_MET) && is_enough;
    return is_met("a run of many commands", met.idle_after_many, LEAST_MET) && is_enough;
}

const case_kind rings_kind = {
    .name = "rings",
    .cases = 100000,
    .told_every = 20000,
    .start = start,
    .make = make,
    .agree = do_agree,
    .print_tally = print_tally,
    .is_enough_met = is_enough_met,
    .is_all_as_lent = is_nothing_shared,
};
