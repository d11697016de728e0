/* Single words: one that is read, and one that is written, each then given back the other way. */
#include <inttypes.h>
#include <stdio.h>

#include "../shared/draw.h"
#include "guide.h"
#include "jokulvisp.h"
#include "kind.h"

enum { READ_BITS, WRITTEN_COMMAND, WRITTEN_FIELDS, WORD_NUMBERS = WRITTEN_FIELDS + FIELDS };

/* How often each number came, and how many words of each command were done and refused. */
enum { WORD_ANSWERS = JV_NO_MEANING + 1 };
typedef struct {
    unsigned long number[WORD_ANSWERS], done[COMMANDS], refused[COMMANDS];
} word_tally;

static word_tally reads, writes;

/* ---- What is made ---- */

static uint32_t draw_command(void)
{
    if (draw_below(16) > 0)
        return guide[draw_below(COMMANDS)].command;
    return draw_below(2) > 0 ? draw_below(0x110) : draw();
}

/* Mostly a value that can be written, often one at or next to a limit, now and then anything. */
static uint32_t draw_value(const field *f)
{
    uint32_t step = draw_below(3) - 1;
    switch (draw_below(16)) {
    case 0:
        return draw();
    case 1:
        return largest_meant(f) + step;
    case 2:
        return largest_held(f) + step;
    case 3:
        return least_held(f) + step;
    case 4:
        return draw_below(32);
    default:
        return least_meant(f) + draw_below(largest_meant(f) - least_meant(f) + 1);
    }
}

static uint32_t draw_extra(void)
{
    return draw_below(64) > 0 ? 0 : draw();
}

static instruction draw_instruction(void)
{
    instruction drawn = { .command = draw_command() };
    const entry *e = find_entry(drawn.command);
    unsigned fields = e == NULL ? 0 : e->fields;
    for (unsigned n = 0; n < FIELDS; n++)
        drawn.field[n] = n < fields ? draw_value(&e->field[n]) : draw_extra();
    return drawn;
}

static void make(test_case *c)
{
    static const char *const field_names[FIELDS] = { "a", "b", "c", "d", "e" };
    *c = (test_case){ .numbers = WORD_NUMBERS };
    c->number[READ_BITS] = (case_number){ "word to read", PATTERN, draw(), 0 };
    instruction drawn = draw_instruction();
    c->number[WRITTEN_COMMAND] = (case_number){ "command to write", PATTERN, drawn.command, 0 };
    for (unsigned n = 0; n < FIELDS; n++)
        c->number[WRITTEN_FIELDS + n] = (case_number){ field_names[n], PATTERN, drawn.field[n], 0 };
}

static instruction instruction_of(const test_case *c)
{
    const case_number *f = &c->number[WRITTEN_FIELDS];
    return instruct(c->number[WRITTEN_COMMAND].value, f[0].value, f[1].value, f[2].value, f[3].value, f[4].value);
}

/* ---- What comes ---- */

static void print_read(const char *by, jv_word w)
{
    printf("    %s number %" PRIu32 ", command 0x%02" PRIX32 ", fields 0x%" PRIX32 " 0x%" PRIX32 " 0x%" PRIX32
           " 0x%" PRIX32 " 0x%" PRIX32 "\n",
           by, w.number, w.command, w.a, w.b, w.c, w.d, w.e);
}

static bool are_equal_words(jv_word v, jv_word w)
{
    return v.number == w.number && v.command == w.command && v.a == w.a && v.b == w.b && v.c == w.c && v.d == w.d &&
           v.e == w.e;
}

static void compare_reading(bool *agree, uint32_t bits, manner how)
{
    jv_word ours = jv_read_word(bits), theirs = guide_read(bits);
    if (how == TELLING) {
        const entry *e = find_entry(command_of(bits));
        printf("  jv_read_word(0x%08" PRIX32 "), %s\n", bits, e != NULL ? e->name : "no command");
        print_read("the library:       ", ours);
        print_read("the second program:", theirs);
    }
    expect(agree, are_equal_words(ours, theirs), how, "they read it differently");
}

static void compare_writing(bool *agree, instruction i, manner how)
{
    const uint32_t *value = i.field;
    jv_bits ours = jv_write_word(i.command, value[0], value[1], value[2], value[3], value[4]), theirs = guide_write(i);
    if (how == TELLING) {
        const entry *e = find_entry(i.command);
        printf("  jv_write_word(0x%02" PRIX32 ", 0x%" PRIX32 ", 0x%" PRIX32 ", 0x%" PRIX32 ", 0x%" PRIX32 ", 0x%" PRIX32
               "), %s\n",
               i.command, value[0], value[1], value[2], value[3], value[4], e != NULL ? e->name : "no command");
        printf("    the library:        number %" PRIu32 ", bits 0x%08" PRIX32 "\n", ours.number, ours.bits);
        printf("    the second program: number %" PRIu32 ", bits 0x%08" PRIX32 "\n", theirs.number, theirs.bits);
    }
    expect(agree, ours.number == theirs.number && ours.bits == theirs.bits, how, "they write it differently");
}

static void count_word(word_tally *t, uint32_t number, uint32_t command)
{
    t->number[number]++;
    const entry *e = find_entry(command);
    if (e == NULL)
        return;
    if (number == JV_DONE)
        t->done[e - guide]++;
    else
        t->refused[e - guide]++;
}

/* A word that was read is written again, and one that was written is read again. */
static bool do_agree(const test_case *c, manner how)
{
    uint32_t bits = c->number[READ_BITS].value;
    instruction i = instruction_of(c);
    jv_word read = guide_read(bits);
    jv_bits written = guide_write(i);
    bool agree = true;
    compare_reading(&agree, bits, how);
    compare_writing(&agree, i, how);
    if (read.number == JV_DONE)
        compare_writing(&agree, instruct(read.command, read.a, read.b, read.c, read.d, read.e), how);
    if (written.number == JV_DONE)
        compare_reading(&agree, written.bits, how);
    if (how == COUNTING) {
        count_word(&reads, read.number, command_of(bits));
        count_word(&writes, written.number, i.command);
    }
    return agree;
}

/* ---- What was met ---- */

static void start(void)
{
    reads = writes = (word_tally){ { 0 }, { 0 }, { 0 } };
}

static void print_tally(void)
{
    printf("%-18s %9s %9s %9s %9s\n", "words", "read", "refused", "written", "refused");
    for (unsigned n = 0; n < COMMANDS; n++)
        printf("%-18s %9lu %9lu %9lu %9lu\n", guide[n].name, reads.done[n], reads.refused[n], writes.done[n],
               writes.refused[n]);
    printf("number 0 came %lu times in reading, %lu in writing; 11: %lu, %lu; 12: %lu, %lu\n", reads.number[0],
           writes.number[0], reads.number[11], writes.number[11], reads.number[12], writes.number[12]);
}

static bool is_enough_of(const char *what, const word_tally *t)
{
    bool is_enough = is_met(what, t->number[0], 1) && is_met(what, t->number[11], 1) && is_met(what, t->number[12], 1);
    for (unsigned n = 0; n < COMMANDS; n++)
        is_enough = is_met(guide[n].name, t->done[n], 1) && is_enough;
    return is_enough;
}

static bool is_enough_met(void)
{
    bool is_enough = is_enough_of("a number in reading", &reads);
    return is_enough_of("a number in writing", &writes) && is_enough;
}

const case_kind words_kind = {
    .name = "words",
    .cases = 1000000,
    .told_every = 250000,
    .start = start,
    .make = make,
    .agree = do_agree,
    .print_tally = print_tally,
    .is_enough_met = is_enough_met,
    .is_all_as_lent = is_nothing_shared,
};
