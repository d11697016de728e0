#include "case.h"

#include <inttypes.h>
#include <stdio.h>

#include "../shared/list_check.h"
#include "../shared/ring_check.h"

enum { MOST_BYTES_PRINTED = 256, BYTES_IN_A_LINE = 16 };

bool has_words(const case_run *run)
{
    return run->form == A_LIST || run->form == A_CALL;
}

uint32_t head_of(const case_run *run)
{
    return run->form == A_CALL ? CALL_HEAD : 0;
}

/* ---- Sizes ---- */

static unsigned long bits_set(uint32_t word)
{
    unsigned long count = 0;
    for (; word != 0; word &= word - 1)
        count++;
    return count;
}

static unsigned long bytes_not_zero(const case_run *run)
{
    unsigned long count = 0;
    for (uint32_t n = 0; n < run->count; n++)
        count += run->bytes[n] != 0 ? 1 : 0;
    return count;
}

static void add_run(case_size *size, const case_run *run)
{
    if (run->is_gone)
        return;
    if (has_words(run))
        size->words += run->count - head_of(run);
    else
        size->bytes += bytes_not_zero(run);
    size->calls += run->form == A_CALL ? 1 : 0;
}

case_size size_of_case(const test_case *c)
{
    case_size size = { 0 };
    for (unsigned n = 0; n < c->runs; n++)
        add_run(&size, &c->run[n]);
    for (unsigned n = 0; n < c->numbers; n++)
        size.bits += c->number[n].form == PATTERN ? bits_set(c->number[n].value) : 0;
    return size;
}

/* Gives what stands before the next size. */
static const char *print_size(const char *before_it, unsigned long before, unsigned long after, const char *things)
{
    if (before == 0)
        return before_it;
    printf("%s%lu %s to %lu", before_it, before, things, after);
    return ", ";
}

void print_sizes(case_size before, case_size after)
{
    const char *start = "made smaller: ";
    const char *next = print_size(start, before.calls, after.calls, "calls");
    next = print_size(next, before.words, after.words, "words");
    next = print_size(next, before.bytes, after.bytes, "bytes that are not 0");
    next = print_size(next, before.bits, after.bits, "bits that are set");
    puts(next == start ? "made smaller: its numbers alone" : "");
}

/* ---- What is printed ---- */

static const char *plural(uint32_t count)
{
    return count == 1 ? "" : "s";
}

static void print_number(const char *before_it, const case_number *n)
{
    printf(n->form == PATTERN ? "%s%s 0x%" PRIX32 : "%s%s %" PRIu32, before_it, n->name, n->value);
}

static void print_numbers(const test_case *c)
{
    const char *before_it = "  ";
    for (unsigned n = 0; n < c->numbers; n++) {
        if (c->number[n].form == ODDITY && c->number[n].value == c->number[n].rest)
            continue;
        print_number(before_it, &c->number[n]);
        before_it = ", ";
    }
    putchar('\n');
}

static void print_list(const case_run *run)
{
    printf("  %s, %" PRIu32 " word%s\n", run->name, run->count, plural(run->count));
    for (uint32_t n = 0; n < run->count; n++)
        print_list_word(4 * (size_t)n, run->words[n]);
}

/* The command that starts at word n, and the parameters behind it. Gives where the next one starts. */
static uint32_t print_command(const uint32_t *words, uint32_t count, uint32_t n)
{
    ring_command command = ring_command_of(words[n]);
    uint32_t next = n + words_of_ring_command(command), past = next < count ? next : count;
    printf("    %5" PRIu32 "  %08" PRIX32 "  %s", 4 * n, words[n], name_of_ring_command(command));
    for (n++; n < past; n++)
        printf(" %" PRIu32, words[n]);
    puts(past < next ? " and no more" : "");
    return past;
}

/* A word for RAM_DL is one of a list. */
static void print_host_words(const uint32_t *words, uint32_t count)
{
    for (uint32_t n = 0; n < count;)
        if (ring_command_of(words[n]) != PLAIN_WORD) {
            n = print_command(words, count, n);
        } else {
            print_list_word(4 * (size_t)n, words[n]);
            n++;
        }
}

static void print_call(const case_run *run)
{
    static const char *const marks[] = { "read", "write", "offset", "fault" };
    uint32_t kind = run->words[CALL_KIND], words = run->count - CALL_HEAD;
    printf("  %s: %s", run->name, ring_call_names[kind]);
    for (unsigned n = 0; n < 4; n++)
        if (run->words[CALL_GIVEN] >> n & 1)
            printf(", handed %s %" PRIu32, marks[n], run->words[CALL_READ + n]);
    if (kind == WRITE_RING)
        printf(", %" PRIu32 " word%s", words, plural(words));
    if (kind == WRITE_RING && run->words[CALL_CUT] > 0)
        printf(" but for %" PRIu32 " byte%s", run->words[CALL_CUT], plural(run->words[CALL_CUT]));
    putchar('\n');
    if (kind == WRITE_RING)
        print_host_words(run->words + CALL_HEAD, words);
}

/* One line of bytes from `first` on, if one of them is not 0. */
static void print_byte_line(const case_run *run, uint32_t first)
{
    uint32_t past = first + BYTES_IN_A_LINE < run->count ? first + BYTES_IN_A_LINE : run->count;
    case_run line = { .bytes = run->bytes + first, .count = past - first };
    if (bytes_not_zero(&line) == 0)
        return;
    printf("    %5" PRIu32 " ", first);
    for (uint32_t n = first; n < past; n++)
        printf(" %02X", run->bytes[n]);
    putchar('\n');
}

static void print_bytes(const case_run *run)
{
    unsigned long count = bytes_not_zero(run);
    printf("  %s, %" PRIu32 " byte%s, ", run->name, run->count, plural(run->count));
    if (count == 0)
        puts("all zero");
    else if (count > MOST_BYTES_PRINTED)
        printf("%lu of them not 0\n", count);
    else
        puts("all zero but in these lines");
    for (uint32_t n = 0; count <= MOST_BYTES_PRINTED && n < run->count; n += BYTES_IN_A_LINE)
        print_byte_line(run, n);
}

static void print_run(const case_run *run)
{
    if (run->is_gone)
        return;
    if (run->form == A_LIST)
        print_list(run);
    else if (run->form == A_CALL)
        print_call(run);
    else
        print_bytes(run);
}

void print_case(const test_case *c)
{
    print_numbers(c);
    for (unsigned n = 0; n < c->runs; n++)
        print_run(&c->run[n]);
}
