/* second: holds the library against the second program, on cases that are made up. README.md says how to use it. */
#include <errno.h>
#include <inttypes.h>
#include <stdbool.h>
#include <stdio.h>
#include <stdlib.h>
#include <string.h>

#include "../shared/draw.h"
#include "../shared/tables.h"
#include "case.h"
#include "death.h"
#include "kind.h"
#include "shrink.h"

enum { AGREE = 0, DIFFER = 1, WRONG_USE = 2 };

#define USUAL_SEED UINT64_C(0x4A6F6B756C766973)

static const case_kind *const kinds[] = { &words_kind, &lists_kind, &pictures_kind, &repaints_kind, &rings_kind };

/* What the command line asks. */
typedef struct {
    const char *program;
    const case_kind *kind; /* NULL for every kind */
    uint64_t cases;        /* 0 for as many as usual */
    uint64_t seed;
    bool is_single; /* the case of this seed, alone */
} order;

/* ---- A case that they differ on ---- */

static bool do_differ(const void *asker, const test_case *c)
{
    const case_kind *kind = asker;
    return !kind->agree(c, QUIETLY);
}

/* The command that repeats a case, but for the seed at its end. The words before the program are those that run it on
   this machine, if it takes any. */
static const char *command_of_kind(const order *o, const case_kind *kind)
{
    static char command[512];
    const char *runner = getenv("JV_RUN");
    bool has_runner = runner != NULL && runner[0] != '\0';
    snprintf(command, sizeof command, "%s%s%s %s --case ", has_runner ? runner : "", has_runner ? " " : "", o->program,
             kind->name);
    return command;
}

static void print_shrunk(const case_kind *kind, test_case *c)
{
    case_size before = size_of_case(c);
    fflush(stdout);
    shrunk s = shrink(c, do_differ, kind);
    print_sizes(before, size_of_case(c));
    if (s.is_spent)
        printf("it stopped after %lu tries; more might be taken away\n", s.tries);
    else
        printf("after %lu tries nothing more can be taken away\n", s.tries);
    puts("the small case:");
    print_case(c);
    kind->agree(c, TELLING);
}

static void tell_difference(const order *o, const case_kind *kind, test_case *c, uint64_t seed)
{
    printf("%s: the library and the second program differ on the case of seed 0x%016" PRIX64 "\n", kind->name, seed);
    printf("to repeat it:  %s0x%016" PRIX64 "\n", command_of_kind(o, kind), seed);
    print_shrunk(kind, c);
}

/* ---- One kind ---- */

static void start_kind(const order *o, const case_kind *kind)
{
    prepare_for_death(command_of_kind(o, kind));
    kind->start();
}

static void make_case(const case_kind *kind, test_case *c, uint64_t seed)
{
    note_seed(seed);
    start_drawing(seed);
    kind->make(c);
}

/* Gives false at the first case that they differ on. */
static bool agree_on_cases(const order *o, const case_kind *kind, uint64_t cases)
{
    static test_case c;
    for (uint64_t n = 0; n < cases; n++) {
        uint64_t seed = seed_of_case(o->seed, n);
        make_case(kind, &c, seed);
        if (!kind->agree(&c, COUNTING)) {
            tell_difference(o, kind, &c, seed);
            return false;
        }
        if ((n + 1) % kind->told_every == 0) {
            printf("%" PRIu64 " %s\n", n + 1, kind->name);
            fflush(stdout);
        }
    }
    return true;
}

static bool run_kind(const order *o, const case_kind *kind)
{
    uint64_t cases = o->cases > 0 ? o->cases : kind->cases;
    printf("%" PRIu64 " %s from seed 0x%016" PRIX64 "\n", cases, kind->name, o->seed);
    fflush(stdout);
    start_kind(o, kind);
    if (!agree_on_cases(o, kind, cases))
        return false;
    kind->print_tally();
    bool is_lent_kept = kind->is_all_as_lent();
    if (!is_lent_kept)
        printf("%s: what all cases share was written\n", kind->name);
    return (cases < kind->cases || kind->is_enough_met()) && is_lent_kept;
}

static int run_kinds(const order *o)
{
    bool is_all_well = true;
    for (size_t n = 0; n < LENGTH(kinds); n++)
        if (o->kind == NULL || o->kind == kinds[n])
            is_all_well = run_kind(o, kinds[n]) && is_all_well;
    puts(is_all_well ? "the library and the second program agree"
                     : "they differ, or too little was met, as said above");
    return is_all_well ? AGREE : DIFFER;
}

static int repeat_case(const order *o)
{
    static test_case c;
    start_kind(o, o->kind);
    make_case(o->kind, &c, o->seed);
    printf("%s, the case of seed 0x%016" PRIX64 ":\n", o->kind->name, o->seed);
    print_case(&c);
    if (o->kind->agree(&c, TELLING)) {
        puts("the library and the second program agree");
        return AGREE;
    }
    tell_difference(o, o->kind, &c, o->seed);
    return DIFFER;
}

/* ---- The command line ---- */

static void print_help(void)
{
    puts("second                                every kind, as many cases of each as usual\n"
         "second KIND [--cases N] [--seed S]    one kind, N cases from seed S\n"
         "second KIND --case SEED               one case again: prints it, both answers, and whether they agree\n"
         "second --help\n"
         "\n"
         "Holds the library against the second program. KIND is words, lists, pictures, repaints or rings.\n"
         "The exit status is 0 if they agree, 1 if they differ, 2 if this was used wrongly.");
}

static int tell_wrong_use(const char *what, const char *which)
{
    fprintf(stderr, "second: %s%s%s; 'second --help' says what there is\n", what, which[0] != '\0' ? ": " : "", which);
    return WRONG_USE;
}

static const case_kind *find_kind(const char *name)
{
    for (size_t n = 0; n < LENGTH(kinds); n++)
        if (strcmp(kinds[n]->name, name) == 0)
            return kinds[n];
    return NULL;
}

/* Decimal digits, or 0x and hexadecimal ones, and nothing else. */
static bool read_number(const char *text, uint64_t *number)
{
    bool is_hexadecimal = strncmp(text, "0x", 2) == 0 || strncmp(text, "0X", 2) == 0;
    const char *digits = is_hexadecimal ? text + 2 : text;
    if (digits[0] == '\0' || digits[strspn(digits, is_hexadecimal ? "0123456789ABCDEFabcdef" : "0123456789")] != '\0')
        return false;
    errno = 0;
    *number = strtoull(digits, NULL, is_hexadecimal ? 16 : 10);
    return errno == 0;
}

/* One option and its number, which may be NULL for none. Gives the exit status, or AGREE where all is well so far. */
static int take_option(order *o, const char *name, const char *text)
{
    uint64_t number;
    bool is_cases = strcmp(name, "--cases") == 0, is_case = strcmp(name, "--case") == 0;
    if (!is_cases && !is_case && strcmp(name, "--seed") != 0)
        return tell_wrong_use("no such option", name);
    if (text == NULL)
        return tell_wrong_use("an option without its number", name);
    if (!read_number(text, &number) || (is_cases && number == 0))
        return tell_wrong_use(is_cases ? "no number of cases" : "no seed", text);
    *(is_cases ? &o->cases : &o->seed) = number;
    o->is_single = o->is_single || is_case;
    return AGREE;
}

static int take_options(order *o, char **options, int count)
{
    for (int n = 0; n < count; n += 2) {
        int status = take_option(o, options[n], n + 1 < count ? options[n + 1] : NULL);
        if (status != AGREE)
            return status;
    }
    if (o->is_single && count != 2)
        return tell_wrong_use("--case stands alone", "");
    return AGREE;
}

/* The kind, if one is named, and the options behind it. */
static int take_arguments(order *o, char **arguments, int count)
{
    if (count == 0)
        return AGREE;
    o->kind = find_kind(arguments[0]);
    return o->kind != NULL ? take_options(o, arguments + 1, count - 1) : tell_wrong_use("no such kind", arguments[0]);
}

int main(int count, char **arguments)
{
    order o = { .program = arguments[0], .seed = USUAL_SEED };
    if (count == 2 && strcmp(arguments[1], "--help") == 0) {
        print_help();
        return AGREE;
    }
    int status = take_arguments(&o, arguments + 1, count - 1);
    if (status != AGREE)
        return status;
    return o.is_single ? repeat_case(&o) : run_kinds(&o);
}
