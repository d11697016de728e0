#include "order.h"

#include <errno.h>
#include <getopt.h>
#include <inttypes.h>
#include <stdio.h>
#include <string.h>

#include "file.h"
#include "jokulvisp.h"
#include "message.h"
#include "place.h"
#include "usage.h"

/* More than there are options, for getopt's tables, and room for what a message says. */
enum { MOST_OPTIONS = 16, MOST_REASON = 120 };

static bool refuse(const order *o, const char *what, const char *why)
{
    explain_usage(o->command, what, why);
    return false;
}

/* ---- Values ---- */

static const char *find_end_of_digits(const char *text)
{
    while ('0' <= *text && *text <= '9')
        text++;
    return text;
}

/* The number of these digits, or UINT32_MAX for a larger one. */
static uint32_t value_of(const char *digits, const char *end)
{
    uint64_t value = 0;
    for (; digits != end && value < UINT32_MAX; digits++)
        value = 10 * value + (uint64_t)(*digits - '0');
    return value < UINT32_MAX ? (uint32_t)value : UINT32_MAX;
}

/* Reads the digits that `text` starts with, and sets `end` to where they end. Returns false where there are none; a
   sign or a blank is no digit. */
static bool read_digits(const char *text, const char **end, uint32_t *number)
{
    *end = find_end_of_digits(text);
    *number = value_of(text, *end);
    return *end != text;
}

static bool is_within(uint32_t least, uint32_t number, uint32_t most)
{
    return least <= number && number <= most;
}

static bool refuse_form(const order *o, const char *option, const char *value, const char *wanted)
{
    char why[MOST_REASON];
    snprintf(why, sizeof why, "'%s' is not %s", show_bytes(value, strlen(value)).text, wanted);
    return refuse(o, option, why);
}

static bool refuse_range(const order *o, const char *option, const char *value, const char *range)
{
    char why[MOST_REASON];
    snprintf(why, sizeof why, "%s is out of range: %s", show_bytes(value, strlen(value)).text, range);
    return refuse(o, option, why);
}

static bool take_limit(order *o, const char *text)
{
    const char *end = NULL;
    if (!read_digits(text, &end, &o->limit) || *end != '\0')
        return refuse_form(o, "--limit", text, "a whole number, as in 1000");
    return is_within(1, o->limit, JV_MAX_LIMIT) || refuse_range(o, "--limit", text, LIMIT_RANGE);
}

static bool take_size(order *o, const char *text)
{
    const char *end = NULL;
    bool is_read = read_digits(text, &end, &o->width) && *end == 'x' && read_digits(end + 1, &end, &o->height);
    if (!is_read || *end != '\0')
        return refuse_form(o, "--size", text, "a width and a height, as in 800x480");
    bool is_in_range = is_within(1, o->width, JV_MAX_WIDTH) && is_within(1, o->height, JV_MAX_HEIGHT);
    return is_in_range || refuse_range(o, "--size", text, SIZE_RANGE);
}

/* The first three digits behind the point, with zeros for those that are missing. */
static uint32_t read_thousandths(const char *digits)
{
    uint32_t value = 0;
    for (int n = 0; n < 3; n++)
        value = 10 * value + ('0' <= *digits && *digits <= '9' ? (uint32_t)(*digits++ - '0') : 0);
    return value;
}

/* Reads digits, with or without a point and more digits behind it. What is less than a millisecond is left out. */
static bool read_seconds(const char *text, uint64_t *milliseconds)
{
    uint32_t seconds = 0;
    const char *end = NULL;
    if (!read_digits(text, &end, &seconds))
        return false;
    bool has_point = *end == '.';
    const char *fraction = has_point ? end + 1 : end, *fraction_end = find_end_of_digits(fraction);
    *milliseconds = UINT64_C(1000) * seconds + read_thousandths(fraction);
    return *fraction_end == '\0' && has_point == (fraction_end != fraction);
}

static bool take_timeout(order *o, const char *text)
{
    uint64_t milliseconds = 0;
    if (!read_seconds(text, &milliseconds))
        return refuse_form(o, "--timeout", text, "a number of seconds, as in 2 or 0.5");
    o->timeout = (uint32_t)milliseconds;
    return (1 <= milliseconds && milliseconds <= MOST_TIMEOUT) || refuse_range(o, "--timeout", text, TIMEOUT_RANGE);
}

/* ---- Options ---- */

static bool take_option(order *o, int letter, const char *value)
{
    switch (letter) {
    case 's':
        return take_size(o, value);
    case 'l':
        return take_limit(o, value);
    case 'T':
        return take_timeout(o, value);
    case 'g':
        o->ram_g = value;
        break;
    case 'o':
        o->output = value;
        break;
    case 't':
        o->tags = value;
        break;
    case 'm':
        o->marks = value;
        break;
    case 'q':
        o->is_quiet = true;
        break;
    case 'e':
        o->wants_exit_code = true;
        break;
    default:
        o->wants_help = true;
    }
    return true;
}

/* What getopt_long takes to know the options of one command. The letters begin with a colon, so that a missing value is
   told apart from an unknown option; the names end with one that is NULL. */
typedef struct {
    char letters[2 * MOST_OPTIONS + 2];
    struct option names[MOST_OPTIONS + 1];
} option_tables;

static void add_options(option_tables *tables, const command *c)
{
    struct option *name = tables->names;
    for (size_t n = 0; option_at(n) != NULL; n++) {
        const option_names *known = option_at(n);
        const char letter[] = { known->letter, known->value != NULL ? ':' : '\0', '\0' };
        if (!takes_option(c, known->letter))
            continue;
        *name++ = (struct option){ known->name, known->value != NULL, NULL, known->letter };
        if (known->has_short_name)
            strcat(tables->letters, letter);
    }
}

/* Whether an option's name starts with these letters after two dashes. */
static bool starts_option(const command *c, const char *argument, size_t length)
{
    for (size_t n = 0; option_at(n) != NULL; n++)
        if (takes_option(c, option_at(n)->letter) && strncmp(option_at(n)->name, argument + 2, length - 2) == 0)
            return true;
    return false;
}

/* getopt leaves in `optopt` the letter of an option, and 0 for a long name that it does not know, which then lies just
   before `optind`. It takes the start of a name, unless several names start so. */
static bool refuse_unknown(const order *o, const char *argument)
{
    const char letter[] = { '-', (char)optopt, '\0' };
    size_t length = strcspn(argument, "=");
    if (optopt != 0)
        return refuse(o, letter, "no such option");
    bool is_start = starts_option(o->command, argument, length);
    return refuse(o, show_bytes(argument, length).text,
                  is_start ? "is short for more than one option" : "no such option");
}

static bool refuse_use(const order *o, const option_names *option)
{
    char what[MOST_REASON], why[MOST_REASON] = "takes no value";
    snprintf(what, sizeof what, "--%s", option->name);
    if (option->value != NULL)
        snprintf(why, sizeof why, "needs a value: %s", option->value);
    return refuse(o, what, why);
}

/* An option that has a value is only known here by the want of it. Otherwise its letter was given as a short name,
   which it does not have. */
static bool refuse_option(const order *o, bool lacks_value, const char *argument)
{
    const option_names *known = find_option((char)optopt);
    bool has_value = strncmp(argument, "--", 2) == 0 && strchr(argument, '=') != NULL;
    bool is_known = known != NULL && takes_option(o->command, known->letter) && (lacks_value || has_value);
    return is_known ? refuse_use(o, known) : refuse_unknown(o, argument);
}

static bool take_options(order *o, int count, char **arguments)
{
    option_tables tables = { .letters = ":" };
    add_options(&tables, o->command);
    opterr = 0;
    for (;;) {
        int letter = getopt_long(count, arguments, tables.letters, tables.names, NULL);
        if (letter == -1)
            return true;
        if (letter == '?' || letter == ':')
            return refuse_option(o, letter == ':', arguments[optind - 1]);
        if (!take_option(o, letter, optarg))
            return false;
    }
}

/* ---- The whole ---- */

static int count_standard_inputs(const order *o)
{
    const char *const read[] = { o->files[0], o->files[1], o->ram_g };
    int count = 0;
    for (int n = 0; n < 3; n++)
        count += read[n] != NULL && is_standard_input(read[n]);
    return count;
}

static int count_standard_outputs(const order *o)
{
    const char *const written[] = { o->output, o->tags, o->marks };
    int count = 0;
    for (int n = 0; n < 3; n++)
        count += written[n] != NULL && is_standard_output(written[n]);
    return count;
}

static bool take_files(order *o, int count, char **arguments)
{
    if (count != o->command->files)
        return refuse(o, NULL, o->command->takes);
    for (int n = 0; n < count; n++)
        o->files[n] = arguments[n];
    return true;
}

typedef bool are_one(const char *output, const char *other);

static bool is_among(const char *output, const char *const *others, int count, are_one *is_same)
{
    for (int n = 0; n < count; n++)
        if (output != NULL && others[n] != NULL && is_same(output, others[n]))
            return true;
    return false;
}

/* Told before any work is done, which may take long. */
static bool is_place_found(const char *name)
{
    place p;
    if (name == NULL || is_standard(name))
        return true;
    bool is_found = find_place(name, &p) && may_be_written(&p);
    leave_place(&p);
    return is_found || complain(name, "%s", strerror(errno));
}

/* Nothing that is written may take the place of something else that is written, or of something that is read. */
static bool are_places_apart(const order *o)
{
    const char *const written[] = { o->output, o->tags, o->marks };
    const char *const read[] = { o->files[0], o->files[1], o->ram_g };
    for (int n = 0; n < 3; n++) {
        if (is_among(written[n], written, n, are_one_output))
            return refuse(o, written[n], "two outputs name the same file");
        if (is_among(written[n], read, 3, is_output_read))
            return refuse(o, is_standard(written[n]) ? "standard output" : written[n],
                          "is an input file, and would be overwritten");
    }
    return true;
}

static bool is_complete(const order *o)
{
    if (takes_option(o->command, 'o') && o->output == NULL)
        return refuse(o, NULL, "-o FILE is required");
    if (count_standard_inputs(o) > 1)
        return refuse(o, NULL, "only one file can be standard input");
    if (count_standard_outputs(o) > 1)
        return refuse(o, NULL, "only one file can be standard output");
    return are_places_apart(o) && is_place_found(o->output) && is_place_found(o->tags) && is_place_found(o->marks);
}

bool read_order(order *o, const command *c, int count, char **arguments)
{
    *o = (order){ .command = c, .width = 480, .height = 272, .limit = JV_MAX_LIMIT };
    if (!take_options(o, count, arguments))
        return false;
    return o->wants_help || (take_files(o, count - optind, arguments + optind) && is_complete(o));
}

FILE *stream_for_answers(const order *o)
{
    return count_standard_outputs(o) > 0 ? stderr : stdout;
}
