#include "assemble.h"

#include <inttypes.h>

#include "fault.h"
#include "file.h"
#include "instruction.h"
#include "kind.h"
#include "label.h"
#include "list.h"
#include "message.h"
#include "output.h"
#include "place.h"
#include "usage.h"

/* What is found out about a text before any word is made of it, and while words are made. */
typedef struct {
    faults faults;
    label_table labels;
    uint32_t words;                 /* in the whole text */
    uint32_t words_met, labels_met; /* up to the line that is looked at */
    display_list list;
} assembly;

/* ---- First time through the text: labels ---- */

/* A line that cannot be read is counted as a word, so that no label before it is told to stand before none. */
static bool has_word(const text_line *line)
{
    return line->count > 0 || line->fault != NULL;
}

static void find_labels(assembly *a, list_text t)
{
    text_line line;
    while (read_line(&t, &line)) {
        if (line.has_label)
            add_label(&a->labels, (label){ line.label, t.line, a->words });
        if (has_word(&line))
            a->words++;
    }
}

/* ---- Second time: words ---- */

/* Up to the last one that there is room for, every label is in the table, good or not. */
static bool judge_label(assembly *a, piece name)
{
    if (++a->labels_met > MOST_LABELS)
        return blame(&a->faults, "there are more than %d labels", MOST_LABELS);
    if (!is_label(name))
        return blame(&a->faults, "'%s' is not a label: use a letter or _, then letters, digits and _", show(name).text);
    const label *first = find_label(&a->labels, name);
    if (first->line != a->faults.line)
        return blame(&a->faults, "label %s is already defined in line %" PRIu32, show(name).text, first->line);
    if (first->word == a->words)
        return blame(&a->faults, "no word follows label %s", show(name).text);
    return true;
}

/* Of too many words the first is told. The others are still made, for what else may be wrong. */
static bool add_word(assembly *a, uint32_t bits)
{
    if (a->words_met == MOST_LIST_WORDS + 1)
        return blame(&a->faults, "too many words: a list has at most %d", MOST_LIST_WORDS);
    if (a->words_met <= MOST_LIST_WORDS)
        append_word(&a->list, bits);
    return true;
}

static bool assemble_instruction(assembly *a, const text_line *line)
{
    uint32_t bits = 0;
    a->words_met++;
    if (!make_word(&a->faults, &a->labels, line, &bits) || !add_word(a, bits))
        return false;
    if (line->has_bits && line->bits != bits)
        warn(&a->faults,
             "warning: the line has the bits %08" PRIX32 ", but its command is %08" PRIX32 ", which is written",
             line->bits, bits);
    return true;
}

/* Tells the first thing that is wrong with the line. */
static bool assemble_line(assembly *a, const text_line *line)
{
    if (line->fault != NULL)
        return blame(&a->faults, "%s", line->fault);
    bool is_label_good = !line->has_label || judge_label(a, line->label);
    return is_label_good && (line->count == 0 || assemble_instruction(a, line));
}

static void assemble_lines(assembly *a, list_text t)
{
    text_line line;
    while (read_line(&t, &line)) {
        a->faults.line = t.line;
        assemble_line(a, &line);
    }
}

/* ---- The whole ---- */

static bool write_list(const display_list *list, const char *name)
{
    return write_outputs(&(output){ name, list->bytes, list->length }, 1);
}

static void print_success(FILE *out, const char *output, const display_list *list)
{
    size_t words = list->length / 4;
    fprintf(out, "done %zu\nWrote %zu %s (%zu bytes) to ", words, words, plural(words, "word", "words"), list->length);
    print_name(out, is_standard_output(output) ? "standard output" : output);
    fputs(".\n", out);
}

static int tell_success(const order *o, const display_list *list)
{
    if (!o->is_quiet)
        print_success(stream_for_answers(o), o->output, list);
    return SUCCEEDED;
}

static bool is_text_good(assembly *a, list_text t)
{
    find_labels(a, t);
    assemble_lines(a, t);
    tell_rest(&a->faults);
    if (a->words == 0 && a->faults.count == 0)
        complain(a->faults.name, "the text has no command");
    return a->words > 0 && a->faults.count == 0;
}

/* Told before any line is, for every line of such a file is wrong. */
static bool can_be_text(const char *name, const uint8_t *bytes, size_t length)
{
    bool is_too_long = length > MOST_TEXT_BYTES;
    const char *other = find_other_than_text(bytes, is_too_long ? MOST_TEXT_BYTES : length);
    if (other != NULL)
        return complain(name, "%s", other);
    return !is_too_long || complain(name, "the text is longer than %d bytes", MOST_TEXT_BYTES);
}

int run_assemble(const order *o)
{
    static uint8_t bytes[MOST_TEXT_BYTES];
    static assembly a;
    size_t length = 0;
    const char *name = spoken_name(o->files[0]);
    if (!read_file(o->files[0], bytes, sizeof bytes, &length))
        return GAVE_UP;
    a.faults = (faults){ .name = name, .is_quiet = o->is_quiet };
    if (!can_be_text(name, bytes, length) || !is_text_good(&a, start_text((char *)bytes, length)))
        return LIST_AT_FAULT;
    return write_list(&a.list, o->output) ? tell_success(o, &a.list) : GAVE_UP;
}
