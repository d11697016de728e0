#include "instruction.h"

#include <inttypes.h>
#include <stdio.h>
#include <string.h>

#include "jokulvisp.h"
#include "names.h"
#include "nearest.h"

/* Room for the names of a command's fields, or of all values that a field can have. */
enum { MOST_NAMES_TEXT = 200 };

/* What the line gives the command. */
typedef struct {
    const command_names *names;
    int64_t values[MOST_FIELDS];
    bool is_given[MOST_FIELDS];
    unsigned unnamed; /* how many values came without a name */
    bool has_named, has_reserved;
    int64_t reserved;
} given_fields;

/* ---- Names for messages ---- */

static void append(char names[MOST_NAMES_TEXT], const char *before, const char *added)
{
    strncat(names, before, MOST_NAMES_TEXT - strlen(names) - 1);
    strncat(names, added, MOST_NAMES_TEXT - strlen(names) - 1);
}

/* Lists the command's fields, or those alone that are missing. */
static void list_fields(char names[MOST_NAMES_TEXT], const given_fields *given, bool missing_alone)
{
    names[0] = '\0';
    for (unsigned n = 0; n < count_fields(given->names); n++)
        if (!missing_alone || !given->is_given[n])
            append(names, names[0] != '\0' ? ", " : "", given->names->field[n].name);
}

static void list_values(char names[MOST_NAMES_TEXT], const value_set *values)
{
    names[0] = '\0';
    for (uint32_t n = 0; n <= values->most; n++)
        if (values->names[n] != NULL)
            append(names, names[0] != '\0' ? ", " : "", values->names[n]);
}

/* ---- Commands ---- */

static const command_names *find_by_name(piece name)
{
    if (is_piece(name, any_word.name))
        return &any_word;
    for (size_t n = 0; names_at(n) != NULL; n++)
        if (is_piece(name, names_at(n)->name))
            return names_at(n);
    return NULL;
}

static bool refuse_command(faults *f, piece name)
{
    const char *nearest = find_nearest(name);
    if (nearest == NULL)
        return blame(f, "no such command: %s", show(name).text);
    return blame(f, "no such command: %s; did you mean %s?", show(name).text, nearest);
}

/* ---- Values ---- */

static bool has_named_values(const field_names *field)
{
    return field->values != NULL && field->values->names != NULL;
}

static bool refuse_value(faults *f, const field_names *field, piece spelt)
{
    char names[MOST_NAMES_TEXT];
    if (!has_named_values(field))
        return blame(f, "%s %s is out of range: %" PRId64 " to %" PRId64, field->name, show(spelt).text,
                     least_value(field), field->values != NULL ? field->values->most : largest_value(field));
    list_values(names, field->values);
    return blame(f, "%s %s is not a %s; use one of %s", field->name, show(spelt).text, field->values->noun, names);
}

/* Whether a number is valid in a field. */
static bool judge_number(faults *f, const field_names *field, piece spelt, int64_t value)
{
    bool is_held = least_value(field) <= value && value <= largest_value(field);
    return (is_held && has_meaning(field, (uint32_t)value)) || refuse_value(f, field, spelt);
}

static bool find_value(const field_names *field, piece name, int64_t *value)
{
    for (uint32_t n = 0; n <= field->values->most; n++) {
        const char *known = find_value_name(field, n);
        *value = n;
        if (known != NULL && is_piece(name, known))
            return true;
    }
    return false;
}

static bool take_label(faults *f, const label_table *labels, piece name, int64_t *value)
{
    const label *found = find_label(labels, name);
    if (found == NULL)
        return blame(f, "no such label: %s", show(name).text);
    *value = 4 * (int64_t)found->word;
    return true;
}

static bool take_value(faults *f, const label_table *labels, const field_names *field, piece spelt, int64_t *value)
{
    if (read_number(spelt, value))
        return judge_number(f, field, spelt, *value);
    if (has_named_values(field))
        return find_value(field, spelt, value) || refuse_value(f, field, spelt);
    if (field->kind == TARGET && is_label(spelt))
        return take_label(f, labels, spelt, value) && judge_number(f, field, spelt, *value);
    return blame(f, "%s '%s' is not a number%s", field->name, show(spelt).text,
                 field->kind == TARGET ? " or a label" : "");
}

/* ---- Fields ---- */

static bool take_reserved(faults *f, given_fields *given, piece spelt)
{
    if (given->has_reserved)
        return blame(f, "reserved is given twice");
    given->has_reserved = true;
    if (!read_number(spelt, &given->reserved))
        return blame(f, "reserved '%s' is not a number", show(spelt).text);
    bool is_held = 0 <= given->reserved && given->reserved <= UINT32_MAX;
    return is_held || blame(f, "reserved %s is out of range: 0 to 0xFFFFFFFF", show(spelt).text);
}

/* The number of the field of this name, or of the one past the last. */
static unsigned find_field(const command_names *names, piece name)
{
    unsigned n = 0;
    while (n < count_fields(names) && !is_piece(name, names->field[n].name))
        n++;
    return n;
}

static bool refuse_field(faults *f, const given_fields *given, const char *what)
{
    char fields[MOST_NAMES_TEXT];
    list_fields(fields, given, false);
    if (fields[0] == '\0')
        return blame(f, "%s: %s has no fields", what, given->names->name);
    return blame(f, "%s: %s has the %s %s", what, given->names->name,
                 plural(count_fields(given->names), "field", "fields"), fields);
}

static bool take_named(faults *f, const label_table *labels, given_fields *given, piece name, piece value)
{
    if (is_piece(name, "reserved"))
        return take_reserved(f, given, value);
    unsigned n = find_field(given->names, name);
    given->has_named = true;
    if (n == count_fields(given->names)) {
        char what[80];
        snprintf(what, sizeof what, "no such field '%s'", show(name).text);
        return refuse_field(f, given, what);
    }
    if (given->is_given[n])
        return blame(f, "%s is given twice", given->names->field[n].name);
    given->is_given[n] = true;
    return take_value(f, labels, &given->names->field[n], value, &given->values[n]);
}

static bool take_unnamed(faults *f, const label_table *labels, given_fields *given, piece value)
{
    unsigned n = given->unnamed++;
    if (n >= count_fields(given->names) && find_by_name(value) != NULL)
        return blame(f, "%s follows %s on the same line: each command needs its own line", show(value).text,
                     given->names->name);
    if (n >= count_fields(given->names))
        return refuse_field(f, given, "too many values");
    given->is_given[n] = true;
    return take_value(f, labels, &given->names->field[n], value, &given->values[n]);
}

static bool take_field(faults *f, const label_table *labels, given_fields *given, piece spelt)
{
    piece name, value;
    bool is_named = split_at_equals(spelt, &name, &value);
    if (is_named ? !take_named(f, labels, given, name, value) : !take_unnamed(f, labels, given, spelt))
        return false;
    if (given->unnamed > 0 && given->has_named)
        return blame(f, "some fields have names and some do not: give names to all of them, or to none");
    return true;
}

/* Told before anything else, for a name by itself would be taken for a value. */
static bool are_equals_close(faults *f, const text_line *line)
{
    for (size_t n = 1; n < line->count; n++) {
        piece name = { NULL, 1 }, value = { NULL, 1 };
        split_at_equals(line->pieces[n], &name, &value);
        if (name.length == 0 || value.length == 0)
            return blame(f, "'%s': put no blank before or after '=', as in red=255", show(line->pieces[n]).text);
    }
    return true;
}

static bool are_all_given(faults *f, const given_fields *given)
{
    char missing[MOST_NAMES_TEXT], what[MOST_NAMES_TEXT + 20];
    list_fields(missing, given, true);
    if (missing[0] == '\0')
        return true;
    snprintf(what, sizeof what, "%s %s missing", missing, strchr(missing, ',') != NULL ? "are" : "is");
    return refuse_field(f, given, what);
}

/* ---- Words ---- */

static bool is_reserved_apart(faults *f, const given_fields *given)
{
    uint32_t reserved = (uint32_t)given->reserved;
    for (unsigned n = 0; n < count_fields(given->names); n++)
        if ((reserved & mask_of(&given->names->field[n])) != 0)
            return blame(f, "reserved 0x%" PRIX32 " overlaps the field %s", reserved,
                         given->names->field[n].name);
    if ((reserved & command_mask(given->names)) != 0)
        return blame(f, "reserved 0x%" PRIX32 " overlaps the bits of the command", reserved);
    return true;
}

static bool are_equal_words(jv_word a, jv_word b)
{
    return a.number == b.number && a.command == b.command && a.a == b.a && a.b == b.b && a.c == b.c && a.d == b.d &&
           a.e == b.e;
}

/* The library has the last word on what was made of the names. */
static bool write_fields(faults *f, const given_fields *given, uint32_t *bits)
{
    const int64_t *v = given->values;
    uint32_t command = given->names->command;
    jv_bits written =
        jv_write_word(command, (uint32_t)v[0], (uint32_t)v[1], (uint32_t)v[2], (uint32_t)v[3], (uint32_t)v[4]);
    *bits = written.bits | (uint32_t)given->reserved;
    if (written.number == JV_DONE && are_equal_words(jv_read_word(*bits), jv_read_word(written.bits)))
        return true;
    return blame(f, "%s cannot be written like this: the library answers %" PRIu32, given->names->name,
                 written.number);
}

bool make_word(faults *f, const label_table *labels, const text_line *line, uint32_t *bits)
{
    given_fields given = { .names = find_by_name(line->pieces[0]) };
    if (given.names == NULL)
        return refuse_command(f, line->pieces[0]);
    if (!are_equals_close(f, line))
        return false;
    for (size_t n = 1; n < line->count; n++)
        if (!take_field(f, labels, &given, line->pieces[n]))
            return false;
    if (!are_all_given(f, &given) || !is_reserved_apart(f, &given))
        return false;
    *bits = (uint32_t)given.values[0];
    return given.names == &any_word || write_fields(f, &given, bits);
}
