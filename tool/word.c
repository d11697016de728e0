#include "word.h"

#include <inttypes.h>

#include "jokulvisp.h"
#include "names.h"

/* As wide as the longest command, so that what follows a name stands in one column. */
enum { NAME_COLUMNS = 18 };

/* ---- Words that are read ---- */

static bool is_place_within(const display_list *list, uint32_t place)
{
    return place % 4 == 0 && place < list->length;
}

bool leads_within(const display_list *list, size_t offset, size_t *target)
{
    jv_word word = jv_read_word(word_at(list, offset));
    bool is_leading = word.number == JV_DONE && (word.command == JV_CALL || word.command == JV_JUMP);
    *target = word.a;
    return is_leading && is_place_within(list, word.a);
}

static int64_t signed_value(uint32_t value)
{
    return value <= INT32_MAX ? (int64_t)value : (int64_t)value - ((int64_t)1 << 32);
}

static void print_field(FILE *out, const display_list *list, const field_names *field, uint32_t value)
{
    const char *value_name = find_value_name(field, value);
    fprintf(out, "%s=", field->name);
    if (value_name != NULL)
        fputs(value_name, out);
    else if (field->kind == TARGET && is_place_within(list, value))
        fprintf(out, "at_%" PRIu32, value);
    else if (field->kind == SIGNED)
        fprintf(out, "%" PRId64, signed_value(value));
    else
        fprintf(out, "%" PRIu32, value);
}

/* Bits that writing the word's fields does not set. */
static uint32_t reserved_bits(uint32_t bits, jv_word word)
{
    return bits & ~jv_write_word(word.command, word.a, word.b, word.c, word.d, word.e).bits;
}

static void print_meaning(FILE *out, const display_list *list, uint32_t bits, jv_word word)
{
    const command_names *names = find_names(word.command);
    const uint32_t values[MOST_FIELDS] = { word.a, word.b, word.c, word.d, word.e };
    uint32_t reserved = reserved_bits(bits, word);
    unsigned fields = count_fields(names);
    /* A command without fields ends its line with its name and no blanks. */
    fprintf(out, "%-*s", fields > 0 || reserved != 0 ? NAME_COLUMNS + 1 : 0, names->name);
    for (unsigned n = 0; n < fields; n++) {
        fputc(' ', out);
        print_field(out, list, &names->field[n], values[n]);
    }
    if (reserved != 0)
        fprintf(out, " reserved=0x%" PRIX32, reserved);
}

/* ---- Words that are refused ---- */

static void print_why_invalid(FILE *out, const field_names *field, uint32_t value)
{
    const value_set *values = field->values;
    if (values->names != NULL)
        fprintf(out, "%s %" PRIu32 " is not a %s", field->name, value, values->noun);
    else
        fprintf(out, "%s %" PRIu32 " is out of range: 0 to %" PRIu32, field->name, value, values->most);
}

/* Names every field whose value is invalid. */
static void print_invalid_fields(FILE *out, const command_names *names, uint32_t bits)
{
    const char *between = "";
    fprintf(out, "%s: ", names->name);
    for (unsigned n = 0; n < count_fields(names); n++) {
        const field_names *field = &names->field[n];
        if (has_meaning(field, value_in(bits, field)))
            continue;
        fputs(between, out);
        print_why_invalid(out, field, value_in(bits, field));
        between = "; ";
    }
}

void print_why_refused(FILE *out, uint32_t bits)
{
    const command_names *names = find_names(command_in(bits));
    if (names == NULL)
        fprintf(out, "0x%02" PRIX32 " is not the top byte of any command", bits >> 24);
    else
        print_invalid_fields(out, names, bits);
}

static void print_refused(FILE *out, uint32_t bits, uint32_t number)
{
    fprintf(out, "%-*s bits=0x%08" PRIX32 "     # refused %" PRIu32 ": ", NAME_COLUMNS + 1, any_word.name, bits,
            number);
    print_why_refused(out, bits);
}

void print_word(FILE *out, const display_list *list, size_t offset)
{
    uint32_t bits = word_at(list, offset);
    jv_word word = jv_read_word(bits);
    fprintf(out, "%4zu  %08" PRIX32 "  ", offset, bits);
    if (word.number == JV_DONE)
        print_meaning(out, list, bits, word);
    else
        print_refused(out, bits, word.number);
    fputc('\n', out);
}
