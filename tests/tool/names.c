/* The tool's table of commands and fields against the library, and as the header prints it.

     names           checks the table against jv_read_word and jv_write_word
     names print     prints the table, to be compared with the header's */
#include "../../tool/names.h"

#include <inttypes.h>
#include <stdio.h>
#include <string.h>

#include "../shared/check.h"
#include "jokulvisp.h"

static jv_bits write_values(const command_names *names, const uint32_t v[MOST_FIELDS])
{
    return jv_write_word(names->command, v[0], v[1], v[2], v[3], v[4]);
}

/* Every field has a meaning at 1, and no bit of it then hides another's. */
static void set_ones(const command_names *names, uint32_t values[MOST_FIELDS])
{
    for (unsigned n = 0; n < MOST_FIELDS; n++)
        values[n] = n < count_fields(names) ? 1 : 0;
}

/* ---- Fields ---- */

/* Writes a command whose other fields are 1 with this value in field n. */
static jv_bits write_value(const command_names *names, unsigned n, uint32_t value)
{
    uint32_t values[MOST_FIELDS];
    set_ones(names, values);
    values[n] = value;
    return write_values(names, values);
}

static uint32_t read_back(uint32_t bits, unsigned n)
{
    jv_word word = jv_read_word(bits);
    const uint32_t values[] = { word.a, word.b, word.c, word.d, word.e };
    return values[n];
}

static void check_written(const command_names *names, unsigned n, int64_t value)
{
    const field_names *field = &names->field[n];
    jv_bits written = write_value(names, n, (uint32_t)value);
    CHECK_HOLDS(written.number == JV_DONE, "%s is written with %s %" PRId64, names->name, field->name, value);
    CHECK_HOLDS(command_in(written.bits) == names->command, "the word of %s is known by its top bits", names->name);
    CHECK_HOLDS(value_in(written.bits, field) == ((uint32_t)value & mask_of(field) >> field->low),
                "%s has %s %" PRId64 " in its bits %u to %u", names->name, field->name, value, field->high, field->low);
    CHECK_HOLDS(read_back(written.bits, n) == (uint32_t)value, "%s is read with %s %" PRId64, names->name, field->name,
                value);
}

static void check_refused(const command_names *names, unsigned n, int64_t value)
{
    jv_bits written = write_value(names, n, (uint32_t)value);
    CHECK_HOLDS(written.number == JV_NO_MEANING, "%s is refused by 12 with %s %" PRId64, names->name,
                names->field[n].name, value);
}

static void check_value(const command_names *names, unsigned n, int64_t value)
{
    if (has_meaning(&names->field[n], (uint32_t)value))
        check_written(names, n, value);
    else
        check_refused(names, n, value);
}

/* Goes through all values where some have no meaning, and else through those at the ends. */
static void check_values(const command_names *names, unsigned n)
{
    const field_names *field = &names->field[n];
    int64_t least = least_value(field), largest = largest_value(field);
    check_refused(names, n, least - 1);
    check_refused(names, n, largest + 1);
    check_value(names, n, least);
    check_value(names, n, largest);
    for (int64_t value = least; field->values != NULL && value <= largest; value++)
        check_value(names, n, value);
}

static void check_field(const command_names *names, unsigned n)
{
    const field_names *field = &names->field[n];
    check_values(names, n);
    for (unsigned other = 0; other < n; other++) {
        CHECK_HOLDS((mask_of(field) & mask_of(&names->field[other])) == 0, "%s has bits of its own for %s", names->name,
                    field->name);
        CHECK_HOLDS(strcmp(field->name, names->field[other].name) != 0, "%s has one field %s", names->name,
                    field->name);
    }
}

/* ---- Commands ---- */

static uint32_t reserved_mask(const command_names *names)
{
    uint32_t taken = command_mask(names);
    for (unsigned n = 0; n < count_fields(names); n++)
        taken |= mask_of(&names->field[n]);
    return ~taken;
}

static bool is_read_alike(uint32_t a, uint32_t b)
{
    jv_word left = jv_read_word(a), right = jv_read_word(b);
    return memcmp(&left, &right, sizeof left) == 0;
}

/* A bit is reserved exactly when reading passes it over. */
static void check_bits(const command_names *names)
{
    uint32_t values[MOST_FIELDS];
    set_ones(names, values);
    uint32_t bits = write_values(names, values).bits;
    for (unsigned n = 0; n < 32; n++) {
        uint32_t bit = UINT32_C(1) << n;
        bool is_reserved = (reserved_mask(names) & bit) != 0;
        CHECK_HOLDS(is_read_alike(bits, bits ^ bit) == is_reserved, "bit %u of %s %s reserved", n, names->name,
                    is_reserved ? "is" : "is not");
    }
    CHECK_HOLDS(is_read_alike(bits, bits | reserved_mask(names)), "%s is read with all reserved bits set", names->name);
}

static void check_places_left_over(const command_names *names)
{
    for (unsigned n = count_fields(names); n < MOST_FIELDS; n++)
        CHECK_HOLDS(write_value(names, n, 1).number == JV_NO_MEANING, "%s has no more than %u fields", names->name,
                    count_fields(names));
}

static void check_command(const command_names *names)
{
    CHECK_HOLDS(find_names(names->command) == names, "%s is found by its number", names->name);
    for (unsigned n = 0; n < count_fields(names); n++)
        check_field(names, n);
    check_places_left_over(names);
    check_bits(names);
}

/* Every number that is a command for the library stands in the table. */
static void check_numbers(void)
{
    begin_part("the numbers of commands");
    for (uint32_t command = 0; command < 0x200; command++) {
        bool is_command = jv_write_word(command, 1, 1, 1, 1, 1).number != JV_NO_COMMAND;
        CHECK_HOLDS((find_names(command) != NULL) == is_command, "0x%02" PRIX32 " %s a command", command,
                    is_command ? "is" : "is not");
    }
}

static int check_table(void)
{
    begin_part("commands and their fields");
    for (size_t n = 0; names_at(n) != NULL; n++)
        check_command(names_at(n));
    check_numbers();
    return end_checks();
}

/* ---- The table as text ---- */

static const value_set *printed[16];
static unsigned printed_count;

/* What the header calls a set: the word of its noun that says most. */
static const char *header_noun(const value_set *values)
{
    static const char *const nouns[] = { "test", "factor", "action", "primitive", "format", "filter", "wrap" };
    for (unsigned n = 0; n < sizeof nouns / sizeof nouns[0]; n++)
        if (strstr(values->noun, nouns[n]) != NULL)
            return nouns[n];
    return values->noun;
}

static void note_set(const value_set *values)
{
    for (unsigned n = 0; n < printed_count; n++)
        if (printed[n] == values)
            return;
    printed[printed_count++] = values;
}

static void print_noun(const value_set *values)
{
    printf(" [%s]", header_noun(values));
    note_set(values);
}

static void print_field(const field_names *field, const char *before)
{
    printf("%s%s %u", before, field->name, field->high);
    if (field->low != field->high)
        printf("..%u", field->low);
    if (field->kind == SIGNED)
        printf(" s");
    if (field->values == NULL)
        return;
    if (field->values->names == NULL)
        printf(" [0 to %" PRIu32 "]", field->values->most);
    else
        print_noun(field->values);
}

static void print_command(const command_names *names)
{
    printf("%s %s", names->name, count_fields(names) == 0 ? "none" : "");
    for (unsigned n = 0; n < count_fields(names); n++)
        print_field(&names->field[n], n == 0 ? "" : ", ");
    putchar('\n');
}

static void print_set(const value_set *values)
{
    const char *before = "";
    printf("%s ", header_noun(values));
    for (uint32_t n = 0; n <= values->most; n++) {
        if (values->names[n] == NULL)
            continue;
        printf("%s%" PRIu32 " %s", before, n, values->names[n]);
        before = ", ";
    }
    putchar('\n');
}

static int print_table(void)
{
    for (size_t n = 0; names_at(n) != NULL; n++)
        print_command(names_at(n));
    for (unsigned n = 0; n < printed_count; n++)
        print_set(printed[n]);
    return 0;
}

int main(int count, char **arguments)
{
    return count > 1 && strcmp(arguments[1], "print") == 0 ? print_table() : check_table();
}
