/* Lists for the way from a list to text and back.

     made_lists ends FILE             every command, with each field at both ends of what its bits hold and of what has
   a meaning made_lists reserved FILE         every command with all its reserved bits set, and with each of them alone
     made_lists random COUNT FOLDER   so many lists that look random and are the same in every run */
#include <stdint.h>
#include <stdio.h>
#include <stdlib.h>
#include <string.h>

#include "../../tool/names.h"
#include "../shared/draw.h"
#include "jokulvisp.h"

enum { MOST_WORDS = JV_MAX_LIST_BYTES / 4 };

static uint8_t list[4 * MOST_WORDS];
static size_t words;

static void put_word(uint32_t bits)
{
    if (words == MOST_WORDS)
        exit(1);
    for (unsigned n = 0; n < 4; n++)
        list[4 * words + n] = (uint8_t)(bits >> 8 * n);
    words++;
}

/* ---- By the table ---- */

static uint32_t bits_with(const command_names *names, unsigned n, int64_t value)
{
    const field_names *field = &names->field[n];
    return names->command << 24 | ((uint32_t)value << field->low & mask_of(field));
}

static void put_ends_of_field(const command_names *names, unsigned n)
{
    const field_names *field = &names->field[n];
    put_word(bits_with(names, n, least_value(field)));
    put_word(bits_with(names, n, largest_value(field)));
    put_word(bits_with(names, n, -1));
    if (field->values != NULL)
        put_word(bits_with(names, n, field->values->most));
}

static void put_ends(const command_names *names)
{
    put_word(names->command << 24);
    for (unsigned n = 0; n < count_fields(names); n++)
        put_ends_of_field(names, n);
}

static uint32_t reserved_mask(const command_names *names)
{
    uint32_t taken = command_mask(names);
    for (unsigned n = 0; n < count_fields(names); n++)
        taken |= mask_of(&names->field[n]);
    return ~taken;
}

static void put_reserved(const command_names *names)
{
    /* Each field is 1, which has a meaning in all of them. */
    uint32_t bits = names->command << 24, reserved = reserved_mask(names);
    for (unsigned n = 0; n < count_fields(names); n++)
        bits |= bits_with(names, n, 1);
    put_word(bits | reserved);
    for (unsigned n = 0; n < 32; n++)
        if ((reserved >> n & 1) != 0)
            put_word(bits | UINT32_C(1) << n);
}

static void put_all(void (*put)(const command_names *names))
{
    for (size_t n = 0; names_at(n) != NULL; n++)
        put(names_at(n));
}

/* ---- At random ---- */

/* A command that there is, with any bits behind it. */
static uint32_t draw_command(void)
{
    return draw_below(0x2E) << 24 | draw_below(1 << 24);
}

/* A CALL or JUMP into the longest list, mostly to the start of a word. */
static uint32_t draw_way(void)
{
    uint32_t target = draw_below(4 * MOST_WORDS);
    return (0x1D + draw_below(2)) << 24 | (draw_below(8) == 0 ? target : target / 4 * 4);
}

static void put_random(unsigned n)
{
    static uint32_t (*const kinds[])(void) = { draw, draw_command, draw_way };
    start_drawing(n);
    words = 0;
    uint32_t count = n % 8 == 0 ? MOST_WORDS : 1 + draw_below(200);
    for (uint32_t m = 0; m < count; m++)
        put_word(kinds[n % 3]());
}

/* ---- The whole ---- */

static int write_list(const char *name)
{
    FILE *file = fopen(name, "wb");
    if (file == NULL)
        return 1;
    size_t written = fwrite(list, 4, words, file);
    return fclose(file) == 0 && written == words ? 0 : 1;
}

static int write_random(unsigned count, const char *folder)
{
    int status = 0;
    for (unsigned n = 0; n < count && status == 0; n++) {
        char name[4096];
        snprintf(name, sizeof name, "%s/%u.list", folder, n);
        put_random(n);
        status = write_list(name);
    }
    return status;
}

int main(int count, char **arguments)
{
    if (count == 4 && strcmp(arguments[1], "random") == 0)
        return write_random((unsigned)atoi(arguments[2]), arguments[3]);
    if (count != 3)
        return 2;
    put_all(strcmp(arguments[1], "ends") == 0 ? put_ends : put_reserved);
    return write_list(arguments[2]);
}
