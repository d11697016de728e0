#include "list_check.h"

#include <inttypes.h>
#include <stdio.h>
#include <stdlib.h>
#include <string.h>

#include "../second/guide.h"

static uint8_t ram_g[JV_MAX_RAM_G_BYTES + 1];
static bool is_ram_g_filled = false;
static bool are_lists_as_lent = true;

static uint8_t ram_g_byte(size_t n)
{
    return (uint8_t)(n * 31 + n / 256);
}

static void fill_ram_g(void)
{
    if (is_ram_g_filled)
        return;
    for (size_t n = 0; n < sizeof ram_g; n++)
        ram_g[n] = ram_g_byte(n);
    is_ram_g_filled = true;
}

void *allocated(size_t length)
{
    void *bytes = malloc(length);
    if (bytes == NULL) {
        puts("out of memory");
        exit(1);
    }
    return bytes;
}

uint8_t *copied(const uint8_t *bytes, size_t length)
{
    return length == 0 ? NULL : memcpy(allocated(length), bytes, length);
}

jv_answer answer_of_library(const run_request *r)
{
    fill_ram_g();
    uint8_t *list = copied(r->list, r->list_length);
    const uint8_t *lent_ram_g = r->ram_g_length == 0 ? NULL : ram_g;
    jv_answer came = jv_check(list, r->list_length, lent_ram_g, r->ram_g_length, r->width, r->height, r->limit);
    if (r->list_length > 0 && memcmp(list, r->list, r->list_length) != 0)
        are_lists_as_lent = false;
    free(list);
    return came;
}

bool is_all_as_lent(void)
{
    fill_ram_g();
    for (size_t n = 0; n < sizeof ram_g; n++)
        if (ram_g[n] != ram_g_byte(n))
            return false;
    return are_lists_as_lent;
}

bool are_equal_answers(jv_answer a, jv_answer b)
{
    return a.number == b.number && a.list == b.list && a.place == b.place && a.count == b.count;
}

void print_answer(const char *before, jv_answer a)
{
    printf("    %s number %" PRIu32 ", list %" PRIu32 ", place %" PRIu32 ", count %" PRIu32 "\n", before, a.number,
           a.list, a.place, a.count);
}

uint32_t word_at(const uint8_t *byte)
{
    return (uint32_t)byte[3] << 24 | (uint32_t)byte[2] << 16 | (uint32_t)byte[1] << 8 | byte[0];
}

void print_list_word(size_t place, uint32_t bits)
{
    const entry *e = find_entry(command_of(bits));
    jv_word read = guide_read(bits);
    const uint32_t value[FIELDS] = { read.a, read.b, read.c, read.d, read.e };
    printf("    %5zu  %08" PRIX32 "  %s", place, bits, e != NULL ? e->name : "no command");
    if (read.number == 12)
        printf(" with a value without meaning");
    for (unsigned n = 0; read.number == 0 && n < e->fields; n++)
        if (e->field[n].sign == SIGNED)
            printf(" %s=%" PRId32, e->field[n].name, (int32_t)value[n]);
        else
            printf(" %s=%" PRIu32, e->field[n].name, value[n]);
    putchar('\n');
}

/* Words that do nothing are left out where they stand in a row, for a list may be mostly that. */
void print_request(const run_request *r)
{
    printf("    frame %" PRIu32 " by %" PRIu32 ", limit %" PRIu32 ", RAM_G of %zu bytes, list of %zu bytes\n", r->width,
           r->height, r->limit, r->ram_g_length, r->list_length);
    bool was_nop = false;
    for (size_t place = 0; place + 4 <= r->list_length; place += 4) {
        uint32_t bits = word_at(r->list + place);
        bool is_nop = command_of(bits) == JV_NOP;
        if (!is_nop || !was_nop)
            print_list_word(place, bits);
        was_nop = is_nop;
    }
}

void put_words(uint8_t *bytes, const uint32_t *words, size_t count)
{
    for (size_t n = 0; n < 4 * count; n++)
        bytes[n] = (uint8_t)(words[n / 4] >> 8 * (n % 4));
}
