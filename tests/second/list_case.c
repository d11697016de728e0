#include "list_case.h"

#include <stdlib.h>
#include <string.h>

#include "../shared/draw.h"

#define RAM_G_SEED UINT64_C(0x52414D5F47)

/* Longer ones would take too long to copy for each case. */
enum { LONGEST_COPY = 65536 };

static uint8_t ram_g[JV_MAX_RAM_G_BYTES + 1];

void fill_ram_g(void)
{
    start_drawing(RAM_G_SEED);
    fill_drawn(ram_g, sizeof ram_g);
}

bool is_ram_g_as_filled(void)
{
    static uint8_t once_more[sizeof ram_g];
    start_drawing(RAM_G_SEED);
    fill_drawn(once_more, sizeof once_more);
    return memcmp(ram_g, once_more, sizeof ram_g) == 0;
}

void start_list_case(test_case *c, uint32_t width, uint32_t height, uint32_t limit)
{
    *c = (test_case){ .numbers = LIST_NUMBERS };
    c->number[WIDTH] = (case_number){ "width", AMOUNT, width, 1 };
    c->number[HEIGHT] = (case_number){ "height", AMOUNT, height, 1 };
    c->number[LIMIT] = (case_number){ "limit", AMOUNT, limit, 1 };
    c->number[LIST_CUT] = (case_number){ "bytes cut off the list", ODDITY, 0, 0 };
}

uint32_t add_list(test_case *c, const char *name, uint32_t *words, const made_list *made)
{
    size_t length = made->request.list_length, count = (length + 3) / 4;
    for (size_t n = 0; n < count; n++)
        words[n] = word_at(made->bytes + 4 * n);
    c->run[c->runs++] = (case_run){ .name = name, .form = A_LIST, .words = words, .count = (uint32_t)count };
    return (uint32_t)(4 * count - length);
}

void add_ram_g(test_case *c, size_t length)
{
    c->run[c->runs++] = (case_run){ .name = "RAM_G", .form = MEMORY, .bytes = ram_g, .count = (uint32_t)length };
}

/* ---- What is lent ---- */

lent_copy lend_list(const case_run *run, uint32_t cut)
{
    static uint8_t bytes[4 * MOST_RUN_WORDS];
    size_t length = run->count > 0 ? 4 * (size_t)run->count - cut : 0;
    put_words(bytes, run->words, run->count);
    return (lent_copy){ copied(bytes, length), length, true };
}

lent_copy lend_bytes(const case_run *run)
{
    bool is_copy = run->count <= LONGEST_COPY;
    return (lent_copy){ is_copy ? copied(run->bytes, run->count) : run->bytes, run->count, is_copy };
}

bool is_list_kept(const lent_copy *lent, const case_run *run)
{
    static uint8_t bytes[4 * MOST_RUN_WORDS];
    put_words(bytes, run->words, run->count);
    return lent->length == 0 || memcmp(lent->bytes, bytes, lent->length) == 0;
}

bool are_bytes_kept(const lent_copy *lent, const case_run *run)
{
    return !lent->is_copy || lent->length == 0 || memcmp(lent->bytes, run->bytes, lent->length) == 0;
}

void take_copy_back(lent_copy *lent)
{
    if (lent->is_copy)
        free(lent->bytes);
    *lent = (lent_copy){ NULL, 0, false };
}

run_request request_of(const test_case *c, const lent_copy *list, size_t ram_g_length)
{
    return (run_request){
        list->bytes, list->length, ram_g_length, c->number[WIDTH].value, c->number[HEIGHT].value, c->number[LIMIT].value
    };
}

lent_case lend_case(const test_case *c)
{
    lent_case lent = { .c = c,
                       .list = lend_list(&c->run[THE_LIST], c->number[LIST_CUT].value),
                       .ram_g = lend_bytes(&c->run[THE_RAM_G]) };
    lent.request = request_of(c, &lent.list, lent.ram_g.length);
    return lent;
}

bool take_case_back(lent_case *lent)
{
    bool is_kept =
        is_list_kept(&lent->list, &lent->c->run[THE_LIST]) && are_bytes_kept(&lent->ram_g, &lent->c->run[THE_RAM_G]);
    take_copy_back(&lent->list);
    take_copy_back(&lent->ram_g);
    return is_kept;
}

jv_answer check_by_library(const lent_case *lent)
{
    const run_request *r = &lent->request;
    return jv_check(r->list, r->list_length, lent->ram_g.bytes, r->ram_g_length, r->width, r->height, r->limit);
}
