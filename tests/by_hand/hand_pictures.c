#include "hand_pictures.h"

#include <stdio.h>
#include <stdlib.h>
#include <string.h>

#include "../shared/check.h"
#include "../shared/list_check.h"

static const legend_entry always_known[] = { { '.', { 0, 0, 0, 0 } }, { '#', { 255, 255, 255, 255 } } };

static const legend_entry *find_sign(const legend_entry *legend, size_t count, char sign)
{
    for (size_t n = 0; n < count; n++)
        if (legend[n].sign == sign)
            return &legend[n];
    return NULL;
}

static shown_pixel meaning_of(const hand_picture *h, char sign)
{
    const legend_entry *found = find_sign(h->legend, h->legend_count, sign);
    if (found == NULL)
        found = find_sign(always_known, LENGTH(always_known), sign);
    if (found == NULL) {
        printf("line %d: %s: '%c' stands for nothing\n", h->line, h->name, sign);
        exit(1);
    }
    return found->pixel;
}

size_t width_of(const hand_picture *h)
{
    return strlen(h->rows[0]);
}

static shown_pixel wanted_pixel(const hand_picture *h, size_t x, size_t y)
{
    char sign = h->rows[y][x];
    return sign == AS_LENT ? lent_pixel_at(y * width_of(h) + x) : meaning_of(h, sign);
}

static char sign_of(const legend_entry *legend, size_t count, shown_pixel p)
{
    for (size_t n = 0; n < count; n++)
        if (are_equal_pixels(legend[n].pixel, p))
            return legend[n].sign;
    return '?';
}

static char sign_of_pixel(const hand_picture *h, shown_pixel p, shown_pixel lent)
{
    char sign = sign_of(h->legend, h->legend_count, p);
    if (sign == '?')
        sign = sign_of(always_known, LENGTH(always_known), p);
    return sign == '?' && are_equal_pixels(p, lent) ? AS_LENT : sign;
}

/* ---- What came ---- */

static size_t place_of(const hand_picture *h, const came_rows *came, size_t x, size_t y)
{
    return (y - came->first) * width_of(h) + x;
}

static shown_pixel came_pixel(const hand_picture *h, const came_rows *came, size_t x, size_t y)
{
    return pixel_at(came->runs->picture, came->runs->tags, place_of(h, came, x, y));
}

static void print_first_difference(const hand_picture *h, const came_rows *came)
{
    for (size_t y = came->first; y < came->first + came->count; y++)
        for (size_t x = 0; x < width_of(h); x++) {
            shown_pixel c = came_pixel(h, came, x, y), wanted = wanted_pixel(h, x, y);
            if (are_equal_pixels(c, wanted))
                continue;
            printf("    first at column %zu, row %zu\n", x, y);
            print_pixel("came:  ", c);
            print_pixel("wanted:", wanted);
            return;
        }
}

void print_rows(const hand_picture *h, const came_rows *came)
{
    print_first_difference(h, came);
    puts("    rows as they came, and as wanted ('?' is no sign of this picture, '~' was not written):");
    for (size_t y = came->first; y < came->first + came->count; y++) {
        printf("      ");
        for (size_t x = 0; x < width_of(h); x++)
            putchar(sign_of_pixel(h, came_pixel(h, came, x, y), lent_pixel_at(place_of(h, came, x, y))));
        printf("   %s\n", h->rows[y]);
    }
}

bool are_rows_as_wanted(const hand_picture *h, const came_rows *came)
{
    for (size_t y = came->first; y < came->first + came->count; y++)
        for (size_t x = 0; x < width_of(h); x++)
            if (!are_equal_pixels(came_pixel(h, came, x, y), wanted_pixel(h, x, y)))
                return false;
    return true;
}

static void check_rows(const char *file, const hand_picture *h, const run_request *run, const came_rows *came)
{
    jv_answer wanted = { 0, 0, 0, (uint32_t)h->count };
    bool is_answered = are_equal_answers(came->answer, wanted);
    bool is_right = is_answered && are_rows_as_wanted(h, came) && is_kept_inside(came->runs);
    if (!is_to_be_told(file, h->line, is_right))
        return;
    printf("%s, by %s\n", h->name, came->call);
    print_request(run);
    if (!is_answered) {
        print_answer("came:  ", came->answer);
        print_answer("wanted:", wanted);
        return;
    }
    if (!is_kept_inside(came->runs))
        puts("    bytes beside the lent runs were written");
    print_rows(h, came);
}

static void check_frame(const char *file, const hand_picture *h, const painter *p, const run_request *run,
                        const uint8_t *ram_g)
{
    size_t pixels = width_of(h) * h->height;
    lent_runs runs = lend(3 * pixels, pixels);
    paint_request request = lending(run, ram_g, &runs);
    came_rows came = { p->frame_call, p->paint(&request), &runs, 0, h->height };
    check_rows(file, h, run, &came);
    take_back(&runs);
}

static void check_row(const char *file, const hand_picture *h, const painter *p, const run_request *run,
                      const uint8_t *ram_g, uint32_t row)
{
    lent_runs runs = lend(3 * width_of(h), width_of(h));
    paint_request request = lending(run, ram_g, &runs);
    came_rows came = { p->row_call, p->paint_row(&request, row), &runs, row, 1 };
    check_rows(file, h, run, &came);
    take_back(&runs);
}

bool are_equal_bytes(const uint8_t *a, const uint8_t *b, size_t length)
{
    return length == 0 || memcmp(a, b, length) == 0;
}

void check_picture(const char *file, const hand_picture *h)
{
    static uint8_t bytes[JV_MAX_LIST_BYTES];
    put_words(bytes, h->words, h->count);
    uint8_t *list = copied(bytes, 4 * h->count), *ram_g = copied(h->ram_g, h->ram_g_length);
    uint32_t count = (uint32_t)h->count;
    run_request run = { list, 4 * h->count, h->ram_g_length, (uint32_t)width_of(h), (uint32_t)h->height, count };
    const painter *const painters[] = { &library, &second_program };
    for (size_t n = 0; n < LENGTH(painters); n++) {
        check_frame(file, h, painters[n], &run, ram_g);
        for (uint32_t row = 0; row < h->height; row++)
            check_row(file, h, painters[n], &run, ram_g, row);
    }
    bool is_read_only = are_equal_bytes(list, bytes, 4 * h->count) && are_equal_bytes(ram_g, h->ram_g, h->ram_g_length);
    check_holds(file, h->line, is_read_only, "list and RAM_G are as they were");
    free(list);
    free(ram_g);
}

void check_pictures(const char *file, const char *part, const hand_picture *table, size_t count)
{
    begin_part(part);
    for (const hand_picture *h = table; h < table + count; h++)
        check_picture(file, h);
}
