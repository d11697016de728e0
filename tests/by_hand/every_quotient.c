/* Everything that the library divides by 255, through its pictures: all 65,536 products of a texel's byte and a
   colour's, and every number that a blend's S*f + D*g can be. What has to come is worked out by dividing.

   Products are told by the alpha channel, the only one in which a texel can have any byte, and sums by red, green and
   blue. All four channels go through the same two functions. */
#include <stdbool.h>
#include <stddef.h>
#include <stdint.h>
#include <string.h>

#include "../shared/check.h"
#include "../shared/list_words.h"
#include "../shared/tables.h"
#include "hand_pictures.h"
#include "jokulvisp.h"
#include "square_pictures.h"

enum { LARGEST_PRODUCT = 255 * 255, LARGEST_SUM = 2 * LARGEST_PRODUCT, MOST_WORDS = JV_MAX_LIST_BYTES / 4 };

/* Two L8 bitmaps of 256 by 256: in cell 0 the byte of a texel is its column, in cell 1 its line. */
enum { ACROSS, DOWN, CELLS };
static uint8_t ram_g[CELLS * PIXELS];

static void fill_ram_g(void)
{
    for (size_t n = 0; n < PIXELS; n++) {
        ram_g[ACROSS * PIXELS + n] = (uint8_t)(n % SIDE);
        ram_g[DOWN * PIXELS + n] = (uint8_t)(n / SIDE);
    }
}

#define SQUARE_BITMAP BITMAP(L8, SIDE, SIDE, SIDE, SIDE)
#define LINE_BITMAP BITMAP(L8, SIDE, 1, SIDE, 1)

/* '(.. + 127) divided by 255, rounded down, at most 255' */
static uint32_t quotient_of(uint32_t n)
{
    uint32_t quotient = (n + 127) / 255;
    return quotient < 255 ? quotient : 255;
}

/* ---- Products ---- */

static size_t add_words(uint32_t *words, size_t count, const uint32_t *added, size_t added_count)
{
    memcpy(words + count, added, added_count * sizeof *words);
    return count + added_count;
}

/* Row y is a line of texels with the alphas 0 to 255, drawn with alpha y. */
static void check_products(void)
{
    begin_part("every product");
    static uint32_t words[MOST_WORDS];
    size_t count = add_words(words, 0, LIST(LINE_BITMAP, BLEND_FUNC(ONE, ZERO)));
    for (uint32_t y = 0; y < SIDE; y++)
        count = add_words(words, count, LIST(COLOR_A(y), VERTEX2II(0, y, 0, 0)));
    count = add_words(words, count, LIST(SHOW_ALPHA, DISPLAY()));
    paint(words, count, ram_g, sizeof ram_g);
    for (uint32_t texel = 0; texel < SIDE; texel++)
        for (uint32_t colour = 0; colour < SIDE; colour++) {
            uint32_t came = picture[CHANNELS * (colour * SIDE + texel)], wanted = quotient_of(texel * colour);
            CHECK_HOLDS(came == wanted, "%u times %u is %u, not %u", texel, colour, wanted, came);
        }
}

/* ---- Sums ---- */

/* What is drawn, S, and what it is drawn on, D. */
typedef struct {
    uint8_t drawn, stored;
} colour_pair;

static bool is_met[LARGEST_SUM + 1];

/* One pair a channel. The factor of what is drawn is its alpha, 0 to 255 down the picture; that of what is stored is
   the stored alpha, 0 to 255 across it. */
static void check_sums_of(const colour_pair pairs[CHANNELS])
{
    const uint32_t words[] = {
        SQUARE_BITMAP,
        BLEND_FUNC(ONE, ZERO),
        COLOR_RGB(pairs[0].stored, pairs[1].stored, pairs[2].stored),
        VERTEX2II(0, 0, 0, ACROSS),
        BLEND_FUNC(SRC_ALPHA, DST_ALPHA),
        COLOR_RGB(pairs[0].drawn, pairs[1].drawn, pairs[2].drawn),
        VERTEX2II(0, 0, 0, DOWN),
        DISPLAY(),
    };
    paint(words, LENGTH(words), ram_g, sizeof ram_g);
    for (uint32_t n = 0; n < sizeof picture; n++) {
        uint32_t s = pairs[n % CHANNELS].drawn, d = pairs[n % CHANNELS].stored;
        uint32_t f = n / CHANNELS / SIDE, g = n / CHANNELS % SIDE;
        uint32_t came = picture[n], wanted = quotient_of(s * f + d * g);
        is_met[s * f + d * g] = true;
        CHECK_HOLDS(came == wanted, "%u * %u + %u * %u blends to %u, not %u", s, f, d, g, wanted, came);
    }
}

enum { FROM = 240, CLOSE_PAIRS = (256 - FROM) * (257 - FROM) / 2, PAIRS = (1 + CLOSE_PAIRS + 2) / CHANNELS * CHANNELS };

/* 255 and 1 make every number up to 65,280; two bytes from 240 on, the larger one drawn, make what is above. */
static void gather_pairs(colour_pair pairs[PAIRS])
{
    size_t count = 0;
    pairs[count++] = (colour_pair){ 255, 1 };
    for (int drawn = FROM; drawn < 256; drawn++)
        for (int stored = FROM; stored <= drawn; stored++)
            pairs[count++] = (colour_pair){ (uint8_t)drawn, (uint8_t)stored };
    for (; count < PAIRS; count++)
        pairs[count] = pairs[0];
}

/* Which numbers are the sum of two products of bytes. */
static void find_sums(bool is_sum[LARGEST_SUM + 1])
{
    static bool is_product[LARGEST_PRODUCT + 1];
    static uint32_t products[LARGEST_PRODUCT + 1];
    size_t count = 0;
    for (uint32_t a = 0; a < 256; a++)
        for (uint32_t b = 0; b < 256; b++)
            is_product[a * b] = true;
    for (uint32_t n = 0; n <= LARGEST_PRODUCT; n++)
        if (is_product[n])
            products[count++] = n;
    for (size_t m = 0; m < count; m++)
        for (size_t n = 0; n <= m; n++)
            is_sum[products[m] + products[n]] = true;
}

static void check_sums(void)
{
    begin_part("every sum of the blend");
    static colour_pair pairs[PAIRS];
    static bool is_sum[LARGEST_SUM + 1];
    gather_pairs(pairs);
    for (size_t n = 0; n < PAIRS; n += CHANNELS)
        check_sums_of(pairs + n);
    find_sums(is_sum);
    for (uint32_t n = 0; n <= LARGEST_SUM; n++)
        CHECK_HOLDS(is_met[n] == is_sum[n], "no picture has the sum %u", n);
}

int main(void)
{
    fill_ram_g();
    check_products();
    check_sums();
    return end_checks();
}
