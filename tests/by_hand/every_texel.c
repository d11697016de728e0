/* Every texel of two bytes, through the library's pictures: all 65,536 of RGB565 and of ARGB1555, each channel held
   against its field's bits, written one by one: 'Repeat the top bits below'. */
#include <stddef.h>
#include <stdint.h>

#include "../shared/check.h"
#include "../shared/list_words.h"
#include "../shared/tables.h"
#include "hand_pictures.h"
#include "square_pictures.h"

enum { ALPHA = CHANNELS };

/* A bitmap of 256 by 256: the number of a texel is its place. */
static uint8_t ram_g[2 * PIXELS];

static void fill_ram_g(void)
{
    for (size_t n = 0; n < PIXELS; n++) {
        ram_g[2 * n] = (uint8_t)(n % 256);
        ram_g[2 * n + 1] = (uint8_t)(n / 256);
    }
}

/* A field of so many bits, with `low` bits below it. */
typedef struct {
    unsigned low, width;
} field;

typedef struct {
    const char *name;
    uint32_t number;
    field fields[CHANNELS + 1];
} format;

/* Red, green, blue and alpha; a field without bits is all ones. */
static const format formats[] = {
    { "RGB565", RGB565, { { 11, 5 }, { 5, 6 }, { 0, 5 }, { 0, 0 } } },
    { "ARGB1555", ARGB1555, { { 10, 5 }, { 5, 5 }, { 0, 5 }, { 15, 1 } } },
};

static uint32_t widened(uint32_t texel, field f)
{
    uint32_t byte = 0;
    for (unsigned bit = 0; bit < 8; bit++)
        byte = byte << 1 | (f.width == 0 ? 1 : texel >> (f.low + f.width - 1 - bit % f.width) & 1);
    return byte;
}

/* The byte `from` of each pixel of the picture against the channel of its texel. */
static void check_channel(const format *f, size_t channel, size_t from)
{
    for (uint32_t texel = 0; texel < PIXELS; texel++) {
        uint32_t came = picture[CHANNELS * texel + from], wanted = widened(texel, f->fields[channel]);
        CHECK_HOLDS(came == wanted, "%s %04X has %u in channel %zu, not %u", f->name, texel, wanted, channel, came);
    }
}

#define DRAW_ALL(format) BITMAP(format, 2 * SIDE, SIDE, SIDE, SIDE), BLEND_FUNC(ONE, ZERO), VERTEX2II(0, 0, 0, 0)

static void check_format(const format *f)
{
    begin_part(f->name);
    paint(LIST(DRAW_ALL(f->number), DISPLAY()), ram_g, sizeof ram_g);
    for (size_t channel = 0; channel < CHANNELS; channel++)
        check_channel(f, channel, channel);
    paint(LIST(DRAW_ALL(f->number), SHOW_ALPHA, DISPLAY()), ram_g, sizeof ram_g);
    check_channel(f, ALPHA, 0);
}

int main(void)
{
    fill_ram_g();
    for (size_t n = 0; n < LENGTH(formats); n++)
        check_format(&formats[n]);
    return end_checks();
}
