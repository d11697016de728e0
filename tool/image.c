#include "image.h"

#include <png.h>
#include <string.h>

#include "jokulvisp.h"
#include "message.h"

static const uint8_t bright[] = { 255, 96, 0 }, dark[] = { 32, 32, 32 };

static bool make_png(png_file *file, png_image *image, const uint8_t *pixels, const uint8_t *palette)
{
    png_alloc_size_t length = sizeof file->bytes;
    if (png_image_write_to_memory(image, file->bytes, &length, 0, pixels, 0, palette) == 0)
        return complain(NULL, "%s", image->message);
    file->length = length;
    return true;
}

bool make_picture(png_file *file, uint32_t width, uint32_t height, const uint8_t *picture)
{
    png_image image = { .version = PNG_IMAGE_VERSION, .width = width, .height = height, .format = PNG_FORMAT_RGB };
    return make_png(file, &image, picture, NULL);
}

/* ---- Tags ---- */

enum { TAGS = 256, HUES = 6 * 256 };

/* A pure colour, by its place on the way from red by yellow, green, cyan, blue and magenta back to red. */
static void set_hue(uint8_t colour[3], unsigned hue)
{
    unsigned sixth = hue / 256, rising = hue % 256, falling = 255 - rising;
    const unsigned red[] = { 255, falling, 0, 0, rising, 255 };
    for (unsigned n = 0; n < 3; n++)
        colour[n] = (uint8_t)red[(sixth + 6 - 2 * n) % 6];
}

/* Makes a colour darker or paler: two thirds of it, with so much grey added. */
static void set_shade(uint8_t colour[3], unsigned grey)
{
    for (unsigned n = 0; n < 3; n++)
        colour[n] = (uint8_t)(colour[n] * 2u / 3 + grey);
}

/* The hues of neighbouring tags lie apart by the golden section of the circle, so that those of the first few tags are
   as different as can be. */
static void set_tag_colour(uint8_t colour[3], unsigned tag)
{
    set_hue(colour, tag * 949 % HUES);
    if (tag % 3 != 1)
        set_shade(colour, tag % 3 == 2 ? 85 : 0);
}

static void make_palette(uint8_t palette[3 * TAGS])
{
    for (unsigned tag = 1; tag < TAGS - 1; tag++)
        set_tag_colour(palette + 3 * (size_t)tag, tag);
    memset(palette, 0, 3);
    memset(palette + 3 * (TAGS - 1), 255, 3);
}

bool make_tags(png_file *file, uint32_t width, uint32_t height, const uint8_t *tags)
{
    uint8_t palette[3 * TAGS];
    png_image image = {
        .version = PNG_IMAGE_VERSION,
        .width = width,
        .height = height,
        .format = PNG_FORMAT_RGB_COLORMAP,
        .colormap_entries = TAGS,
    };
    make_palette(palette);
    return make_png(file, &image, tags, palette);
}

/* ---- Marks ---- */

static void fill_strip(uint8_t *row, const uint8_t colour[3])
{
    for (unsigned n = 0; n < STRIP; n++)
        memcpy(row + 3 * (size_t)n, colour, 3);
}

bool make_marks(png_file *file, uint32_t width, uint32_t height, const uint8_t *picture, const uint8_t *marks)
{
    static uint8_t marked[3 * (STRIP + JV_MAX_WIDTH) * JV_MAX_HEIGHT];
    size_t picture_row = 3 * (size_t)width, marked_row = picture_row + 3 * STRIP;
    for (size_t y = 0; y < height; y++) {
        fill_strip(marked + y * marked_row, marks[y] != 0 ? bright : dark);
        memcpy(marked + y * marked_row + 3 * STRIP, picture + y * picture_row, picture_row);
    }
    return make_picture(file, width + STRIP, height, marked);
}
