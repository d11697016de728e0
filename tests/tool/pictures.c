/* PNG files that the tool has written, read back row by row as they are, against what the library paints when it is
   called from here.

     pictures show PNG
         prints size, kind and pixels, an index for each pixel where the file has a palette
     pictures draw WIDTH HEIGHT RAM_G LIST PICTURE TAGS
     pictures repaint WIDTH HEIGHT RAM_G OLD NEW PICTURE TAGS MARKS
         compares the files with what jv_paint, or jv_paint and then jv_repaint, make of the list */
#include <inttypes.h>
#include <png.h>
#include <stdint.h>
#include <stdio.h>
#include <stdlib.h>
#include <string.h>

#include "../shared/check.h"
#include "jokulvisp.h"

enum { STRIP = 16, WIDEST = STRIP + JV_MAX_WIDTH, COLOURS = 256 };

/* The bytes of a PNG file's pixels: three of them a pixel, or one where there is a palette. */
typedef struct {
    const char *name;
    uint32_t width, height;
    int depth, kind;
    uint8_t bytes[3 * WIDEST * JV_MAX_HEIGHT];
    png_color palette[COLOURS];
    int colours;
} image;

/* ---- Reading ---- */

static _Noreturn void give_up(const char *name, const char *why)
{
    printf("%s: %s\n", name, why);
    exit(1);
}

static _Noreturn void give_up_png(png_structp png, png_const_charp why)
{
    give_up(png_get_error_ptr(png), why);
}

static size_t row_bytes(const image *i)
{
    return i->kind == PNG_COLOR_TYPE_PALETTE ? i->width : 3 * (size_t)i->width;
}

static void read_palette(image *i, png_structp png, png_infop info)
{
    png_colorp palette = NULL;
    if (png_get_PLTE(png, info, &palette, &i->colours) == 0 || i->colours > COLOURS)
        give_up(i->name, "no palette");
    memcpy(i->palette, palette, (size_t)i->colours * sizeof palette[0]);
}

static void read_head(image *i, png_structp png, png_infop info)
{
    png_read_info(png, info);
    i->width = png_get_image_width(png, info);
    i->height = png_get_image_height(png, info);
    i->depth = png_get_bit_depth(png, info);
    i->kind = png_get_color_type(png, info);
    bool is_known = i->kind == PNG_COLOR_TYPE_RGB || i->kind == PNG_COLOR_TYPE_PALETTE;
    if (!is_known || i->depth != 8 || i->width > WIDEST || i->height > JV_MAX_HEIGHT)
        give_up(i->name, "neither 8-bit RGB nor 8-bit indexed, or too large");
    if (png_get_rowbytes(png, info) != row_bytes(i) || png_get_interlace_type(png, info) != PNG_INTERLACE_NONE)
        give_up(i->name, "rows of another length, or interlaced");
    if (i->kind == PNG_COLOR_TYPE_PALETTE)
        read_palette(i, png, info);
}

static void read_rows(image *i, png_structp png)
{
    for (uint32_t y = 0; y < i->height; y++)
        png_read_row(png, i->bytes + y * row_bytes(i), NULL);
}

static void read_image(image *i, char *name)
{
    i->name = name;
    begin_part(name);
    FILE *file = fopen(name, "rb");
    if (file == NULL)
        give_up(name, "cannot be opened");
    png_structp png = png_create_read_struct(PNG_LIBPNG_VER_STRING, name, give_up_png, give_up_png);
    png_infop info = png_create_info_struct(png);
    png_init_io(png, file);
    read_head(i, png, info);
    read_rows(i, png);
    png_read_end(png, NULL);
    png_destroy_read_struct(&png, &info, NULL);
    CHECK_HOLDS(fgetc(file) == EOF, "it ends with its picture");
    fclose(file);
}

/* ---- Showing ---- */

static void show_row(const image *i, uint32_t y)
{
    bool has_palette = i->kind == PNG_COLOR_TYPE_PALETTE;
    const uint8_t *byte = i->bytes + y * row_bytes(i);
    for (uint32_t x = 0; x < i->width; x++, byte += has_palette ? 1 : 3) {
        fputs(x == 0 ? "" : " ", stdout);
        if (has_palette)
            printf("%u", byte[0]);
        else
            printf("%02X%02X%02X", byte[0], byte[1], byte[2]);
    }
    putchar('\n');
}

static int show(char *name)
{
    static image shown;
    read_image(&shown, name);
    printf("%" PRIu32 " by %" PRIu32 ", %s\n", shown.width, shown.height,
           shown.kind == PNG_COLOR_TYPE_PALETTE ? "indexed" : "RGB");
    for (uint32_t y = 0; y < shown.height; y++)
        show_row(&shown, y);
    return 0;
}

/* ---- Comparing ---- */

static void compare_kind(const image *i, uint32_t width, uint32_t height, int kind)
{
    if (i->width != width || i->height != height || i->kind != kind)
        give_up(i->name, "another size or kind");
}

static void compare_bytes(const image *i, const uint8_t *wanted)
{
    for (size_t n = 0; n < i->height * row_bytes(i); n++)
        CHECK_HOLDS(i->bytes[n] == wanted[n], "byte %zu is %u, not %u", n, wanted[n], i->bytes[n]);
}

static void compare_picture(char *name, uint32_t width, uint32_t height, const uint8_t *picture)
{
    static image came;
    read_image(&came, name);
    compare_kind(&came, width, height, PNG_COLOR_TYPE_RGB);
    compare_bytes(&came, picture);
}

static bool is_colour(png_color c, int red, int green, int blue)
{
    return c.red == red && c.green == green && c.blue == blue;
}

static int distance(png_color a, png_color b)
{
    return abs(a.red - b.red) + abs(a.green - b.green) + abs(a.blue - b.blue);
}

static void compare_colour(const image *i, int colour)
{
    for (int other = 0; other < colour; other++)
        CHECK_HOLDS(distance(i->palette[colour], i->palette[other]) >= 4, "tags %d and %d look different", colour,
                    other);
}

static void compare_palette(const image *i)
{
    CHECK_HOLDS(i->colours == COLOURS, "it has a colour for each tag, not %d", i->colours);
    CHECK_HOLDS(is_colour(i->palette[0], 0, 0, 0), "tag 0 is black");
    CHECK_HOLDS(is_colour(i->palette[COLOURS - 1], 255, 255, 255), "tag 255 is white");
    for (int n = 0; n < i->colours; n++)
        compare_colour(i, n);
}

static void compare_tags(char *name, uint32_t width, uint32_t height, const uint8_t *tags)
{
    static image came;
    read_image(&came, name);
    compare_kind(&came, width, height, PNG_COLOR_TYPE_PALETTE);
    compare_bytes(&came, tags);
    compare_palette(&came);
}

/* ---- Painting ---- */

typedef struct {
    uint8_t bytes[JV_MAX_RAM_G_BYTES];
    size_t length;
} run_of_bytes;

static run_of_bytes ram_g, lists[2];
static uint8_t picture[3 * WIDEST * JV_MAX_HEIGHT], tags[WIDEST * JV_MAX_HEIGHT], marks[JV_MAX_HEIGHT],
    marked[3 * WIDEST * JV_MAX_HEIGHT];

static void read_bytes(run_of_bytes *run, const char *name)
{
    FILE *file = fopen(name, "rb");
    if (file == NULL)
        give_up(name, "cannot be opened");
    run->length = fread(run->bytes, 1, sizeof run->bytes, file);
    fclose(file);
}

static void paint(uint32_t width, uint32_t height)
{
    begin_part("painting");
    size_t pixels = (size_t)width * height;
    jv_answer answer = jv_paint(lists[0].bytes, lists[0].length, ram_g.bytes, ram_g.length, width, height, JV_MAX_LIMIT,
                                picture, 3 * pixels, tags, pixels);
    CHECK_HOLDS(answer.number == JV_DONE, "the list draws");
}

static void repaint(uint32_t width, uint32_t height)
{
    size_t pixels = (size_t)width * height;
    jv_answer answer =
        jv_repaint(lists[0].bytes, lists[0].length, lists[1].bytes, lists[1].length, ram_g.bytes, ram_g.length, width,
                   height, JV_MAX_LIMIT, picture, 3 * pixels, tags, pixels, marks, height);
    CHECK_HOLDS(answer.number == JV_DONE, "both lists draw");
}

static void set_pixel(uint8_t *pixel, const uint8_t colour[3])
{
    memcpy(pixel, colour, 3);
}

/* The picture with its strip, pixel by pixel. */
static void mark(uint32_t width, uint32_t height)
{
    static const uint8_t bright[] = { 255, 96, 0 }, dark[] = { 32, 32, 32 };
    uint32_t wide = width + STRIP;
    for (uint32_t n = 0; n < wide * height; n++) {
        uint32_t x = n % wide, y = n / wide;
        const uint8_t *beside = marks[y] == 1 ? bright : dark;
        set_pixel(marked + 3 * (size_t)n, x < STRIP ? beside : picture + 3 * (size_t)(y * width + x - STRIP));
    }
}

static int compare_draw(char **arguments)
{
    uint32_t width = (uint32_t)atoi(arguments[0]), height = (uint32_t)atoi(arguments[1]);
    read_bytes(&ram_g, arguments[2]);
    read_bytes(&lists[0], arguments[3]);
    paint(width, height);
    compare_picture(arguments[4], width, height, picture);
    compare_tags(arguments[5], width, height, tags);
    return end_checks();
}

static int compare_repaint(char **arguments)
{
    uint32_t width = (uint32_t)atoi(arguments[0]), height = (uint32_t)atoi(arguments[1]);
    read_bytes(&ram_g, arguments[2]);
    read_bytes(&lists[0], arguments[3]);
    read_bytes(&lists[1], arguments[4]);
    paint(width, height);
    repaint(width, height);
    mark(width, height);
    compare_picture(arguments[5], width, height, picture);
    compare_tags(arguments[6], width, height, tags);
    compare_picture(arguments[7], width + STRIP, height, marked);
    return end_checks();
}

int main(int count, char **arguments)
{
    if (count == 3 && strcmp(arguments[1], "show") == 0)
        return show(arguments[2]);
    if (count == 8 && strcmp(arguments[1], "draw") == 0)
        return compare_draw(arguments + 2);
    if (count == 10 && strcmp(arguments[1], "repaint") == 0)
        return compare_repaint(arguments + 2);
    give_up("pictures", "wrong arguments");
}
