/* Pictures as PNG files. */
#ifndef IMAGE_H
#define IMAGE_H

#include <stdbool.h>
#include <stddef.h>
#include <stdint.h>

/* STRIP is in pixels. There is room for the largest picture with the strip, and for what compression can add to bytes
   that it cannot make fewer. */
enum { STRIP = 16, MOST_PNG_BYTES = 1 << 21 };

typedef struct {
    size_t length;
    uint8_t bytes[MOST_PNG_BYTES];
} png_file;

/* Each of these makes a whole PNG file. If that is not possible, says so on standard error and returns false. */

/* Three bytes a pixel: red, green and blue. */
bool make_picture(png_file *file, uint32_t width, uint32_t height, const uint8_t *picture);

/* One byte a pixel, its tag, which is also its index into a palette: tag 0 is black, 255 white, and each other one has
   a colour of its own. */
bool make_tags(png_file *file, uint32_t width, uint32_t height, const uint8_t *tags);

/* The picture, and left of it a strip, bright beside the rows that have a mark and dark beside the others. */
bool make_marks(png_file *file, uint32_t width, uint32_t height, const uint8_t *picture, const uint8_t *marks);

#endif
