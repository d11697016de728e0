/* Why the bitmap of a vertex cannot be drawn. */
#ifndef BITMAP_H
#define BITMAP_H

#include <stdbool.h>
#include <stddef.h>
#include <stdint.h>

/* In the order in which they are looked for; the first is told. */
typedef enum { NOT_SET_UP, OF_SIZE_0, AT_ODD_BYTES, OUTSIDE_RAM_G, NOTHING_WRONG } bitmap_fault;

/* What the run has set of a handle. Main words and H words write into the same numbers, each its own bits. */
typedef struct {
    uint32_t source, format, stride, layout_height, width, height;
    bool has_source, has_layout, has_size;
} bitmap_handle;

typedef struct {
    uint32_t handle, cell; /* their numbers */
    bitmap_handle bitmap;
} drawn_bitmap;

/* Where in RAM_G the cell starts and ends. */
uint64_t start_of_cell(const drawn_bitmap *b);
uint64_t end_of_cell(const drawn_bitmap *b);

bitmap_fault find_bitmap_fault(const drawn_bitmap *b, size_t ram_g_length);

#endif
