#include "bitmap.h"

#include "jokulvisp.h"

static uint64_t cell_bytes(const drawn_bitmap *b)
{
    return (uint64_t)b->bitmap.stride * b->bitmap.layout_height;
}

uint64_t start_of_cell(const drawn_bitmap *b)
{
    return b->bitmap.source + b->cell * cell_bytes(b);
}

uint64_t end_of_cell(const drawn_bitmap *b)
{
    return start_of_cell(b) + cell_bytes(b);
}

bitmap_fault find_bitmap_fault(const drawn_bitmap *b, size_t ram_g_length)
{
    const bitmap_handle *h = &b->bitmap;
    if (!h->has_source || !h->has_layout || !h->has_size)
        return NOT_SET_UP;
    if (h->stride == 0 || h->layout_height == 0 || h->width == 0 || h->height == 0)
        return OF_SIZE_0;
    if (h->format != JV_FORMAT_L8 && (h->source % 2 != 0 || h->stride % 2 != 0))
        return AT_ODD_BYTES;
    return end_of_cell(b) > ram_g_length ? OUTSIDE_RAM_G : NOTHING_WRONG;
}
