#include "follow.h"

#include <string.h>

#include "jokulvisp.h"

/* The part of a context that says which bitmap a vertex draws, and where it lies. */
typedef struct {
    uint32_t handle, cell, frac;
    vertex_place translation;
} context;

/* The vertex format that counts in sixteenths of a pixel, with which a list starts. */
enum { SIXTEENTHS = 4 };

static const context starting_values = { .frac = SIXTEENTHS };

typedef struct {
    context now;
    context kept[JV_MAX_CONTEXTS]; /* earliest first */
    unsigned kept_count;
    uint32_t calls[JV_MAX_CALLS]; /* where each open CALL goes on, outermost first */
    unsigned call_count;
    bitmap_handle handles[JV_HANDLES];
    vertex_place last; /* that of the last vertex */
    uint32_t next;     /* the place of the next word */
} follower;

/* Of five contexts the earliest is lost. */
static void save(follower *f)
{
    if (f->kept_count == JV_MAX_CONTEXTS)
        memmove(&f->kept[0], &f->kept[1], --f->kept_count * sizeof f->kept[0]);
    f->kept[f->kept_count++] = f->now;
}

/* Where none is kept, the starting values come back. */
static void restore(follower *f)
{
    f->now = f->kept_count > 0 ? f->kept[--f->kept_count] : starting_values;
}

static void call(follower *f, uint32_t target)
{
    if (f->call_count < JV_MAX_CALLS)
        f->calls[f->call_count++] = f->next;
    f->next = target;
}

static void return_from_call(follower *f)
{
    if (f->call_count > 0)
        f->next = f->calls[--f->call_count];
}

/* Puts `low` into the lowest bits, so many of them, and leaves those above. */
static uint32_t with_low_bits(uint32_t number, uint32_t low, unsigned bits)
{
    return number >> bits << bits | low;
}

/* Puts `high` above the lowest bits, and leaves these. */
static uint32_t with_high_bits(uint32_t number, uint32_t high, unsigned bits)
{
    return high << bits | (number & ((UINT32_C(1) << bits) - 1));
}

static void set_layout(bitmap_handle *h, jv_word word)
{
    h->has_layout = true;
    h->format = word.a;
    h->stride = with_low_bits(h->stride, word.b, 10);
    h->layout_height = with_low_bits(h->layout_height, word.c, 9);
}

static void set_size(bitmap_handle *h, jv_word word)
{
    h->has_size = true;
    h->width = with_low_bits(h->width, word.d, 9);
    h->height = with_low_bits(h->height, word.e, 9);
}

static void set_handle(bitmap_handle *h, jv_word word)
{
    switch (word.command) {
    case JV_BITMAP_SOURCE:
        h->has_source = true;
        h->source = word.a;
        break;
    case JV_BITMAP_LAYOUT:
        set_layout(h, word);
        break;
    case JV_BITMAP_LAYOUT_H:
        h->stride = with_high_bits(h->stride, word.a, 10);
        h->layout_height = with_high_bits(h->layout_height, word.b, 9);
        break;
    case JV_BITMAP_SIZE:
        set_size(h, word);
        break;
    case JV_BITMAP_SIZE_H:
        h->width = with_high_bits(h->width, word.a, 9);
        h->height = with_high_bits(h->height, word.b, 9);
        break;
    default:
        break;
    }
}

/* A VERTEX2F counts in the unit of its format, a VERTEX2II in pixels. */
static vertex_place place_of(const context *now, jv_word vertex)
{
    int32_t unit = vertex.command == JV_VERTEX2F ? 1 << (SIXTEENTHS - now->frac) : 16;
    return (vertex_place){ (int32_t)vertex.a * unit + now->translation.x,
                           (int32_t)vertex.b * unit + now->translation.y };
}

static void take_word(follower *f, jv_word word)
{
    f->next += 4;
    switch (word.command) {
    case JV_BITMAP_HANDLE:
        f->now.handle = word.a;
        break;
    case JV_CELL:
        f->now.cell = word.a;
        break;
    case JV_VERTEX_FORMAT:
        f->now.frac = word.a;
        break;
    case JV_VERTEX_TRANSLATE_X:
        f->now.translation.x = (int32_t)word.a;
        break;
    case JV_VERTEX_TRANSLATE_Y:
        f->now.translation.y = (int32_t)word.a;
        break;
    case JV_VERTEX2F:
    case JV_VERTEX2II:
        f->last = place_of(&f->now, word);
        break;
    case JV_SAVE_CONTEXT:
        save(f);
        break;
    case JV_RESTORE_CONTEXT:
        restore(f);
        break;
    case JV_CALL:
        call(f, word.a);
        break;
    case JV_JUMP:
        f->next = word.a;
        break;
    case JV_RETURN:
        return_from_call(f);
        break;
    default:
        set_handle(&f->handles[f->now.handle], word);
    }
}

followed_vertex follow_to_vertex(const display_list *list, uint32_t place, uint32_t count)
{
    follower f = { .now = starting_values };
    for (uint32_t n = 1; n < count && f.next < list->length; n++)
        take_word(&f, jv_read_word(word_at(list, f.next)));
    jv_word vertex = jv_read_word(word_at(list, place));
    bool names_bitmap = vertex.command == JV_VERTEX2II;
    uint32_t handle = names_bitmap ? vertex.c : f.now.handle, cell = names_bitmap ? vertex.d : f.now.cell;
    return (followed_vertex){ { handle, cell, f.handles[handle] }, f.last, place_of(&f.now, vertex) };
}
