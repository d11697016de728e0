#include "lists.h"

#include <string.h>

#include "../tests/shared/list_words.h"

/* ---- Setters ---- */

enum { SETTERS = 28 };

/* The values go with n, so that the same command comes with many of them. */
static uint32_t setter(uint32_t n)
{
    uint32_t turn = n / SETTERS;
    switch (n % SETTERS) {
    case 0:
        return CLEAR_COLOR_RGB(turn, 2 * turn, 3 * turn);
    case 1:
        return TAG(turn);
    case 2:
        return COLOR_RGB(3 * turn, 2 * turn, turn);
    case 3:
        return BITMAP_HANDLE(turn);
    case 4:
        return CELL(turn);
    case 5:
        return BITMAP_SOURCE(1024 * turn);
    case 6:
        return BITMAP_LAYOUT(turn % 2 == 0 ? L8 : RGB565, 8 * turn, turn);
    case 7:
        return BITMAP_LAYOUT_H(turn, turn / 4);
    case 8:
        return BITMAP_SIZE(0, 0, 0, 5 * turn, 3 * turn);
    case 9:
        return BITMAP_SIZE_H(turn / 4, turn);
    case 10:
        return ALPHA_FUNC(turn, 5 * turn);
    case 11:
        return STENCIL_FUNC(turn % 8, turn, 7 * turn);
    case 12:
        return BLEND_FUNC(turn % 6, turn / 6 % 6);
    case 13:
        return STENCIL_OP(turn / 6 % 6, turn % 6);
    case 14:
        return POINT_SIZE(100 * turn);
    case 15:
        return LINE_WIDTH(50 * turn);
    case 16:
        return CLEAR_COLOR_A(turn);
    case 17:
        return COLOR_A(turn);
    case 18:
        return CLEAR_STENCIL(turn);
    case 19:
        return CLEAR_TAG(turn);
    case 20:
        return STENCIL_MASK(turn);
    case 21:
        return TAG_MASK(turn);
    case 22:
        return SCISSOR_XY(10 * turn, 5 * turn);
    case 23:
        return SCISSOR_SIZE(20 * turn, 10 * turn);
    case 24:
        return COLOR_MASK(turn / 8, turn / 4, turn / 2, turn);
    case 25:
        return VERTEX_FORMAT(turn % 5);
    case 26:
        return VERTEX_TRANSLATE_X(64 - 16 * turn);
    default:
        return VERTEX_TRANSLATE_Y(16 * turn - 64);
    }
}

static size_t write_setters(uint32_t *words)
{
    for (uint32_t n = 0; n < MOST_WORDS - 1; n++)
        words[n] = setter(n);
    words[MOST_WORDS - 1] = DISPLAY();
    return MOST_WORDS;
}

/* ---- Vertices ---- */

enum { HANDLES = 4, VERTICES_IN_A_GROUP = 60 };

/* Cells 0 to 7 of each handle lie in RAM_G. */
static size_t write_bitmap_settings(uint32_t *words)
{
    size_t count = 0;
    for (uint32_t handle = 0; handle < HANDLES; handle++) {
        words[count++] = BITMAP_HANDLE(handle);
        words[count++] = BITMAP_SOURCE(8192 * handle);
        words[count++] = BITMAP_LAYOUT(handle % 2 == 0 ? L8 : RGB565, 32, 32);
        words[count++] = BITMAP_SIZE(0, 0, 0, 16, 32);
    }
    return count;
}

static uint32_t vertex(uint32_t n)
{
    if (n % 2 == 0)
        return VERTEX2F(16 * (n % 480), 16 * (n % 272));
    return VERTEX2II(n % 480, n % 272, n / 2 % HANDLES, n / 8 % 8);
}

static size_t write_vertices(uint32_t *words)
{
    static const uint32_t primitives[] = { POINTS, RECTS, BITMAPS };
    size_t count = write_bitmap_settings(words);
    for (uint32_t group = 0; count + VERTICES_IN_A_GROUP + 2 < MOST_WORDS; group++) {
        words[count++] = BEGIN(primitives[group % 3]);
        for (uint32_t n = 0; n < VERTICES_IN_A_GROUP; n++)
            words[count++] = vertex(n);
        words[count++] = END();
    }
    words[count++] = DISPLAY();
    return count;
}

/* ---- Calls and saves ---- */

enum { WORDS_IN_A_UNIT = 5 };

/* Four stretches that call each other, at the list's end. Gives where the outermost starts. */
static uint32_t write_stretches(uint32_t *words, size_t *count)
{
    uint32_t innermost = 4 * (uint32_t)*count;
    words[(*count)++] = RETURN();

    uint32_t inner = 4 * (uint32_t)*count;
    words[(*count)++] = SAVE_CONTEXT();
    words[(*count)++] = CALL(innermost);
    words[(*count)++] = RESTORE_CONTEXT();
    words[(*count)++] = RETURN();

    uint32_t outer = 4 * (uint32_t)*count;
    words[(*count)++] = CALL(inner);
    words[(*count)++] = JUMP(outer + 8);
    words[(*count)++] = RETURN();

    uint32_t outermost = 4 * (uint32_t)*count;
    words[(*count)++] = SAVE_CONTEXT();
    words[(*count)++] = CALL(outer);
    words[(*count)++] = RESTORE_CONTEXT();
    words[(*count)++] = RETURN();
    return outermost;
}

/* A jump past the stretches, then one unit after another, each of which calls and jumps over its own fourth word. */
static size_t write_calls(uint32_t *words)
{
    size_t count = 1;
    uint32_t stretch = write_stretches(words, &count);
    words[0] = JUMP(4 * (uint32_t)count);
    while (count + WORDS_IN_A_UNIT < MOST_WORDS) {
        words[count++] = SAVE_CONTEXT();
        words[count++] = CALL(stretch);
        words[count] = JUMP(4 * ((uint32_t)count + 2));
        count++;
        words[count++] = NOP();
        words[count++] = RESTORE_CONTEXT();
    }
    words[count++] = DISPLAY();
    return count;
}

size_t write_list(const char *name, uint32_t words[MOST_WORDS])
{
    if (strcmp(name, "setters") == 0)
        return write_setters(words);
    if (strcmp(name, "vertices") == 0)
        return write_vertices(words);
    if (strcmp(name, "calls") == 0)
        return write_calls(words);
    return 0;
}
