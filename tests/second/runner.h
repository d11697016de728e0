/* A second program that runs display lists, in plain C. It is written from document 01 and the guide, apart from the
   library, so that a mistake in one shows against the other. */
#ifndef RUNNER_H
#define RUNNER_H

#include <stdbool.h>
#include <stddef.h>
#include <stdint.h>

/* What a run is asked. The bytes of RAM_G decide nothing, only how many there are. */
typedef struct {
    const uint8_t *list;
    size_t list_length, ram_g_length;
    uint32_t width, height, limit;
} run_request;

/* Number, place and count as document 01's number table says. */
typedef struct {
    uint32_t number, place, count;
} run_answer;

/* In pixels. */
typedef struct {
    uint16_t x, y, width, height;
} scissor_box;

typedef struct {
    uint8_t red, green, blue, alpha;
} rgba;

typedef struct {
    uint8_t func, ref;
} alpha_test;

typedef struct {
    uint8_t func, ref, mask;
} stencil_test;

typedef struct {
    uint8_t sfail, spass;
} stencil_actions;

typedef struct {
    uint8_t src, dst;
} blend_factors;

/* Those of the colour are the four low bits of COLOR_MASK: red, green, blue, alpha. */
typedef struct {
    uint8_t colour, stencil, tag;
} write_masks;

/* In sixteenths of a pixel. */
typedef struct {
    int32_t x, y;
} position;

typedef struct {
    position centre;
    uint16_t size;
} point_shape;

typedef struct {
    position low, high;
    uint16_t width;
} rectangle_shape;

/* The ends stay in the order given. `primitive` is LINES or LINE_STRIP: it is one of an action's values. */
typedef struct {
    position from, to;
    uint16_t width;
    uint8_t primitive;
} segment_shape;

typedef struct {
    int32_t left, top; /* in pixels, as are the next two */
    uint16_t width, height;
    uint32_t cell_start;
    uint16_t stride, layout_height;
    uint8_t format;
} bitmap_shape;

typedef enum { CLEARING, A_POINT, A_RECTANGLE, A_SEGMENT, A_BITMAP } action_kind;

/* Document 01, 'An action's values'. The kind says which of the shapes holds; `flags`, the three low bits of CLEAR, is
   CLEAR's alone. For CLEAR `colour` and `tag` are the clear values, and it has no tests, stencil actions or blend.
   What an action does not have is 0. */
typedef struct {
    action_kind kind;
    scissor_box scissor;
    write_masks masks;
    rgba colour;
    uint8_t tag;
    uint8_t flags, clear_stencil;
    alpha_test alpha_test;
    stencil_test stencil_test;
    stencil_actions stencil_actions;
    blend_factors blend;
    point_shape point;
    rectangle_shape rectangle;
    segment_shape segment;
    bitmap_shape bitmap;
} run_action;

/* 'They are compared by value, never by effect.' */
bool are_equal_actions(const run_action *a, const run_action *b);

/* Numbers 1 to 4, then the run. */
run_answer run_list(const run_request *request);

/* The same, and each action is handed to `take` in its turn, along with `taker`. Those before a fault are handed over
   too. */
typedef void take_action(void *taker, const run_action *action);
run_answer run_list_for_actions(const run_request *request, take_action *take, void *taker);

#endif
