/* Measures how much stack each call takes. A thread that lies on a run of one byte value makes the call; what is no
 * longer that value below the caller's frame is what the call took. Arguments are calls and the most bytes that each
 * may take, as docs/USING.md has them; the exit status is 1 where one takes more. */
#define _POSIX_C_SOURCE 200809L

#include <pthread.h>
#include <stdbool.h>
#include <stdint.h>
#include <stdio.h>
#include <stdlib.h>
#include <string.h>

#include "jokulvisp.h"

enum { WIDTH = 8, HEIGHT = 8, STACK_LENGTH = 1 << 20 };

/* What the stack holds before the call, and how much below the caller's frame is left to memset itself. */
enum { UNTOUCHED = 0xA5, MARGIN = 1024 };

static _Alignas(4096) uint8_t stack[STACK_LENGTH];
static uint8_t old_list[JV_MAX_LIST_BYTES], new_list[JV_MAX_LIST_BYTES];
static size_t list_length;
static uint8_t picture[3 * WIDTH * HEIGHT], tags[WIDTH * HEIGHT], marks[HEIGHT];
static uint8_t ring[JV_RING_BYTES], ram_dl[JV_RAM_DL_BYTES], shown[JV_RAM_DL_BYTES], ram_g[64];

static void put_word(uint8_t *bytes, size_t at, uint32_t bits)
{
    for (size_t n = 0; n < 4; n++)
        bytes[at + n] = (uint8_t)(bits >> 8 * n);
}

/* The first half are points, the rest is a strip. Of the longest lists the painter keeps none for good, and runs the list
   again for each row; of half as long ones it keeps all. */
static const size_t list_lengths[] = { JV_MAX_LIST_BYTES / 2, JV_MAX_LIST_BYTES };

static void make_list(uint8_t *list, uint32_t size)
{
    put_word(list, 0, jv_write_word(JV_POINT_SIZE, size, 0, 0, 0, 0).bits);
    put_word(list, 4, jv_write_word(JV_LINE_WIDTH, size, 0, 0, 0, 0).bits);
    for (size_t at = 8; at < list_length - 4; at += 4)
        put_word(list, at, jv_write_word(JV_VERTEX2II, at / 4 % WIDTH, 1, 0, 0, 0).bits);
    put_word(list, 8, jv_write_word(JV_BEGIN, JV_PRIMITIVE_POINTS, 0, 0, 0, 0).bits);
    put_word(list, list_length / 2, jv_write_word(JV_BEGIN, JV_PRIMITIVE_LINE_STRIP, 0, 0, 0, 0).bits);
    put_word(list, list_length - 4, jv_write_word(JV_DISPLAY, 0, 0, 0, 0, 0).bits);
}

static void read_word(void)
{
    jv_read_word(0x9B86EFD4);
}

static void write_word(void)
{
    jv_write_word(JV_BITMAP_SIZE, 0, 0, 0, 100, 100);
}

static void check(void)
{
    jv_check(old_list, list_length, NULL, 0, WIDTH, HEIGHT, JV_MAX_LIMIT);
}

static void paint(void)
{
    jv_paint(old_list, list_length, NULL, 0, WIDTH, HEIGHT, JV_MAX_LIMIT, picture, sizeof picture, tags, sizeof tags);
}

static void paint_row(void)
{
    jv_paint_row(old_list, list_length, NULL, 0, WIDTH, HEIGHT, 1, JV_MAX_LIMIT, picture, 3 * WIDTH, tags, WIDTH);
}

static void repaint(void)
{
    jv_repaint(old_list, list_length, new_list, list_length, NULL, 0, WIDTH, HEIGHT, JV_MAX_LIMIT, picture,
               sizeof picture, tags, sizeof tags, marks, sizeof marks);
}

static const uint32_t ring_words[] = {
    0xFFFFFF1B, 0, 7,  64, /* MEMSET */
    0xFFFFFF1D, 1, 0,  8,  /* MEMCPY */
    0xFFFFFF1E, 0, 64,     /* APPEND */
    0xFFFFFF01             /* SWAP */
};

static void run_ring(void)
{
    for (size_t n = 0; n < sizeof ring_words / sizeof ring_words[0]; n++)
        put_word(ring, 4 * n, ring_words[n]);
    jv_ring_run(ring, sizeof ring, ram_dl, sizeof ram_dl, shown, sizeof shown, ram_g, sizeof ram_g, 0,
                sizeof ring_words, 0, 0);
}

static void write_ring(void)
{
    jv_ring_write(ring, sizeof ring, old_list, JV_MAX_WAITING, JV_RING_BYTES / 2, JV_RING_BYTES / 2, 0, 0);
}

static void reset_ring(void)
{
    jv_ring_reset();
}

static const struct {
    const char *name;
    void (*make)(void);
} calls[] = {
    { "jv_read_word", read_word }, { "jv_write_word", write_word }, { "jv_check", check },
    { "jv_paint", paint },         { "jv_paint_row", paint_row },   { "jv_repaint", repaint },
    { "jv_ring_run", run_ring },   { "jv_ring_write", write_ring }, { "jv_ring_reset", reset_ring },
};

typedef struct {
    void (*make)(void);
    size_t taken;
} measure;

static size_t untouched_bytes(void)
{
    size_t n = 0;
    while (n < STACK_LENGTH && stack[n] == UNTOUCHED)
        n++;
    return n;
}

/* The call is made twice, since the first one of a program may have the dynamic linker look for memcpy and memset, on
   the same stack. */
static void *measure_call(void *given)
{
    measure *m = given;
    size_t below = (size_t)((uint8_t *)__builtin_frame_address(0) - stack);
    m->make();
    memset(stack, UNTOUCHED, below - MARGIN);
    m->make();
    m->taken = below - untouched_bytes();
    return NULL;
}

static void run_on_stack(measure *m)
{
    pthread_attr_t attributes;
    pthread_t thread;
    if (pthread_attr_init(&attributes) != 0 || pthread_attr_setstack(&attributes, stack, STACK_LENGTH) != 0 ||
        pthread_create(&thread, &attributes, measure_call, m) != 0 || pthread_join(thread, NULL) != 0) {
        fputs("no thread can be had\n", stderr);
        exit(2);
    }
}

/* Over the lists of either length. */
static size_t take(void (*make)(void))
{
    size_t most = 0;
    for (size_t n = 0; n < sizeof list_lengths / sizeof list_lengths[0]; n++) {
        measure m = { make, 0 };
        list_length = list_lengths[n];
        make_list(old_list, 16);
        make_list(new_list, 32);
        run_on_stack(&m);
        most = m.taken > most ? m.taken : most;
    }
    return most;
}

static bool takes_at_most(const char *name, size_t most)
{
    size_t n = 0;
    while (n < sizeof calls / sizeof calls[0] && strcmp(calls[n].name, name) != 0)
        n++;
    if (n == sizeof calls / sizeof calls[0]) {
        printf("%s is no call\n", name);
        return false;
    }
    size_t taken = take(calls[n].make);
    printf("%s takes %zu bytes%s, and may take %zu\n", name, taken, taken == MARGIN ? " or less" : "", most);
    return taken <= most;
}

int main(int count, char **arguments)
{
    bool all_hold = true;
    for (int n = 1; n + 1 < count; n += 2)
        all_hold = takes_at_most(arguments[n], strtoul(arguments[n + 1], NULL, 10)) && all_hold;
    return all_hold ? 0 : 1;
}
