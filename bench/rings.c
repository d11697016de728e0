#include "rings.h"

#include <inttypes.h>
#include <stdbool.h>
#include <stdint.h>
#include <stdio.h>
#include <string.h>

#include "../tests/second/ringer.h"
#include "../tests/shared/ring_words.h"
#include "jokulvisp.h"

enum { RAM_G_BYTES = 65536, MOST_WORDS = JV_MAX_WAITING / 4, TIMES_MANY_BYTES = 4 };

static uint8_t ring[JV_RING_BYTES], ram_dl[JV_RAM_DL_BYTES], shown[JV_RAM_DL_BYTES], ram_g[RAM_G_BYTES];
static uint8_t host_words[4 * MOST_WORDS];

/* A ring being written, and how many things there are in it. */
typedef struct {
    uint32_t words[MOST_WORDS];
    uint32_t count, things;
} draft;

static void put(draft *d, const uint32_t *words, uint32_t count)
{
    memcpy(&d->words[d->count], words, count * sizeof words[0]);
    d->count += count;
}

#define PUT(d, ...)                                                                                                    \
    put(d, (const uint32_t[]){ __VA_ARGS__ }, sizeof((const uint32_t[]){ __VA_ARGS__ }) / sizeof(uint32_t))

/* ---- The rings ---- */

static void write_words(draft *d)
{
    while (d->count < MOST_WORDS)
        PUT(d, 0x04000000 + 0x00010203 * d->count);
    d->things = d->count;
}

static void write_small(draft *d)
{
    enum { WORDS_IN_A_GROUP = 18, COMMANDS_IN_A_GROUP = 8 };
    for (uint32_t n = 0; d->count + WORDS_IN_A_GROUP <= MOST_WORDS; n += 8) {
        PUT(d, DLSTART(), COLDSTART(), 0x26000007, 0x1F000002);
        PUT(d, MEMSET(n, n, 8), MEMZERO(1000 + n, 8), MEMCPY(2000 + n, n, 8), APPEND(2000 + n, 8));
        d->things += COMMANDS_IN_A_GROUP;
    }
}

static void write_memset(draft *d)
{
    for (uint32_t n = 0; n < TIMES_MANY_BYTES; n++) {
        PUT(d, MEMSET(0, n, RAM_G_BYTES));
        d->things += RAM_G_BYTES;
    }
}

static void write_copies(draft *d, uint32_t target, uint32_t source)
{
    for (uint32_t n = 0; n < TIMES_MANY_BYTES; n++) {
        PUT(d, MEMCPY(target, source, RAM_G_BYTES - 16));
        d->things += RAM_G_BYTES - 16;
    }
}

static void write_up(draft *d)
{
    write_copies(d, 16, 0);
}

static void write_down(draft *d)
{
    write_copies(d, 0, 16);
}

static void write_append(draft *d)
{
    for (uint32_t n = 0; n < TIMES_MANY_BYTES; n++) {
        PUT(d, DLSTART(), APPEND(n * JV_RAM_DL_BYTES, JV_RAM_DL_BYTES));
        d->things += JV_RAM_DL_BYTES;
    }
}

static const struct {
    const char *name;
    void (*write)(draft *d);
} rings[] = {
    { "words", write_words }, { "small", write_small },   { "memset", write_memset }, { "up", write_up },
    { "down", write_down },   { "append", write_append }, { "host", write_words },
};

static bool write_ring_of(draft *d, const char *name)
{
    for (size_t n = 0; n < sizeof rings / sizeof rings[0]; n++)
        if (strcmp(rings[n].name, name) == 0) {
            rings[n].write(d);
            return true;
        }
    return false;
}

/* ---- The calls ---- */

/* From marks of 0 with so many bytes waiting; or, of the host's, with so many to be written. Gives the number. */
typedef uint32_t ask(uint32_t bytes);

static uint32_t have_library_run(uint32_t bytes)
{
    return jv_ring_run(ring, sizeof ring, ram_dl, sizeof ram_dl, shown, sizeof shown, ram_g, sizeof ram_g, 0, bytes, 0,
                       0)
        .number;
}

static uint32_t have_library_write(uint32_t bytes)
{
    return jv_ring_write(ring, sizeof ring, host_words, bytes, 0, 0, 0, 0).number;
}

static uint32_t have_second_program_run(uint32_t bytes)
{
    ring_run_request request = { ring,         sizeof ring, ram_dl,       sizeof ram_dl,     shown,
                                 sizeof shown, ram_g,       sizeof ram_g, { .write = bytes } };
    return run_ring(&request).number;
}

static uint32_t have_second_program_write(uint32_t bytes)
{
    ring_write_request request = { ring, sizeof ring, host_words, bytes, { 0, 0, 0, 0 } };
    return write_ring(&request).number;
}

static ask *find_ask(const char *program, bool is_host)
{
    if (strcmp(program, "ours") == 0)
        return is_host ? have_library_write : have_library_run;
    if (strcmp(program, "theirs") == 0)
        return is_host ? have_second_program_write : have_second_program_run;
    return NULL;
}

int measure_ring(const char *program, const char *name, unsigned long times)
{
    static draft d;
    bool is_host = strcmp(name, "host") == 0;
    ask *number_of = find_ask(program, is_host);
    if (number_of == NULL || times == 0 || !write_ring_of(&d, name))
        return 2;
    for (uint32_t n = 0; n < 4 * d.count; n++) {
        uint8_t byte = (uint8_t)(d.words[n / 4] >> 8 * (n % 4));
        *(is_host ? &host_words[n] : &ring[n]) = byte;
    }
    uint32_t number = JV_RING_IDLE;
    for (unsigned long n = 0; n < times && number == JV_RING_IDLE; n++)
        number = number_of(4 * d.count);
    if (number != JV_RING_IDLE) {
        fprintf(stderr, "the ring is not taken: number %" PRIu32 "\n", number);
        return 1;
    }
    printf("things %" PRIu32 "\n", d.things);
    return 0;
}
