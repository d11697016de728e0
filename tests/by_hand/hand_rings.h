/* Calls of the ring worked out by hand, which both the library and the second program have to answer: the marks before
   the call and what waits, the answer with all four marks, and every byte that becomes another one. Whatever is not
   named stays as it was lent. */
#ifndef HAND_RINGS_H
#define HAND_RINGS_H

#include <stddef.h>
#include <stdint.h>

#include "../shared/ring_check.h"
#include "../shared/ring_words.h"
#include "../shared/tables.h"
#include "jokulvisp.h"

/* Bytes of a run, from `at` on, that become others: these words; or else, where there is a source, those of another run
   from `from` on, as they are now; or else a value, so many times. Of several changes each goes on from the one
   before. */
typedef struct {
    ring_run run;
    size_t at, count;
    const uint32_t *words;
    bool has_source;
    ring_run source;
    size_t from;
    uint8_t value;
} ring_change;

#define LIST_GETS_FROM(table, offset, bytes)                                                                           \
    {                                                                                                                  \
        .run = RAM_DL, .at = offset, .count = bytes, .words = table                                                    \
    }
#define RING_GETS_FROM(table, place, bytes)                                                                            \
    {                                                                                                                  \
        .run = THE_RING, .at = place, .count = bytes, .words = table                                                   \
    }
#define WORD_TABLE(...) ((const uint32_t[]){ __VA_ARGS__ })
#define LIST_GETS(offset, ...) LIST_GETS_FROM(WORD_TABLE(__VA_ARGS__), offset, sizeof WORD_TABLE(__VA_ARGS__))
#define RING_GETS(place, ...) RING_GETS_FROM(WORD_TABLE(__VA_ARGS__), place, sizeof WORD_TABLE(__VA_ARGS__))
#define LIST_COPIES(offset, address, bytes)                                                                            \
    {                                                                                                                  \
        .run = RAM_DL, .at = offset, .count = bytes, .has_source = true, .source = RAM_G, .from = address              \
    }
#define RAM_G_COPIES(target, address, bytes)                                                                           \
    {                                                                                                                  \
        .run = RAM_G, .at = target, .count = bytes, .has_source = true, .source = RAM_G, .from = address               \
    }
#define RAM_G_FILLS(address, with, bytes)                                                                              \
    {                                                                                                                  \
        .run = RAM_G, .at = address, .count = bytes, .value = with                                                     \
    }
#define SHOWN_IS_LIST                                                                                                  \
    {                                                                                                                  \
        .run = SHOWN, .at = 0, .count = FULL, .has_source = true, .source = RAM_DL                                     \
    }

/* The place of the ring's last word, and the offset at which RAM_DL is full. */
enum { LAST = JV_RING_BYTES - 4, FULL = JV_RAM_DL_BYTES };

/* What waits lies in the ring from the read mark on before a run; before a write it is what the host hands over. RAM_G
   has no byte unless a case says so; the others' lengths are the right ones and as many more. */
typedef struct {
    int line;
    const char *name;
    ring_call call;
    ring_marks marks;
    const uint32_t *words;
    size_t count;
    size_t ram_g_length;
    const uint8_t *ram_g, *ram_g_left; /* its bytes before and after, where they are written out */
    int ring_more, ram_dl_more, shown_more, words_more;
    jv_ring wanted;
    const ring_change *changes;
    size_t change_count;
} hand_ring;

#define AT(read, write, offset, fault) .marks = { read, write, offset, fault }
#define WAITING(...) .words = WORD_TABLE(__VA_ARGS__), .count = LENGTH(WORD_TABLE(__VA_ARGS__))
#define HOST(...) .call = WRITE_RING, WAITING(__VA_ARGS__)
#define GIVES(number, place, count, reported, read, write, offset, fault)                                              \
    .wanted = { number, place, count, reported, read, write, offset, fault }
#define CHANGES(...)                                                                                                   \
    .changes = (const ring_change[]){ __VA_ARGS__ }, .change_count = LENGTH(((const ring_change[]){ __VA_ARGS__ }))
#define RAM_G_OF(length) .ram_g_length = length
#define RAM_G_IS(...)                                                                                                  \
    .ram_g = (const uint8_t[]){ __VA_ARGS__ }, .ram_g_length = LENGTH(((const uint8_t[]){ __VA_ARGS__ }))
#define RAM_G_BECOMES(...) .ram_g_left = (const uint8_t[]){ __VA_ARGS__ }

/* Has the call made by both programs. `file` is where it stands. */
void check_ring(const char *file, const hand_ring *ring);

#define CHECK_RINGS(part, table) check_rings(__FILE__, part, table, LENGTH(table))
void check_rings(const char *file, const char *part, const hand_ring *table, size_t count);

/* The calls one after the other on the same runs, which are lent as the first of them says. */
#define CHECK_RINGS_IN_TURN(part, table) check_rings_in_turn(__FILE__, part, table, LENGTH(table))
void check_rings_in_turn(const char *file, const char *part, const hand_ring *table, size_t count);

/* How many cases by hand gave this number by this call. */
unsigned count_met(ring_call call, uint32_t number);

#endif
