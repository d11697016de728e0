#include "made_rings.h"

#include <string.h>

#include "../shared/draw.h"
#include "../shared/list_check.h"
#include "../shared/ring_words.h"
#include "../shared/tables.h"

/* As in made_lists.c, no two operands or arguments of one expression draw. */

#define DRAW_ONE_OF(array) ((array)[draw_below(LENGTH(array))])

enum { RING_WORDS = JV_RING_BYTES / 4, LAST_PLACE = JV_RING_BYTES - 4 };

/* ---- The ring ---- */

/* Small for the most part, for every byte is compared. */
static size_t draw_ram_g_length(void)
{
    if (draw_once_in(4000))
        return JV_MAX_RAM_G_BYTES + draw_below(2);
    if (draw_once_in(200))
        return draw_below(3 * JV_RAM_DL_BYTES);
    return draw_once_in(12) ? 0 : draw_below(400);
}

/* Mostly a good one, often near the ring's end. */
static uint32_t draw_ring_place(void)
{
    return 4 * (draw_once_in(2) ? RING_WORDS - draw_from(1, 12) : draw_below(RING_WORDS));
}

static uint32_t draw_offset(void)
{
    if (draw_once_in(2))
        return 0;
    return draw_once_in(2) ? JV_RAM_DL_BYTES - 4 * draw_below(24) : 4 * draw_below(JV_RAM_DL_BYTES / 4 + 1);
}

static uint32_t draw_wild_mark(uint32_t most)
{
    switch (draw_below(8)) {
    case 0:
        return draw();
    case 1:
        return most + draw_from(1, 8);
    case 2:
        return draw_below(most + 1);
    case 3:
        return most;
    default:
        return 4 * draw_below(most / 4 + 1);
    }
}

/* Any number of so many bits, or one of them alone. */
static uint32_t draw_wild_fault(void)
{
    uint32_t bit = draw_below(32);
    return draw_once_in(2) ? draw() >> bit : (uint32_t)1 << bit;
}

static ring_marks draw_wild_marks(void)
{
    ring_marks m;
    m.read = draw_wild_mark(LAST_PLACE);
    m.write = draw_wild_mark(LAST_PLACE);
    m.offset = draw_wild_mark(JV_RAM_DL_BYTES);
    m.fault = draw_once_in(8) ? draw_wild_fault() : 0;
    return m;
}

static size_t draw_length_beside(size_t length)
{
    size_t by = draw_once_in(2) ? 1 : 4;
    return draw_once_in(2) ? length + by : length - by;
}

static void draw_lengths(made_ring *made)
{
    const size_t right[RING_RUNS] = { JV_RING_BYTES, JV_RAM_DL_BYTES, JV_RAM_DL_BYTES, draw_ram_g_length() };
    memcpy(made->length, right, sizeof right);
    if (!draw_once_in(100))
        return;
    ring_run run = (ring_run)draw_below(RAM_G);
    made->length[run] = draw_once_in(20) ? 0 : draw_length_beside(made->length[run]);
}

void make_ring(made_ring *made)
{
    made->is_wild = draw_once_in(12);
    draw_lengths(made);
    for (ring_run run = 0; run < RING_RUNS; run++)
        made->start[run] = draw_below(STARTS_BELOW);
    uint32_t place = draw_ring_place();
    made->marks = made->is_wild ? draw_wild_marks() : (ring_marks){ place, place, draw_offset(), 0 };
    made->calls = made->is_wild ? 1 : draw_from(2, 7);
    made->cut_count = 0;
}

/* ---- Commands ---- */

/* The host's words while they are drawn. `offset` is where RAM_DL will most likely be when they are taken. */
typedef struct {
    uint32_t words[MOST_MADE_WORDS];
    uint32_t count, most;
    uint32_t offset;
    uint32_t ram_g_length;
    uint32_t last; /* where the last command starts */
} draft;

static void put(draft *d, const uint32_t *words, uint32_t count)
{
    if (count > d->most - d->count)
        return;
    d->last = d->count;
    memcpy(&d->words[d->count], words, count * sizeof words[0]);
    d->count += count;
}

static uint32_t smaller(uint32_t a, uint32_t b)
{
    return a < b ? a : b;
}

/* A count of bytes of which there are `left`: none, all, or mostly few. */
static uint32_t draw_count(uint32_t left)
{
    switch (draw_below(8)) {
    case 0:
        return 0;
    case 1:
    case 2:
        return left;
    case 3:
        return draw_below(left + 1);
    default:
        return draw_below(smaller(left, 40) + 1);
    }
}

/* An address with so many bytes behind it, often the last that has. */
static uint32_t draw_address(uint32_t length, uint32_t count)
{
    switch (draw_below(4)) {
    case 0:
        return length - count;
    case 1:
        return draw_below(smaller(length - count, 8) + 1);
    default:
        return draw_below(length - count + 1);
    }
}

/* Moves the range past RAM_G's end: by little, or so far that 32 bits would not hold the sum. */
static void spoil_range(uint32_t length, uint32_t *address, uint32_t *count)
{
    uint32_t past = draw_from(1, 4);
    switch (draw_below(6)) {
    case 0:
        *count = length - smaller(*address, length) + past;
        break;
    case 1:
        *address = length - smaller(*count, length) + past;
        break;
    case 2:
        *address = length + past;
        *count = 0;
        break;
    case 3:
        *address = 0 - past;
        break;
    case 4:
        *count = 0 - past;
        break;
    default:
        *address = draw();
        break;
    }
}

static bool draw_mishap(void)
{
    return draw_once_in(90);
}

static void put_plain_words(draft *d)
{
    for (uint32_t left = draw_from(1, 6); left > 0; left--) {
        uint32_t word = draw() & 0xFEFFFFFF;
        if (draw_once_in(4))
            word |= 0xC0000000;
        if (draw_once_in(6))
            word = (word & 0xFF000000) | 0x00FFFF00 | draw_below(0x40);
        if (word >> 24 == 0xFF)
            word &= 0x7FFFFFFF;
        put(d, &word, 1);
        d->offset += 4;
    }
}

static void put_fill(draft *d, bool is_zero)
{
    uint32_t count = draw_count(d->ram_g_length), address = draw_address(d->ram_g_length, count);
    if (draw_mishap())
        spoil_range(d->ram_g_length, &address, &count);
    uint32_t value = draw_once_in(2) ? draw() : draw_below(256);
    const uint32_t with_value[] = { MEMSET(address, value, count) }, without[] = { MEMZERO(address, count) };
    if (is_zero)
        put(d, without, LENGTH(without));
    else
        put(d, with_value, LENGTH(with_value));
}

/* Half of them overlap, if there is room. */
static void put_copy(draft *d)
{
    uint32_t count = draw_count(d->ram_g_length), target = draw_address(d->ram_g_length, count);
    uint32_t source = draw_address(d->ram_g_length, count), most = d->ram_g_length - count;
    if (draw_once_in(2)) {
        uint32_t distance = draw_below(12);
        source = draw_once_in(2) ? smaller(target + distance, most) : target - smaller(distance, target);
    }
    if (draw_mishap())
        spoil_range(d->ram_g_length, draw_once_in(2) ? &target : &source, &count);
    const uint32_t words[] = { MEMCPY(target, source, count) };
    put(d, words, LENGTH(words));
}

/* Now and then all that RAM_DL has room for, or a word more. */
static void put_append(draft *d)
{
    uint32_t room = d->offset < JV_RAM_DL_BYTES ? JV_RAM_DL_BYTES - d->offset : 0;
    uint32_t count = draw_count(smaller(d->ram_g_length, draw_once_in(8) ? room + 4 : room)) / 4 * 4;
    if (draw_once_in(6))
        count = smaller(room, d->ram_g_length / 4 * 4);
    uint32_t address = draw_address(d->ram_g_length, count);
    if (draw_mishap())
        spoil_range(d->ram_g_length, &address, &count);
    if (draw_mishap())
        count += draw_from(1, 3);
    const uint32_t words[] = { APPEND(address, count) };
    put(d, words, LENGTH(words));
    d->offset += count;
}

/* Often a command but for one bit. */
static void put_unknown(draft *d)
{
    static const uint32_t known[] = {
        0xFFFFFF00, 0xFFFFFF01, 0xFFFFFF32, 0xFFFFFF1B, 0xFFFFFF1C, 0xFFFFFF1D, 0xFFFFFF1E
    };
    uint32_t bit = (uint32_t)1 << draw_below(24), word = 0xFF000000 | draw();
    if (draw_once_in(2))
        word = DRAW_ONE_OF(known) ^ bit;
    put(d, &word, 1);
}

static void put_lone(draft *d, uint32_t word)
{
    put(d, &word, 1);
}

static void put_command(draft *d)
{
    switch (draw_below(20)) {
    case 0:
        put_lone(d, DLSTART());
        d->offset = 0;
        break;
    case 1:
        if (draw_once_in(2))
            put_lone(d, SWAP());
        break;
    case 2:
        put_lone(d, COLDSTART());
        break;
    case 3:
    case 4:
    case 5:
        put_fill(d, false);
        break;
    case 6:
    case 7:
        put_fill(d, true);
        break;
    case 8:
    case 9:
    case 10:
        put_copy(d);
        break;
    case 11:
    case 12:
    case 13:
        put_append(d);
        break;
    case 14:
        if (draw_once_in(5))
            put_unknown(d);
        break;
    default:
        put_plain_words(d);
        break;
    }
}

/* ---- The host's words ---- */

static uint32_t waiting_words(ring_marks m)
{
    return (m.write - m.read) % JV_RING_BYTES / 4;
}

/* Begins with what was cut off before. */
static void start_draft(draft *d, made_ring *made, ring_marks now)
{
    d->count = made->cut_count;
    memcpy(d->words, made->cut, made->cut_count * sizeof made->cut[0]);
    d->last = d->count;
    d->offset = now.offset;
    d->ram_g_length = (uint32_t)made->length[RAM_G];
    made->cut_count = 0;
}

/* Cuts the last command off behind its first word or later. */
static void cut_last(draft *d, made_ring *made)
{
    uint32_t words = d->count - d->last;
    if (words < 2)
        return;
    made->cut_count = draw_from(1, words - 1);
    d->count -= made->cut_count;
    memcpy(made->cut, &d->words[d->count], made->cut_count * sizeof made->cut[0]);
}

/* Up to the room there is, seldom more. */
static void draw_words(made_call *call, made_ring *made, ring_marks now)
{
    static draft d;
    uint32_t room = MOST_WAITING_WORDS - waiting_words(now), few = draw_from(1, 60);
    start_draft(&d, made, now);
    bool fills = draw_once_in(30), is_too_long = draw_once_in(60), is_plain = draw_once_in(15);
    uint32_t wanted = is_too_long ? room + draw_from(1, 4) : fills ? room : smaller(few, room);
    d.most = MOST_MADE_WORDS;
    while (d.count < wanted)
        if (is_plain)
            put_plain_words(&d);
        else
            put_command(&d);
    if (fills || is_too_long)
        d.count = wanted;
    else if (draw_once_in(6))
        cut_last(&d, made);
    if (d.count > room && !is_too_long)
        d.count = room;
    put_words(call->words, d.words, d.count);
    call->words_length = 4 * d.count;
    if (draw_once_in(60))
        call->words_length = 0;
    else if (d.count > 0 && draw_once_in(60))
        call->words_length -= draw_from(1, 3);
}

/* ---- Calls ---- */

static ring_call draw_call(ring_marks now)
{
    static const ring_call under_fault[] = { RUN_RING, WRITE_RING, RESET_RING, RESET_RING };
    if (now.fault != 0)
        return DRAW_ONE_OF(under_fault);
    if (draw_once_in(100))
        return RESET_RING;
    if (now.read == now.write)
        return draw_once_in(12) ? RUN_RING : WRITE_RING;
    return draw_once_in(5) ? WRITE_RING : RUN_RING;
}

static void spoil_mark(ring_marks *m)
{
    switch (draw_below(4)) {
    case 0:
        m->read = draw_wild_mark(LAST_PLACE);
        break;
    case 1:
        m->write = draw_wild_mark(LAST_PLACE);
        break;
    case 2:
        m->offset = draw_wild_mark(JV_RAM_DL_BYTES);
        break;
    default:
        m->fault = draw_wild_fault();
        break;
    }
}

void make_ring_call(made_call *call, made_ring *made, ring_marks now)
{
    call->call = made->is_wild ? (draw_once_in(4) ? WRITE_RING : RUN_RING) : draw_call(now);
    call->words_length = 0;
    if (call->call == WRITE_RING)
        draw_words(call, made, now);
    if (call->call == RESET_RING)
        made->cut_count = 0;
    call->marks = now;
    if (draw_once_in(30))
        spoil_mark(&call->marks);
}
