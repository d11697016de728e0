#include "ringer.h"

#include <stdbool.h>
#include <string.h>

#include "jokulvisp.h"

enum { RING_WORDS = JV_RING_BYTES / 4, MOST_PARAMETERS = 3, REPORTED_FAULT = 0xFFF };

/* ---- Answers ---- */

static ring_answer answer(uint32_t number, uint32_t place, uint32_t count, ring_marks marks)
{
    return (ring_answer){ number, place, count, marks.fault != 0 ? REPORTED_FAULT : marks.read, marks };
}

static ring_answer refusal(uint32_t number, ring_marks marks)
{
    return answer(number, 0, 0, marks);
}

static bool is_ring_place(uint32_t mark)
{
    return mark % 4 == 0 && mark < JV_RING_BYTES;
}

static bool are_good(ring_marks m)
{
    return is_ring_place(m.read) && is_ring_place(m.write) && m.offset % 4 == 0 && m.offset <= JV_RAM_DL_BYTES;
}

/* Of good marks. */
static uint32_t waiting_bytes(ring_marks m)
{
    return m.write >= m.read ? m.write - m.read : JV_RING_BYTES - m.read + m.write;
}

/* ---- The waiting words ---- */

static uint32_t word_of(const uint8_t *bytes)
{
    return bytes[0] | (uint32_t)bytes[1] << 8 | (uint32_t)bytes[2] << 16 | (uint32_t)bytes[3] << 24;
}

/* In the order in which they were written. */
typedef struct {
    uint32_t word[RING_WORDS];
    uint32_t count;
} queue;

static void take_out(queue *q, const uint8_t *ring, ring_marks m)
{
    q->count = waiting_bytes(m) / 4;
    uint32_t up_to_end = (JV_RING_BYTES - m.read) / 4;
    for (uint32_t n = 0; n < q->count; n++)
        q->word[n] = word_of(n < up_to_end ? ring + m.read + 4 * n : ring + 4 * (n - up_to_end));
}

/* ---- Commands ---- */

typedef enum { PLAIN, DLSTART, SWAP, COLDSTART, MEMSET, MEMZERO, MEMCPY, APPEND, TOO_SHORT, NONE } command;

static const struct {
    uint32_t word;
    command command;
    uint32_t parameters;
} commands[] = {
    { 0xFFFFFF00, DLSTART, 0 }, { 0xFFFFFF01, SWAP, 0 },   { 0xFFFFFF32, COLDSTART, 0 }, { 0xFFFFFF1B, MEMSET, 3 },
    { 0xFFFFFF1C, MEMZERO, 2 }, { 0xFFFFFF1D, MEMCPY, 3 }, { 0xFFFFFF1E, APPEND, 2 },
};

/* A command with its parameters, which for a plain word is the word, and how many words it is in all. */
typedef struct {
    command command;
    const uint32_t *parameter;
    uint32_t words;
} step;

static step step_at(const queue *q, uint32_t first)
{
    const uint32_t *word = &q->word[first];
    if (*word < 0xFF000000)
        return (step){ PLAIN, word, 1 };
    for (size_t n = 0; n < sizeof commands / sizeof commands[0]; n++) {
        if (*word != commands[n].word)
            continue;
        bool is_whole = commands[n].parameters < q->count - first;
        return (step){ is_whole ? commands[n].command : TOO_SHORT, word + 1, 1 + commands[n].parameters };
    }
    return (step){ NONE, word, 1 };
}

/* All steps up to the end of the queue, or up to one with which the run cannot go on. Gives their number. */
static uint32_t split(step steps[RING_WORDS], const queue *q)
{
    uint32_t count = 0;
    for (uint32_t at = 0; at < q->count; at += steps[count - 1].words) {
        steps[count] = step_at(q, at);
        command c = steps[count++].command;
        if (c == TOO_SHORT || c == NONE)
            break;
    }
    return count;
}

/* ---- What a command does ---- */

static bool is_in_ram_g(const ring_run_request *r, uint32_t address, uint32_t count)
{
    return (uint64_t)address + count <= r->ram_g_length;
}

/* Gives the number that stops the run, 0 where none does. Only a command that is done changes anything. */
static uint32_t put_into_list(const ring_run_request *r, ring_marks *m, const uint8_t *bytes, uint32_t count)
{
    if (count > JV_RAM_DL_BYTES - m->offset)
        return JV_RING_LIST_FULL;
    if (count > 0)
        memcpy(r->ram_dl + m->offset, bytes, count);
    m->offset += count;
    return JV_RING_IDLE;
}

static uint32_t put_word_into_list(const ring_run_request *r, ring_marks *m, uint32_t word)
{
    const uint8_t bytes[4] = { (uint8_t)word, (uint8_t)(word >> 8), (uint8_t)(word >> 16), (uint8_t)(word >> 24) };
    return put_into_list(r, m, bytes, sizeof bytes);
}

static uint32_t fill(const ring_run_request *r, uint32_t address, uint32_t value, uint32_t count)
{
    if (!is_in_ram_g(r, address, count))
        return JV_RING_BAD_RANGE;
    if (count > 0)
        memset(r->ram_g + address, (int)(value & 0xFF), count);
    return JV_RING_IDLE;
}

/* 'As if the source were copied first': it is. */
static uint32_t copy(const ring_run_request *r, uint32_t target, uint32_t source, uint32_t count)
{
    static uint8_t copied[JV_MAX_RAM_G_BYTES];
    if (!is_in_ram_g(r, target, count) || !is_in_ram_g(r, source, count))
        return JV_RING_BAD_RANGE;
    if (count > 0) {
        memcpy(copied, r->ram_g + source, count);
        memcpy(r->ram_g + target, copied, count);
    }
    return JV_RING_IDLE;
}

static uint32_t append(const ring_run_request *r, ring_marks *m, uint32_t address, uint32_t count)
{
    if (!is_in_ram_g(r, address, count) || count % 4 != 0)
        return JV_RING_BAD_RANGE;
    return put_into_list(r, m, count > 0 ? r->ram_g + address : NULL, count);
}

static uint32_t carry_out(const ring_run_request *r, ring_marks *m, const step *s)
{
    const uint32_t *p = s->parameter;
    switch (s->command) {
    case PLAIN:
        return put_word_into_list(r, m, p[0]);
    case DLSTART:
        m->offset = 0;
        return JV_RING_IDLE;
    case SWAP:
        memcpy(r->shown, r->ram_dl, JV_RAM_DL_BYTES);
        return JV_RING_SWAPPED;
    case COLDSTART:
        return JV_RING_IDLE;
    case MEMSET:
        return fill(r, p[0], p[1], p[2]);
    case MEMZERO:
        return fill(r, p[0], 0, p[1]);
    case MEMCPY:
        return copy(r, p[0], p[1], p[2]);
    case APPEND:
        return append(r, m, p[0], p[1]);
    case TOO_SHORT:
        return JV_RING_WAITING;
    case NONE:
        break;
    }
    return JV_RING_UNKNOWN;
}

/* ---- The calls ---- */

static bool is_fault(uint32_t number)
{
    return number == JV_RING_UNKNOWN || number == JV_RING_LIST_FULL || number == JV_RING_BAD_RANGE;
}

/* The place in the ring that lies so many words further on. */
static uint32_t further(uint32_t place, uint32_t words)
{
    return (place + 4 * words) % JV_RING_BYTES;
}

static ring_answer run_steps(const ring_run_request *r, const step *steps, uint32_t count)
{
    ring_marks m = r->marks;
    for (uint32_t n = 0; n < count; n++) {
        uint32_t number = carry_out(r, &m, &steps[n]);
        if (number == JV_RING_IDLE || number == JV_RING_SWAPPED)
            m.read = further(m.read, steps[n].words);
        if (number == JV_RING_SWAPPED)
            return answer(number, 0, n + 1, m);
        if (number == JV_RING_WAITING)
            return answer(number, 0, n, m);
        if (is_fault(number)) {
            m.fault = 1;
            return answer(number, m.read, n, m);
        }
    }
    return answer(JV_RING_IDLE, 0, count, m);
}

ring_answer run_ring(const ring_run_request *r)
{
    static queue waiting;
    static step steps[RING_WORDS];
    if (r->ring_length != JV_RING_BYTES || r->ram_dl_length != JV_RAM_DL_BYTES || r->shown_length != JV_RAM_DL_BYTES ||
        r->ram_g_length > JV_MAX_RAM_G_BYTES)
        return refusal(JV_RING_BAD_RUN, r->marks);
    if (!are_good(r->marks))
        return refusal(JV_RING_BAD_MARK, r->marks);
    if (r->marks.fault != 0)
        return refusal(JV_RING_FAULTY, r->marks);
    take_out(&waiting, r->ring, r->marks);
    return run_steps(r, steps, split(steps, &waiting));
}

ring_answer write_ring(const ring_write_request *r)
{
    ring_marks m = r->marks;
    if (r->ring_length != JV_RING_BYTES || r->words_length % 4 != 0)
        return refusal(JV_RING_BAD_RUN, m);
    if (!are_good(m))
        return refusal(JV_RING_BAD_MARK, m);
    if (m.fault != 0)
        return refusal(JV_RING_FAULTY, m);
    if (r->words_length > JV_MAX_WAITING - waiting_bytes(m))
        return refusal(JV_RING_NO_ROOM, m);
    size_t up_to_end = JV_RING_BYTES - m.write;
    size_t first = r->words_length < up_to_end ? r->words_length : up_to_end;
    if (first > 0)
        memcpy(r->ring + m.write, r->words, first);
    if (first < r->words_length)
        memcpy(r->ring, r->words + first, r->words_length - first);
    m.write = further(m.write, (uint32_t)(r->words_length / 4));
    return answer(JV_RING_IDLE, 0, 0, m);
}

ring_answer reset_ring(void)
{
    return answer(JV_RING_IDLE, 0, 0, (ring_marks){ 0, 0, 0, 0 });
}
