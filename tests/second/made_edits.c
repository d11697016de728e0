#include "made_edits.h"

#include <string.h>

#include "../shared/draw.h"
#include "../shared/list_words.h"
#include "../shared/tables.h"
#include "guide.h"
#include "targets.h"

/* As in made_lists.c, no two operands or arguments of one expression draw. */

enum { MOST_WORDS = JV_MAX_LIST_BYTES / 4 };

/* A list being edited. */
typedef struct {
    uint32_t words[MOST_WORDS];
    size_t count;
    frame_size frame;
} edited_words;

static bool is_vertex(uint32_t word)
{
    uint32_t command = command_of(word);
    return command == JV_VERTEX2F || command == JV_VERTEX2II;
}

static bool is_bitmap_setting(uint32_t word)
{
    uint32_t command = command_of(word);
    return command == JV_BITMAP_SOURCE || command == JV_BITMAP_LAYOUT || command == JV_BITMAP_SIZE;
}

static bool is_line_width(uint32_t word)
{
    return command_of(word) == JV_LINE_WIDTH;
}

static bool begins_lines(uint32_t word)
{
    return word == BEGIN(LINES) || word == BEGIN(LINE_STRIP);
}

/* The first such word from `at` on, and after the last from the first again; `at` where there is none. */
typedef bool is_sought(uint32_t word);
static size_t find_word(const edited_words *e, size_t at, is_sought *is_it)
{
    for (size_t n = 0; n < e->count; n++)
        if (is_it(e->words[(at + n) % e->count]))
            return (at + n) % e->count;
    return at;
}

/* Mostly that of a vertex or a little before one, for there it makes a difference. */
static size_t draw_word_place(const edited_words *e)
{
    size_t any = draw_below((uint32_t)e->count), vertex = find_word(e, any, is_vertex), before = draw_from(1, 4);
    switch (draw_below(8)) {
    case 0:
        return any;
    case 1:
        return find_word(e, any, is_bitmap_setting);
    case 2:
    case 3:
        return vertex >= before ? vertex - before : vertex;
    default:
        return vertex;
    }
}

/* ---- Words that come and go ---- */

/* What led to the place leads to the word that is now there. */
static void insert(edited_words *e, size_t at, uint32_t word)
{
    if (e->count == MOST_WORDS)
        return;
    move_targets(e->words, e->count, at, 0, 1);
    memmove(&e->words[at + 1], &e->words[at], (e->count - at) * sizeof e->words[0]);
    e->words[at] = word;
    e->count++;
}

static void take_away(edited_words *e, size_t at)
{
    if (e->count == 1)
        return;
    move_targets(e->words, e->count, at, 1, 0);
    memmove(&e->words[at], &e->words[at + 1], (e->count - at - 1) * sizeof e->words[0]);
    e->count--;
}

/* ---- Edits ---- */

static void swap(edited_words *e, size_t at, size_t other)
{
    uint32_t word = e->words[at];
    e->words[at] = e->words[other];
    e->words[other] = word;
}

/* With the next vertex, so that the ends of a segment are reversed, or two vertices of a strip. */
static void swap_vertices(edited_words *e, size_t at)
{
    size_t one = find_word(e, at, is_vertex);
    swap(e, one, find_word(e, (one + 1) % e->count, is_vertex));
}

/* LINES instead of LINE_STRIP, or the other way round. */
static void turn_lines(edited_words *e, size_t at)
{
    uint32_t *word = &e->words[find_word(e, at, begins_lines)];
    if (begins_lines(*word))
        *word ^= BEGIN(LINES) ^ BEGIN(LINE_STRIP);
}

/* With one of the low bits of one field turned, so that a vertex moves within its pixel or a little further; or with
   another format. */
static uint32_t nudged(uint32_t word)
{
    static const uint32_t formats[] = { ARGB1555, L8, RGB565 };
    const entry *e = find_entry(command_of(word));
    if (e == NULL || e->fields == 0)
        return word;
    const field *f = &e->field[draw_below(e->fields)];
    if (f->kind == FORMAT)
        return (word & ~BITS(31, 5, 19)) | BITS(formats[draw_below(LENGTH(formats))], 5, 19);
    uint32_t bits = f->high - f->low + 1;
    return word ^ (uint32_t)1 << (f->low + draw_below(bits < 5 ? bits : 5));
}

static void change_line_width(edited_words *e, size_t at)
{
    uint32_t *word = &e->words[find_word(e, at, is_line_width)];
    *word = draw_once_in(2) ? nudged(*word) : draw_word_like(*word, e->frame);
}

/* A NOP, or a word of the list once more, or one like it. */
static uint32_t draw_inserted_word(const edited_words *e)
{
    uint32_t word = e->words[draw_word_place(e)];
    switch (draw_below(4)) {
    case 0:
        return NOP();
    case 1:
        return word;
    default:
        return draw_word_like(word, e->frame);
    }
}

static void edit_once(edited_words *e)
{
    size_t at = draw_word_place(e), other = draw_below((uint32_t)e->count);
    switch (draw_below(25)) {
    case 0:
    case 1:
    case 2:
        e->words[at] = nudged(e->words[at]);
        break;
    case 3:
    case 4:
        insert(e, other, draw_inserted_word(e));
        break;
    case 5:
        insert(e, at, e->words[at]);
        break;
    case 6:
    case 7:
        take_away(e, at);
        break;
    case 8:
        swap(e, at, other);
        break;
    case 9:
    case 10:
        swap(e, at, at + 1 < e->count ? at + 1 : at);
        break;
    case 11:
        e->words[at] = NOP();
        break;
    case 12:
        insert(e, at, NOP());
        break;
    case 13:
        swap_vertices(e, at);
        break;
    case 14:
        turn_lines(e, at);
        break;
    case 15:
        change_line_width(e, at);
        break;
    case 16:
        insert(e, at, draw_word_like(e->words[at], e->frame));
        break;
    default:
        e->words[at] = draw_word_like(e->words[at], e->frame);
        break;
    }
}

void put_fault_into(made_list *made)
{
    size_t count = made->request.list_length / 4;
    size_t at = draw_below(count > 0 ? (uint32_t)count : 1);
    uint32_t word = draw_faulty_word(at, count);
    put_words(made->bytes + 4 * at, &word, 1);
}

void edit_list(made_list *edited, const made_list *made)
{
    static edited_words e;
    const run_request *r = &made->request;
    e.count = r->list_length / 4 < MOST_WORDS ? r->list_length / 4 : MOST_WORDS;
    e.frame = (frame_size){ r->width, r->height };
    for (size_t n = 0; n < e.count; n++)
        e.words[n] = word_at(made->bytes + 4 * n);
    for (uint32_t left = draw_once_in(4) ? draw_below(8) : draw_from(1, 3); left > 0 && e.count > 0; left--)
        edit_once(&e);
    memset(edited->bytes, 0, sizeof edited->bytes);
    put_words(edited->bytes, e.words, e.count);
    edited->request = *r;
    edited->request.list = edited->bytes;
    edited->request.list_length = 4 * e.count;
}
