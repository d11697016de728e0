/* The header's constants against the library: each limit is accepted, and one beyond it is refused with its number;
   each value of an enum has a meaning, and no other has one; each number has its text. */
#include <stdbool.h>
#include <stdint.h>
#include <stdio.h>
#include <string.h>

#include "../shared/check.h"
#include "../shared/list_words.h"
#include "../shared/tables.h"
#include "jokulvisp.h"

/* One longer than is allowed. All zeros, a list of DISPLAY words. */
static const uint8_t zeros[JV_MAX_RAM_G_BYTES + 1];

/* ---- What a call is given ---- */

static uint32_t check_frame(uint32_t width, uint32_t height)
{
    return jv_check(zeros, JV_MIN_LIST_BYTES, NULL, 0, width, height, 1).number;
}

static uint32_t check_length(size_t length)
{
    return jv_check(zeros, length, NULL, 0, 1, 1, 1).number;
}

static uint32_t check_ram_g(size_t length)
{
    return jv_check(zeros, JV_MIN_LIST_BYTES, zeros, length, 1, 1, 1).number;
}

static uint32_t check_limit(uint32_t limit)
{
    return jv_check(zeros, JV_MIN_LIST_BYTES, NULL, 0, 1, 1, limit).number;
}

static void check_arguments(void)
{
    begin_part("frame, list, RAM_G and step limit");
    CHECK_HOLDS(check_frame(JV_MAX_WIDTH, JV_MAX_HEIGHT) == JV_DONE, "the largest frame");
    CHECK_HOLDS(check_frame(JV_MAX_WIDTH + 1, 1) == JV_BAD_FRAME, "a frame too wide");
    CHECK_HOLDS(check_frame(1, JV_MAX_HEIGHT + 1) == JV_BAD_FRAME, "a frame too high");
    CHECK_HOLDS(check_length(JV_MIN_LIST_BYTES) == JV_DONE, "the shortest list");
    CHECK_HOLDS(check_length(JV_MIN_LIST_BYTES - 4) == JV_BAD_LIST, "a list too short by a word");
    CHECK_HOLDS(check_length(JV_MAX_LIST_BYTES) == JV_DONE, "the longest list");
    CHECK_HOLDS(check_length(JV_MAX_LIST_BYTES + 4) == JV_BAD_LIST, "a list too long by a word");
    CHECK_HOLDS(check_ram_g(JV_MAX_RAM_G_BYTES) == JV_DONE, "the longest RAM_G");
    CHECK_HOLDS(check_ram_g(JV_MAX_RAM_G_BYTES + 1) == JV_BAD_RAM_G, "RAM_G too long by a byte");
    CHECK_HOLDS(check_limit(JV_MAX_LIMIT) == JV_DONE, "the largest limit");
    CHECK_HOLDS(check_limit(JV_MAX_LIMIT + 1) == JV_BAD_LIMIT, "a limit too large by one");
}

/* ---- What a list does ---- */

enum { MOST_WORDS = 64 };

typedef struct {
    uint8_t bytes[4 * MOST_WORDS];
    size_t length;
} word_list;

static void put(word_list *list, uint32_t word)
{
    for (unsigned n = 0; n < 4; n++)
        list->bytes[list->length++] = (uint8_t)(word >> 8 * n);
}

static jv_answer run(const word_list *list)
{
    return jv_check(list->bytes, list->length, NULL, 0, 1, 1, JV_MAX_LIMIT);
}

static void check_endless_list(void)
{
    word_list list = { .length = 0 };
    begin_part("the largest step limit");
    put(&list, JUMP(0));
    jv_answer came = run(&list);
    CHECK_HOLDS(came.number == JV_LIMIT_REACHED && came.count == JV_MAX_LIMIT, "so many words are fetched");
}

/* So many calls inside each other, and then DISPLAY. */
static jv_answer run_calls(uint32_t calls)
{
    word_list list = { .length = 0 };
    for (uint32_t n = 1; n <= calls; n++)
        put(&list, CALL(4 * n));
    put(&list, DISPLAY());
    return run(&list);
}

static void check_calls(void)
{
    begin_part("open calls");
    CHECK_HOLDS(run_calls(JV_MAX_CALLS).number == JV_DONE, "the most");
    jv_answer came = run_calls(JV_MAX_CALLS + 1);
    CHECK_HOLDS(came.number == JV_FIFTH_CALL && came.place == 4 * JV_MAX_CALLS, "one more");
}

/* The tag that a point has after so many saves, each of a tag of its own from 1 on, and as many restores. */
static uint8_t tag_after_saves(uint32_t saves)
{
    uint8_t picture[3], tags[1] = { 0 };
    word_list list = { .length = 0 };
    for (uint32_t n = 1; n <= saves; n++) {
        put(&list, TAG(n));
        put(&list, SAVE_CONTEXT());
    }
    for (uint32_t n = 1; n <= saves; n++)
        put(&list, RESTORE_CONTEXT());
    put(&list, BEGIN(POINTS));
    put(&list, VERTEX2F(0, 0));
    put(&list, DISPLAY());
    jv_answer came = jv_paint(list.bytes, list.length, NULL, 0, 1, 1, JV_MAX_LIMIT, picture, 3, tags, 1);
    CHECK_HOLDS(came.number == JV_DONE, "%u saves and restores draw", (unsigned)saves);
    return tags[0];
}

static void check_contexts(void)
{
    begin_part("saved contexts");
    CHECK_HOLDS(tag_after_saves(JV_MAX_CONTEXTS) == 1, "of the most, the first is still there");
    CHECK_HOLDS(tag_after_saves(JV_MAX_CONTEXTS + 1) == 255, "of one more, the first is gone");
}

/* Ends of a line at this place and at 0, 0, either of them first. */
static uint32_t run_line(bool is_first, int32_t x, int32_t y)
{
    word_list list = { .length = 0 };
    put(&list, BEGIN(LINES));
    for (int n = 0; n < 2; n++) {
        bool is_there = is_first == (n == 0);
        put(&list, VERTEX_TRANSLATE_X(is_there ? x : 0));
        put(&list, VERTEX_TRANSLATE_Y(is_there ? y : 0));
        put(&list, VERTEX2F(0, 0));
    }
    put(&list, DISPLAY());
    return run(&list).number;
}

static void check_line_ends(bool is_first)
{
    begin_part(is_first ? "first ends of lines" : "second ends of lines");
    CHECK_HOLDS(run_line(is_first, JV_MIN_END, JV_MIN_END) == JV_DONE, "farthest left and up");
    CHECK_HOLDS(run_line(is_first, JV_MAX_END, JV_MAX_END) == JV_DONE, "farthest right and down");
    CHECK_HOLDS(run_line(is_first, JV_MIN_END - 1, 0) == JV_FAR_END, "too far left");
    CHECK_HOLDS(run_line(is_first, 0, JV_MIN_END - 1) == JV_FAR_END, "too far up");
    CHECK_HOLDS(run_line(is_first, JV_MAX_END + 1, 0) == JV_FAR_END, "too far right");
    CHECK_HOLDS(run_line(is_first, 0, JV_MAX_END + 1) == JV_FAR_END, "too far down");
}

/* ---- The ring ---- */

enum { RING, RAM_DL, SHOWN, RAM_G, BUFFERS };

/* Runs an empty ring over buffers of these lengths. */
static uint32_t run_lengths(const size_t length[BUFFERS], uint32_t mark, uint32_t offset)
{
    static uint8_t ring[JV_RING_BYTES + 4], ram_dl[JV_RAM_DL_BYTES + 4], shown[JV_RAM_DL_BYTES + 4];
    static uint8_t ram_g[JV_MAX_RAM_G_BYTES + 1];
    return jv_ring_run(ring, length[RING], ram_dl, length[RAM_DL], shown, length[SHOWN], ram_g, length[RAM_G], mark,
                       mark, offset, 0)
        .number;
}

static uint32_t run_marks(uint32_t mark, uint32_t offset)
{
    static const size_t length[BUFFERS] = { JV_RING_BYTES, JV_RAM_DL_BYTES, JV_RAM_DL_BYTES, 0 };
    return run_lengths(length, mark, offset);
}

static void check_ring_buffers(void)
{
    static const char *const names[BUFFERS] = { "the ring", "RAM_DL", "shown", "RAM_G" };
    static const size_t longest[BUFFERS] = { JV_RING_BYTES, JV_RAM_DL_BYTES, JV_RAM_DL_BYTES, JV_MAX_RAM_G_BYTES };
    begin_part("the ring's buffers");
    CHECK_HOLDS(run_lengths(longest, 0, 0) == JV_RING_IDLE, "all of their lengths, and the longest RAM_G");
    for (unsigned n = 0; n < BUFFERS; n++) {
        size_t length[BUFFERS];
        memcpy(length, longest, sizeof length);
        length[n] = longest[n] + 1;
        CHECK_HOLDS(run_lengths(length, 0, 0) == JV_RING_BAD_RUN, "%s is too long by a byte", names[n]);
        length[n] = longest[n] - 4;
        CHECK_HOLDS(run_lengths(length, 0, 0) == (n == RAM_G ? JV_RING_IDLE : JV_RING_BAD_RUN),
                    "%s is shorter by a word", names[n]);
    }
}

static void check_ring_marks(void)
{
    begin_part("the ring's marks");
    CHECK_HOLDS(run_marks(JV_RING_BYTES - 4, 0) == JV_RING_IDLE, "at the ring's last word");
    CHECK_HOLDS(run_marks(JV_RING_BYTES, 0) == JV_RING_BAD_MARK, "at the ring's end");
    CHECK_HOLDS(run_marks(0, JV_RAM_DL_BYTES) == JV_RING_IDLE, "at the end of RAM_DL");
    CHECK_HOLDS(run_marks(0, JV_RAM_DL_BYTES + 4) == JV_RING_BAD_MARK, "past the end of RAM_DL");
}

static uint32_t write_words(size_t length)
{
    static uint8_t ring[JV_RING_BYTES];
    return jv_ring_write(ring, sizeof ring, zeros, length, 0, 0, 0, 0).number;
}

static void check_waiting_words(void)
{
    begin_part("words that wait");
    CHECK_HOLDS(write_words(JV_MAX_WAITING) == JV_RING_IDLE, "the most");
    CHECK_HOLDS(write_words(JV_MAX_WAITING + 4) == JV_RING_NO_ROOM, "one more");
}

/* ---- Fields ---- */

/* A field that names its values: the place among its command's fields, its bits, and the values with a meaning. */
typedef struct {
    const char *name;
    uint32_t command;
    unsigned place, high, low;
    const uint32_t *values;
    size_t count;
} named_field;

#define VALUES(...) LIST(__VA_ARGS__)

#define TESTS                                                                                                          \
    VALUES(JV_TEST_NEVER, JV_TEST_LESS, JV_TEST_LEQUAL, JV_TEST_GREATER, JV_TEST_GEQUAL, JV_TEST_EQUAL,                \
           JV_TEST_NOTEQUAL, JV_TEST_ALWAYS)
#define FACTORS                                                                                                        \
    VALUES(JV_FACTOR_ZERO, JV_FACTOR_ONE, JV_FACTOR_SRC_ALPHA, JV_FACTOR_DST_ALPHA, JV_FACTOR_ONE_MINUS_SRC_ALPHA,     \
           JV_FACTOR_ONE_MINUS_DST_ALPHA)
#define ACTIONS                                                                                                        \
    VALUES(JV_ACTION_ZERO, JV_ACTION_KEEP, JV_ACTION_REPLACE, JV_ACTION_INCR, JV_ACTION_DECR, JV_ACTION_INVERT)
#define PRIMITIVES                                                                                                     \
    VALUES(JV_PRIMITIVE_BITMAPS, JV_PRIMITIVE_POINTS, JV_PRIMITIVE_LINES, JV_PRIMITIVE_LINE_STRIP,                     \
           JV_PRIMITIVE_EDGE_STRIP_R, JV_PRIMITIVE_EDGE_STRIP_L, JV_PRIMITIVE_EDGE_STRIP_A, JV_PRIMITIVE_EDGE_STRIP_B, \
           JV_PRIMITIVE_RECTS)
#define FORMATS                                                                                                        \
    VALUES(JV_FORMAT_ARGB1555, JV_FORMAT_L1, JV_FORMAT_L4, JV_FORMAT_L8, JV_FORMAT_RGB332, JV_FORMAT_ARGB2,            \
           JV_FORMAT_ARGB4, JV_FORMAT_RGB565, JV_FORMAT_TEXT8X8, JV_FORMAT_TEXTVGA, JV_FORMAT_BARGRAPH,                \
           JV_FORMAT_PALETTED565, JV_FORMAT_PALETTED4444, JV_FORMAT_PALETTED8, JV_FORMAT_L2)
#define FILTERS VALUES(JV_FILTER_NEAREST, JV_FILTER_BILINEAR)
#define WRAPS VALUES(JV_WRAP_BORDER, JV_WRAP_REPEAT)

static const named_field named_fields[] = {
    { "ALPHA_FUNC's test", JV_ALPHA_FUNC, 0, 10, 8, TESTS },
    { "STENCIL_FUNC's test", JV_STENCIL_FUNC, 0, 19, 16, TESTS },
    { "BLEND_FUNC's source factor", JV_BLEND_FUNC, 0, 5, 3, FACTORS },
    { "BLEND_FUNC's target factor", JV_BLEND_FUNC, 1, 2, 0, FACTORS },
    { "STENCIL_OP's action on failing", JV_STENCIL_OP, 0, 5, 3, ACTIONS },
    { "STENCIL_OP's action on passing", JV_STENCIL_OP, 1, 2, 0, ACTIONS },
    { "BEGIN's primitive", JV_BEGIN, 0, 3, 0, PRIMITIVES },
    { "BITMAP_LAYOUT's format", JV_BITMAP_LAYOUT, 0, 23, 19, FORMATS },
    { "BITMAP_SIZE's filter", JV_BITMAP_SIZE, 0, 20, 20, FILTERS },
    { "BITMAP_SIZE's wrap in x", JV_BITMAP_SIZE, 1, 19, 19, WRAPS },
    { "BITMAP_SIZE's wrap in y", JV_BITMAP_SIZE, 2, 18, 18, WRAPS },
};

static bool is_named(const named_field *f, uint32_t value)
{
    for (size_t n = 0; n < f->count; n++)
        if (f->values[n] == value)
            return true;
    return false;
}

static void check_reading(const named_field *f, uint32_t value)
{
    jv_word came = jv_read_word(f->command << 24 | value << f->low);
    const uint32_t fields[] = { came.a, came.b, came.c };
    bool is_read = came.number == JV_DONE && came.command == f->command && fields[f->place] == value;
    CHECK_HOLDS(is_named(f, value) ? is_read : came.number == JV_NO_MEANING, "%u is read as it should be",
                (unsigned)value);
}

static void check_writing(const named_field *f, uint32_t value)
{
    uint32_t fields[3] = { 0 };
    fields[f->place] = value;
    jv_bits came = jv_write_word(f->command, fields[0], fields[1], fields[2], 0, 0);
    CHECK_HOLDS(came.number == (is_named(f, value) ? JV_DONE : JV_NO_MEANING), "%u is written as it should be",
                (unsigned)value);
}

/* Every value that the bits hold, and many that they do not. */
static void check_named_fields(void)
{
    for (const named_field *f = named_fields; f < named_fields + LENGTH(named_fields); f++) {
        begin_part(f->name);
        for (uint32_t value = 0; value >> (f->high - f->low + 1) == 0; value++)
            check_reading(f, value);
        for (uint32_t value = 0; value <= 100; value++)
            check_writing(f, value);
        check_writing(f, UINT32_MAX);
    }
}

static uint32_t read_number(uint32_t bits)
{
    return jv_read_word(bits).number;
}

static void check_other_fields(void)
{
    const uint32_t size = JV_MAX_SCISSOR, frac = JV_MAX_FRAC, handle = JV_HANDLES - 1;
    begin_part("the scissor");
    CHECK_HOLDS(read_number(SCISSOR_SIZE(size, size)) == JV_DONE, "the largest");
    CHECK_HOLDS(read_number(SCISSOR_SIZE(size + 1, size)) == JV_NO_MEANING, "one too wide");
    CHECK_HOLDS(read_number(SCISSOR_SIZE(size, size + 1)) == JV_NO_MEANING, "one too high");
    begin_part("frac");
    CHECK_HOLDS(read_number(VERTEX_FORMAT(frac)) == JV_DONE, "the largest");
    CHECK_HOLDS(read_number(VERTEX_FORMAT(frac + 1)) == JV_NO_MEANING, "one too large");
    begin_part("handles");
    CHECK_HOLDS(jv_write_word(JV_BITMAP_HANDLE, handle, 0, 0, 0, 0).number == JV_DONE, "BITMAP_HANDLE of the last");
    CHECK_HOLDS(jv_write_word(JV_BITMAP_HANDLE, handle + 1, 0, 0, 0, 0).number == JV_NO_MEANING,
                "BITMAP_HANDLE of one more");
    CHECK_HOLDS(jv_write_word(JV_VERTEX2II, 0, 0, handle, 0, 0).number == JV_DONE, "VERTEX2II of the last");
    CHECK_HOLDS(jv_write_word(JV_VERTEX2II, 0, 0, handle + 1, 0, 0).number == JV_NO_MEANING, "VERTEX2II of one more");
}

/* ---- The numbers' texts ---- */

/* Those of both enums, which share 0. */
static const uint32_t numbers[] = {
    JV_DONE,           JV_BAD_FRAME,      JV_BAD_LIST,     JV_BAD_RAM_G,    JV_BAD_LIMIT,
    JV_PAST_END,       JV_NO_COMMAND,     JV_NO_MEANING,   JV_NOT_DRAWN,    JV_FIFTH_CALL,
    JV_NO_CALL,        JV_SPLIT_TARGET,   JV_NO_PRIMITIVE, JV_NO_BITMAP,    JV_LIMIT_REACHED,
    JV_FAR_END,        JV_RING_WAITING,   JV_RING_SWAPPED, JV_RING_UNKNOWN, JV_RING_BAD_MARK,
    JV_RING_LIST_FULL, JV_RING_BAD_RANGE, JV_RING_FAULTY,  JV_RING_BAD_RUN, JV_RING_NO_ROOM,
};

static bool has_text_of_its_own(uint32_t number)
{
    for (size_t n = 0; n < LENGTH(numbers); n++)
        if (numbers[n] == number)
            return true;
    return false;
}

static void check_text(uint32_t number)
{
    const char *text = jv_number_text(number);
    size_t length = strlen(text);
    CHECK_HOLDS(length > 1 && text[length - 1] == '.', "%u has a sentence, not '%s'", (unsigned)number, text);
    CHECK_HOLDS(strcmp(text, jv_number_text(UINT32_MAX)) != 0, "%u is a known number", (unsigned)number);
    for (size_t n = 0; n < LENGTH(numbers); n++)
        CHECK_HOLDS(numbers[n] == number || strcmp(text, jv_number_text(numbers[n])) != 0, "%u and %u differ: '%s'",
                    (unsigned)number, (unsigned)numbers[n], text);
}

static void check_text_says(uint32_t number, long limit)
{
    char digits[32];
    snprintf(digits, sizeof digits, "%ld", limit);
    CHECK_HOLDS(strstr(jv_number_text(number), digits) != NULL, "the text of %u says %s", (unsigned)number, digits);
}

static void check_texts(void)
{
    const char *unknown = jv_number_text(UINT32_MAX);
    begin_part("the numbers' texts");
    CHECK_HOLDS((uint32_t)JV_RING_IDLE == JV_DONE, "both enums share 0");
    CHECK_HOLDS(unknown[0] != '\0', "a number that is not known has a text too");
    for (size_t n = 0; n < LENGTH(numbers); n++)
        check_text(numbers[n]);
    for (uint32_t number = 0; number <= 100; number++)
        CHECK_HOLDS(has_text_of_its_own(number) || strcmp(jv_number_text(number), unknown) == 0, "%u is not known",
                    (unsigned)number);
    check_text_says(JV_BAD_LIST, JV_MIN_LIST_BYTES);
    check_text_says(JV_BAD_LIST, JV_MAX_LIST_BYTES);
    check_text_says(JV_BAD_RAM_G, JV_MAX_RAM_G_BYTES);
    check_text_says(JV_BAD_LIMIT, JV_MAX_LIMIT);
}

int main(void)
{
    check_arguments();
    check_endless_list();
    check_calls();
    check_contexts();
    check_line_ends(true);
    check_line_ends(false);
    check_ring_buffers();
    check_ring_marks();
    check_waiting_words();
    check_named_fields();
    check_other_fields();
    check_texts();
    return end_checks();
}
