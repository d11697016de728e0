#include "reason.h"

#include <inttypes.h>

#include "file.h"
#include "follow.h"
#include "message.h"
#include "word.h"

void print_number(FILE *out, jv_answer answer)
{
    if (answer.number == JV_DONE)
        fprintf(out, "done %" PRIu32, answer.count);
    else if (is_refusal(answer.number))
        fprintf(out, "refused %" PRIu32, answer.number);
    else
        fprintf(out, "fault %" PRIu32 " at %" PRIu32 " after %" PRIu32, answer.number, answer.place, answer.count);
}

bool is_refusal(uint32_t number)
{
    return JV_BAD_FRAME <= number && number <= JV_BAD_LIMIT;
}

bool has_word_at_fault(uint32_t number)
{
    return number != JV_DONE && !is_refusal(number) && number != JV_PAST_END && number != JV_LIMIT_REACHED;
}

/* ---- Runs that do not end ---- */

/* A place beyond the list's end comes from a CALL or JUMP: a run goes on word by word, and returns, no further than to
   the end. */
static void print_past_end(FILE *out, const finished_run *run)
{
    uint32_t place = run->answer.place;
    if (place > run->list->length)
        fprintf(out, "The run would go on at offset %" PRIu32 ", but the list has %zu bytes: a CALL or JUMP leads past "
                     "its end.", place, run->list->length);
    else
        fprintf(out, "The run would go on at offset %" PRIu32 ", where the list ends: DISPLAY is missing, or a CALL, "
                     "JUMP or RETURN leads to the end.", place);
}

static void print_limit_reached(FILE *out, const finished_run *run)
{
    if (run->answer.place >= run->list->length) {
        print_past_end(out, run);
        return;
    }
    fprintf(out, "The run would go on at offset %" PRIu32 ": the list loops, or ", run->answer.place);
    fputs(run->order->limit < JV_MAX_LIMIT ? "needs a higher limit (--limit)." : "is too long for any limit.", out);
}

/* ---- Words that are not drawn ---- */

static void print_not_drawn(FILE *out, uint32_t bits)
{
    switch (jv_read_word(bits).command) {
    case JV_BEGIN:
        fputs("It draws BITMAPS, POINTS, LINES, LINE_STRIP and RECTS.", out);
        break;
    case JV_BITMAP_LAYOUT:
        fputs("It draws bitmaps in the formats ARGB1555, L8 and RGB565.", out);
        break;
    case JV_BITMAP_SIZE:
        fputs("It draws bitmaps with NEAREST and BORDER.", out);
        break;
    case JV_PALETTE_SOURCE:
        fputs("It draws no bitmaps with a palette.", out);
        break;
    case JV_MACRO:
        fputs("It draws no macros.", out);
        break;
    default:
        fputs("It draws no transformed bitmaps.", out);
    }
}

/* ---- Bitmaps ---- */

/* Prints the names whose `is_true` holds, as in 'stride, width'. */
static void print_those(FILE *out, const char *const names[], const bool is_true[], unsigned count)
{
    const char *before = "";
    for (unsigned n = 0; n < count; n++) {
        if (!is_true[n])
            continue;
        fprintf(out, "%s%s", before, names[n]);
        before = ", ";
    }
}

static void print_not_set_up(FILE *out, const drawn_bitmap *b)
{
    static const char *const words[] = { "no BITMAP_SOURCE", "no BITMAP_LAYOUT", "no BITMAP_SIZE" };
    const bool is_missing[] = { !b->bitmap.has_source, !b->bitmap.has_layout, !b->bitmap.has_size };
    fprintf(out, "Before this vertex, handle %" PRIu32 " has had ", b->handle);
    print_those(out, words, is_missing, 3);
    fputc('.', out);
}

static void print_size_0(FILE *out, const drawn_bitmap *b)
{
    static const char *const sizes[] = { "linestride 0", "layout height 0", "width 0", "height 0" };
    const bitmap_handle *h = &b->bitmap;
    const bool is_0[] = { h->stride == 0, h->layout_height == 0, h->width == 0, h->height == 0 };
    fprintf(out, "Handle %" PRIu32 " has ", b->handle);
    print_those(out, sizes, is_0, 4);
    fputc('.', out);
}

static void print_odd_bytes(FILE *out, const drawn_bitmap *b)
{
    fprintf(out, "Handle %" PRIu32 " has source %" PRIu32 " and linestride %" PRIu32 ". ", b->handle, b->bitmap.source,
            b->bitmap.stride);
    fputs("In its format both must be even.", out);
}

static void print_outside_ram_g(FILE *out, const drawn_bitmap *b, const finished_run *run)
{
    uint64_t first = start_of_cell(b), last = end_of_cell(b) - 1;
    size_t length = run->input->ram_g_length;
    fprintf(out, "Cell %" PRIu32 " of handle %" PRIu32 " needs ", b->cell, b->handle);
    if (first == last)
        fprintf(out, "byte %" PRIu64 " of RAM_G, ", first);
    else
        fprintf(out, "bytes %" PRIu64 " to %" PRIu64 " of RAM_G, ", first, last);
    if (run->order->ram_g == NULL)
        fputs("which is not given (--ram-g).", out);
    else
        fprintf(out, "which has %zu %s.", length, plural(length, "byte", "bytes"));
}

static void print_no_bitmap(FILE *out, const finished_run *run)
{
    drawn_bitmap b = follow_to_vertex(run->list, run->answer.place, run->answer.count).bitmap;
    switch (find_bitmap_fault(&b, run->input->ram_g_length)) {
    case NOT_SET_UP:
        print_not_set_up(out, &b);
        break;
    case OF_SIZE_0:
        print_size_0(out, &b);
        break;
    case AT_ODD_BYTES:
        print_odd_bytes(out, &b);
        break;
    default:
        print_outside_ram_g(out, &b, run);
    }
}

/* ---- Lines ---- */

static bool is_within_reach(vertex_place end)
{
    return JV_MIN_END <= end.x && end.x <= JV_MAX_END && JV_MIN_END <= end.y && end.y <= JV_MAX_END;
}

static void print_far_end(FILE *out, const finished_run *run)
{
    followed_vertex v = follow_to_vertex(run->list, run->answer.place, run->answer.count);
    bool is_first = !is_within_reach(v.before);
    vertex_place end = is_first ? v.before : v.at;
    fprintf(out, "The %s end is at x=%" PRId32 " y=%" PRId32 ", in sixteenths of a pixel. ",
            is_first ? "first" : "second", end.x, end.y);
    fprintf(out, "x and y of both ends must be %d to %d.", JV_MIN_END, JV_MAX_END);
}

/* ---- The whole ---- */

static void print_done(FILE *out, uint32_t count)
{
    fprintf(out, "The list draws. Its run fetched %" PRIu32 " %s.", count,
            plural(count, "word", "words"));
}

/* What is to be said of this case, beyond what the number says of all. */
static void print_detail(FILE *out, const finished_run *run)
{
    switch (run->answer.number) {
    case JV_BAD_LIST:
        print_length(out, run->list->length);
        break;
    case JV_BAD_RAM_G:
        print_length(out, run->input->ram_g_length);
        break;
    case JV_PAST_END:
        print_past_end(out, run);
        break;
    case JV_LIMIT_REACHED:
        print_limit_reached(out, run);
        break;
    case JV_NO_COMMAND:
    case JV_NO_MEANING:
        print_why_refused(out, word_at(run->list, run->answer.place));
        fputc('.', out);
        break;
    case JV_NOT_DRAWN:
        print_not_drawn(out, word_at(run->list, run->answer.place));
        break;
    case JV_FIFTH_CALL:
        fputs("One of them must RETURN first.", out);
        break;
    case JV_NO_CALL:
        fputs("Only a CALL may lead here: end the words before it with DISPLAY or JUMP.", out);
        break;
    case JV_SPLIT_TARGET:
        fputs("Offsets are in bytes: the third word is at offset 8.", out);
        break;
    case JV_NO_PRIMITIVE:
        fputs("Put BEGIN before it.", out);
        break;
    case JV_NO_BITMAP:
        print_no_bitmap(out, run);
        break;
    default:
        print_far_end(out, run);
    }
}

void print_reason(FILE *out, const finished_run *run)
{
    if (run->answer.number == JV_DONE) {
        print_done(out, run->answer.count);
        return;
    }
    fprintf(out, "%s ", jv_number_text(run->answer.number));
    print_detail(out, run);
}
