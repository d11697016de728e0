#include "repainter.h"

#include "jokulvisp.h"

enum { NO_LIST = 0, OLD_LIST = 1, NEW_LIST = 2 };

/* No run fetches more words than the largest limit, and no word makes two actions. */
typedef struct {
    run_action action[JV_MAX_LIMIT];
    size_t count;
} kept_actions;

/* ---- The runs ---- */

static void keep(void *taker, const run_action *action)
{
    kept_actions *kept = taker;
    kept->action[kept->count++] = *action;
}

static run_answer run_and_keep(kept_actions *kept, const run_request *r)
{
    kept->count = 0;
    return run_list_for_actions(r, keep, kept);
}

run_request old_run_of(const repaint_request *request)
{
    run_request run = request->paint.run;
    run.list = request->old_list;
    run.list_length = request->old_list_length;
    return run;
}

/* ---- Which rows are marked ---- */

/* The first action from `from` on that reaches the row; the number of actions where none does. */
static size_t next_reaching(const kept_actions *kept, size_t from, uint32_t width, uint32_t row)
{
    while (from < kept->count && !does_reach_row(&kept->action[from], width, row))
        from++;
    return from;
}

static bool do_actions_differ(const kept_actions *old, const kept_actions *new, uint32_t width, uint32_t row)
{
    size_t o = next_reaching(old, 0, width, row), n = next_reaching(new, 0, width, row);
    while (o < old->count && n < new->count) {
        if (!are_equal_actions(&old->action[o], &new->action[n]))
            return true;
        o = next_reaching(old, o + 1, width, row);
        n = next_reaching(new, n + 1, width, row);
    }
    return o < old->count || n < new->count;
}

static uint32_t mark_rows(const repaint_request *r, const kept_actions *old, const kept_actions *new)
{
    uint32_t marked = 0;
    for (uint32_t row = 0; row < r->paint.run.height; row++) {
        r->marks[row] = do_actions_differ(old, new, r->paint.run.width, row) ? 1 : 0;
        marked += r->marks[row];
    }
    return marked;
}

/* ---- Their repair ---- */

static void repaint_rows(const repaint_request *r, uint32_t first, uint32_t count)
{
    size_t width = r->paint.run.width;
    paint_request rows = r->paint;
    rows.picture += 3 * width * first;
    rows.picture_length = 3 * width * count;
    rows.tags += width * first;
    rows.tags_length = width * count;
    paint_frame_rows(&rows, first, count);
}

/* Those that follow each other are painted at once. */
static void repaint_marked_rows(const repaint_request *r)
{
    uint32_t first = 0;
    for (uint32_t row = 0; row <= r->paint.run.height; row++) {
        if (row < r->paint.run.height && r->marks[row] != 0)
            continue;
        if (first < row)
            repaint_rows(r, first, row - first);
        first = row + 1;
    }
}

/* ---- The call ---- */

static bool is_lent_for_frame(const repaint_request *r)
{
    size_t pixels = (size_t)r->paint.run.width * r->paint.run.height;
    return r->paint.picture_length == 3 * pixels && r->paint.tags_length == pixels &&
           r->marks_length == r->paint.run.height;
}

static repaint_answer told_of(uint32_t list, run_answer ran)
{
    return (repaint_answer){ ran.number, list, ran.place, ran.count };
}

/* 1 to 4 in their order; the runs' answers are alike but for 2, and have place and count 0. */
static repaint_answer refusal(const repaint_request *r, run_answer old, run_answer new)
{
    if (old.number == JV_BAD_FRAME || !is_lent_for_frame(r))
        return (repaint_answer){ JV_BAD_FRAME, NO_LIST, 0, 0 };
    if (old.number == JV_BAD_LIST)
        return told_of(OLD_LIST, old);
    if (new.number == JV_BAD_LIST)
        return told_of(NEW_LIST, new);
    if (old.number <= JV_BAD_LIMIT && old.number != JV_DONE)
        return told_of(NO_LIST, old);
    return old.number != JV_DONE ? told_of(OLD_LIST, old) : told_of(NEW_LIST, new);
}

repaint_answer repaint_frame(const repaint_request *request)
{
    static kept_actions old, new;
    run_request old_run = old_run_of(request);
    run_answer old_ran = run_and_keep(&old, &old_run), new_ran = run_and_keep(&new, &request->paint.run);
    bool draw = old_ran.number == JV_DONE && new_ran.number == JV_DONE;
    if (!draw || !is_lent_for_frame(request))
        return refusal(request, old_ran, new_ran);
    uint32_t marked = mark_rows(request, &old, &new);
    repaint_marked_rows(request);
    return (repaint_answer){ JV_DONE, NO_LIST, 0, marked };
}
