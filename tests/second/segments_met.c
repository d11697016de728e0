#include "segments_met.h"

#include <stdio.h>

#include "../shared/list_words.h"
#include "kind.h"
#include "painter.h"

static const char *const names[SEGMENT_SORTS] = {
    [IN_LINES] = "in LINES",
    [IN_A_STRIP] = "in a LINE_STRIP",
    [WITH_EQUAL_ENDS] = "with equal ends",
    [OF_WIDTH_0] = "of width 0",
    [AT_THE_BOUND] = "with an end at the bound",
    [IN_SIGHT] = "in sight",
};

static bool is_at_bound(position end)
{
    return end.x == JV_MIN_END || end.x == JV_MAX_END || end.y == JV_MIN_END || end.y == JV_MAX_END;
}

static bool is_in_sight(const run_request *r, const run_action *a)
{
    for (uint32_t row = 0; row < r->height; row++)
        if (does_reach_row(a, r->width, row))
            return true;
    return false;
}

void count_segment(unsigned long times[SEGMENT_SORTS], const run_request *request, const run_action *action)
{
    const segment_shape *s = &action->segment;
    if (action->kind != A_SEGMENT)
        return;
    times[IN_LINES] += s->primitive == LINES ? 1 : 0;
    times[IN_A_STRIP] += s->primitive == LINE_STRIP ? 1 : 0;
    times[WITH_EQUAL_ENDS] += s->from.x == s->to.x && s->from.y == s->to.y ? 1 : 0;
    times[OF_WIDTH_0] += s->width == 0 ? 1 : 0;
    times[AT_THE_BOUND] += is_at_bound(s->from) || is_at_bound(s->to) ? 1 : 0;
    times[IN_SIGHT] += is_in_sight(request, action) ? 1 : 0;
}

void print_segments_met(const unsigned long times[SEGMENT_SORTS])
{
    printf("segments:");
    for (unsigned sort = 0; sort < SEGMENT_SORTS; sort++)
        printf("%s %lu %s", sort == 0 ? "" : ",", times[sort], names[sort]);
    putchar('\n');
}

bool are_segments_met(const unsigned long times[SEGMENT_SORTS], unsigned long least)
{
    bool are_met = true;
    for (unsigned sort = 0; sort < SEGMENT_SORTS; sort++) {
        char what[64];
        snprintf(what, sizeof what, "a segment %s", names[sort]);
        are_met = is_met(what, times[sort], least) && are_met;
    }
    return are_met;
}
