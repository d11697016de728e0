/* The second program's answers as the header spells them. */
#ifndef ANSWERS_H
#define ANSWERS_H

#include "jokulvisp.h"
#include "repainter.h"
#include "ringer.h"
#include "runner.h"

/* Of a call that takes one list, so that there is none to name. */
static inline jv_answer as_answer(run_answer a)
{
    return (jv_answer){ a.number, 0, a.place, a.count };
}

static inline jv_answer as_repaint_answer(repaint_answer a)
{
    return (jv_answer){ a.number, a.list, a.place, a.count };
}

static inline jv_ring as_ring_answer(ring_answer a)
{
    ring_marks m = a.marks;
    return (jv_ring){ a.number, a.place, a.count, a.reported, m.read, m.write, m.offset, m.fault };
}

#endif
