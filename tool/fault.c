#include "fault.h"

#include <inttypes.h>

bool blame(faults *f, const char *format, ...)
{
    va_list values;
    va_start(values, format);
    if (f->count++ < MOST_FAULTS_TOLD)
        complain_of_line(f->name, f->line, format, values);
    va_end(values);
    return false;
}

void warn(faults *f, const char *format, ...)
{
    va_list values;
    va_start(values, format);
    if (!f->is_quiet && f->warnings++ < MOST_FAULTS_TOLD)
        complain_of_line(f->name, f->line, format, values);
    va_end(values);
}

static void tell_rest_of(const char *name, uint32_t count, const char *one, const char *many)
{
    uint32_t rest = count > MOST_FAULTS_TOLD ? count - MOST_FAULTS_TOLD : 0;
    if (rest > 0)
        complain(name, "%" PRIu32 " more %s", rest, plural(rest, one, many));
}

void tell_rest(const faults *f)
{
    tell_rest_of(f->name, f->count, "line is wrong", "lines are wrong");
    tell_rest_of(f->name, f->warnings, "warning", "warnings");
}

shown_bytes show(piece p)
{
    return show_bytes(p.start, p.length);
}
