#include "check.h"

#include <stdarg.h>
#include <stdio.h>

enum { SHOWN_IN_A_PART = 20 };

static const char *part = "";
static unsigned long made, failed, failed_in_part;

static void end_part(void)
{
    if (failed_in_part > SHOWN_IN_A_PART)
        printf("%s: %lu more failed checks are not shown\n", part, failed_in_part - SHOWN_IN_A_PART);
    failed_in_part = 0;
}

void begin_part(const char *name)
{
    end_part();
    part = name;
}

int end_checks(void)
{
    end_part();
    printf("%lu checks, %lu of them failed\n", made, failed);
    return made > 0 && failed == 0 ? 0 : 1;
}

bool is_to_be_told(const char *file, int line, bool is_so)
{
    made++;
    if (is_so)
        return false;
    failed++;
    failed_in_part++;
    if (failed_in_part > SHOWN_IN_A_PART)
        return false;
    printf("%s:%d: %s: ", file, line, part);
    return true;
}

void check_holds(const char *file, int line, bool is_so, const char *format, ...)
{
    if (!is_to_be_told(file, line, is_so))
        return;
    va_list values;
    va_start(values, format);
    fputs("should hold and does not: ", stdout);
    vprintf(format, values);
    putchar('\n');
    va_end(values);
}
