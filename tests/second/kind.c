#include "kind.h"

#include <inttypes.h>
#include <stdio.h>

#include "runner.h"

void expect(bool *agree, bool does_hold, manner how, const char *mistake)
{
    if (!does_hold && how == TELLING)
        printf("    %s\n", mistake);
    *agree = *agree && does_hold;
}

bool is_met(const char *what, unsigned long times, unsigned long least)
{
    if (times < least)
        printf("met too seldom: %s, %lu times of at least %lu\n", what, times, least);
    return times >= least;
}

bool is_number(uint32_t number)
{
    return number <= 4 || (10 <= number && number <= 20);
}

bool is_number_met(const char *by, uint32_t number, unsigned long times, unsigned long least)
{
    char what[64];
    snprintf(what, sizeof what, "number %" PRIu32 "%s", number, by);
    return is_met(what, times, least);
}

void print_numbers_met(const char *what, const unsigned long times[NUMBERS])
{
    printf("%s of each number:", what);
    for (uint32_t number = 0; number < NUMBERS; number++)
        if (is_number(number))
            printf("  %lu of %" PRIu32, times[number], number);
    putchar('\n');
}

void print_actions_met(const unsigned long times[ACTION_KINDS])
{
    printf("actions: %lu clear, %lu point, %lu rectangle, %lu segment, %lu bitmap\n", times[CLEARING], times[A_POINT],
           times[A_RECTANGLE], times[A_SEGMENT], times[A_BITMAP]);
}

bool are_numbers_met(const unsigned long times[NUMBERS], unsigned long least)
{
    bool are_met = true;
    for (uint32_t number = 0; number < NUMBERS; number++)
        if (is_number(number))
            are_met = is_number_met("", number, times[number], least) && are_met;
    return are_met;
}

bool is_nothing_shared(void)
{
    return true;
}
