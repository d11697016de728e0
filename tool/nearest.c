#include "nearest.h"

#include "names.h"

/* No command is longer, so that a longer piece is near to none. */
enum { MOST_LETTERS = 20, NEAR_ENOUGH = 2 };

static bool is_same_letter(char a, char b)
{
    return a == b || ('a' <= a && a <= 'z' && a - 'a' + 'A' == b);
}

static unsigned least_of(unsigned a, unsigned b, unsigned c)
{
    unsigned least = a < b ? a : b;
    return least < c ? least : c;
}

/* Goes from how many letters have to be put in, left out or changed to make each beginning of `name` out of some
   letters to how many it takes with one letter more. */
static void add_letter(unsigned steps[MOST_LETTERS + 1], char letter, piece name)
{
    unsigned without_both = steps[0]++;
    for (size_t n = 1; n <= name.length; n++) {
        unsigned changed = without_both + (is_same_letter(name.start[n - 1], letter) ? 0 : 1);
        without_both = steps[n];
        steps[n] = least_of(steps[n - 1] + 1, steps[n] + 1, changed);
    }
}

static unsigned count_steps(piece name, const char *command)
{
    unsigned steps[MOST_LETTERS + 1];
    for (unsigned n = 0; n <= MOST_LETTERS; n++)
        steps[n] = n;
    for (; *command != '\0'; command++)
        add_letter(steps, *command, name);
    return steps[name.length];
}

const char *find_nearest(piece name)
{
    const char *nearest = NULL;
    unsigned least = NEAR_ENOUGH + 1;
    for (size_t n = 0; name.length <= MOST_LETTERS && names_at(n) != NULL; n++) {
        unsigned steps = count_steps(name, names_at(n)->name);
        if (steps < least)
            nearest = names_at(n)->name;
        least = steps < least ? steps : least;
    }
    return nearest;
}
