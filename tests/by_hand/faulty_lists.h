/* Lists that paint everything and then are at fault, one for each cause of the fault numbers and more. */
#ifndef FAULTY_LISTS_H
#define FAULTY_LISTS_H

#include <stddef.h>
#include <stdint.h>

#include "../second/runner.h"
#include "hand_pictures.h"

/* Words that paint everything, before whatever is at fault. */
#define PAINT_ALL CLEAR_COLOR_RGB(255, 255, 255), CLEAR(1, 1, 1), BEGIN_EVERYWHERE, EVERYWHERE
enum { PAINT_ALL_WORDS = 5 };

typedef struct {
    int line;
    const char *name;
    const uint32_t *words;
    size_t count;
    uint32_t limit;
    size_t ram_g_length;
    run_answer answer;
} faulty_list;

extern const faulty_list faulty_lists[];
extern const size_t faulty_list_count;

/* The file that the lines are of. */
extern const char *const faulty_lists_file;

#endif
